//! The wish that README.md has in words and as a table of records.
use finialbasil::{Refusal, Table};

const VOLTAGE: usize = 0;
const PRICE: usize = 1;
const WEIGHT: usize = 2;
const POWER: usize = 3;
const SPEED: usize = 4;
const DELIVERY: usize = 7;

/// The table of the wish. The term that is added last is the top, which `pick` asks for.
pub fn wish() -> Result<Table, Refusal> {
    let mut table = Table::new();
    let voltage = table.around(VOLTAGE, 24)?;
    let power = table.pos(POWER, &[60, 75, 90])?;
    let price = table.lowest(PRICE)?;
    let weight = table.lowest(WEIGHT)?;
    let cheap_and_light = table.pareto(price, weight)?;
    let speed = table.between(SPEED, 2_800, 3_200)?;
    let delivery = table.neg(DELIVERY, &[28, 42])?;
    let right_and_soon = table.pareto(speed, delivery)?;
    let equally = table.pareto(cheap_and_light, right_and_soon)?;
    let power_first = table.prior(power, equally)?;
    table.prior(voltage, power_first)?;
    Ok(table)
}
