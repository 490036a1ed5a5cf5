//! Which motors to quote: around 24 volts; then price and weight, ranking equally.
use finialbasil::{Answer, Refusal, Table};

pub(crate) fn report() -> Result<String, Refusal> {
    let mut table = Table::new();
    let volts = table.around(0, 24)?;
    let price = table.lowest(1)?;
    let weight = table.lowest(2)?;
    let equally = table.pareto(price, weight)?;
    let wish = table.prior(volts, equally)?;

    let motors = [[24, 90, 12], [24, 80, 15], [24, 85, 16], [12, 50, 5]];
    let answers = table.query(wish).run(&motors)?;
    let mut report = format!("{} of {} kept\n", answers.kept_count(), answers.len());
    report.extend(
        answers
            .iter()
            .enumerate()
            .map(|(motor, answer)| match answer {
                Answer::Kept => format!("{motor} kept\n"),
                Answer::Dropped { by } => format!("{motor} dropped: {by} is better\n"),
            }),
    );
    Ok(report)
}

fn main() -> Result<(), Refusal> {
    print!("{}", report()?);
    Ok(())
}
