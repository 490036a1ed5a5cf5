//! Of twelve valves, those "10 to 16 bar as nearly as possible, then price and weight equally, brand 7 favourite, brand
//! 9 disliked, by connection size". Asks the wish word for word, then by distance and class: README.md says why.
use finialbasil::{Answer, Answers, Refusal, Table};
use std::process::ExitCode;

const BAR: usize = 0;
const CENTS: usize = 1;
const GRAMS: usize = 2;
const BRAND: usize = 3;
const SIZE: usize = 4;
const DISTANCE: usize = 5;
const CLASS: usize = 6;

const VALVES: [[i32; 5]; 12] = [
    [16, 4500, 300, 3, 15],   // 0
    [12, 9000, 350, 3, 15],   // 1
    [16, 4800, 320, 4, 15],   // 2
    [16, 5200, 340, 3, 15],   // 3
    [25, 2900, 250, 7, 15],   // 4
    [10, 7800, 610, 7, 25],   // 5
    [10, 7800, 610, 9, 25],   // 6
    [10, 6900, 700, 9, 25],   // 7
    [16, 8200, 640, 3, 25],   // 8
    [6, 19000, 2100, 7, 50],  // 9
    [8, 26000, 2600, 3, 50],  // 10
    [18, 24000, 2400, 3, 50], // 11
];

fn word_for_word() -> Result<Answers, Refusal> {
    let mut table = Table::new();
    let pressure = table.between(BAR, 10, 16)?;
    let price = table.lowest(CENTS)?;
    let weight = table.lowest(GRAMS)?;
    let brand = table.pos_neg(BRAND, &[7], &[9])?;
    let two_equally = table.pareto(price, weight)?;
    let three_equally = table.pareto(two_equally, brand)?;
    let wish = table.prior(pressure, three_equally)?;
    table.query(wish).group_by([SIZE]).run(&VALVES)
}

/// 12 and 16 bar are equally good, and so are brands 3 and 4, but different numbers are not equal. Their distances are
/// equal, and so are their classes: hand these over as columns of their own, and ask LOWEST of them.
fn by_distance_and_class() -> Result<Answers, Refusal> {
    let valves = VALVES.map(|[bar, cents, grams, brand, size]| {
        let distance = (10 - bar).max(bar - 16).max(0);
        let class = match brand {
            7 => 0,
            9 => 2,
            _ => 1,
        };
        [bar, cents, grams, brand, size, distance, class]
    });
    let mut table = Table::new();
    let pressure = table.lowest(DISTANCE)?;
    let price = table.lowest(CENTS)?;
    let weight = table.lowest(GRAMS)?;
    let brand = table.lowest(CLASS)?;
    let two_equally = table.pareto(price, weight)?;
    let three_equally = table.pareto(two_equally, brand)?;
    let wish = table.prior(pressure, three_equally)?;
    table.query(wish).group_by([SIZE]).run(&valves)
}

fn show(wish: &str, answers: &Answers) {
    let (kept, all) = (answers.kept_count(), answers.len());
    println!("{wish}: {kept} of {all} valves kept");
    for (i, (valve, answer)) in VALVES.iter().zip(answers).enumerate() {
        let [bar, cents, grams, brand, size] = valve;
        print!("{i:2}: {bar:2} bar, {cents:5} cents, {grams:4} g, brand {brand}, DN {size}: ");
        match answer {
            Answer::Kept => println!("kept"),
            Answer::Dropped { by } => println!("dropped, {by} is better"),
        }
    }
}

fn show_both() -> Result<(), Refusal> {
    show("The wish word for word", &word_for_word()?);
    show("The wish by distance and class", &by_distance_and_class()?);
    Ok(())
}

fn main() -> ExitCode {
    match show_both() {
        Ok(()) => ExitCode::SUCCESS,
        Err(refusal) => {
            eprintln!("{refusal}"); // what is wrong and what to do, with the word of the refusal at its end
            ExitCode::FAILURE
        }
    }
}
