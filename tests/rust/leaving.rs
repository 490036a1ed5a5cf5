//! A query by groups with dropped rows left out (SPECIFICATION, "Leaving out rows"), worked out by hand.
use finialbasil::{Engine, Refusal, Table, Term};

const ENGINES: [Engine; 3] = [Engine::Auto, Engine::Direct, Engine::ByParts];

/// Volts, price, weight. Motors of equal volts are weighed against each other, price and weight equally.
const MOTORS: [[i32; 3]; 7] = [
    [24, 90, 14], // 2 is cheaper and lighter, and so is 6
    [12, 70, 9],
    [24, 80, 12],
    [12, 60, 10],
    [24, 85, 13], // 2 is cheaper and lighter, and so is 6
    [12, 75, 11], // 1 is cheaper and lighter, and so is 3
    [24, 80, 12], // equal to 2
];

fn price_and_weight() -> Result<(Table, Term), Refusal> {
    let mut table = Table::new();
    let (price, weight) = (table.lowest(1)?, table.lowest(2)?);
    let wish = table.pareto(price, weight)?;
    Ok((table, wish))
}

fn motors(numbers: &[usize]) -> Vec<[i32; 3]> {
    numbers.iter().map(|number| MOTORS[*number]).collect()
}

/// By the motors that are left: the kept ones, 1, 2, 3 and 6, and of the others some, none or all.
#[test]
fn dropped_motors_are_left_out() -> Result<(), Refusal> {
    let (table, wish) = price_and_weight()?;
    let cases: [(&[usize], &[u16]); 5] = [
        (&[0, 1, 2, 3, 4, 5, 6], &[2, 1, 2, 3, 2, 1, 6]),
        // Motor 2, which motor 4 names, is row 1; motor 1, which motor 5 names, is row 0.
        (&[1, 2, 3, 4, 5, 6], &[0, 1, 2, 1, 0, 5]),
        (&[0, 1, 2, 3, 4, 6], &[2, 1, 2, 3, 2, 5]),
        (&[1, 2, 3, 5, 6], &[0, 1, 2, 0, 4]),
        (&[1, 2, 3, 6], &[0, 1, 2, 3]),
    ];
    for engine in ENGINES {
        let by_volts = table.query(wish).group_by([0]).engine(engine);
        for (left, expected) in cases {
            let answers = by_volts.run(&motors(left))?;
            assert_eq!(answers.entries(), expected, "{engine:?} {left:?}");
            let kept: Vec<usize> = answers.kept().map(|row| left[row]).collect();
            assert_eq!(kept, [1, 2, 3, 6], "{engine:?} {left:?}");
        }
    }
    Ok(())
}

/// Motors 0 to 3 and 4 to 6. Motor 5, the only one of 12 volts on its side, is kept apart; together, 1 is better.
#[test]
fn two_catalogues_of_motors() -> Result<(), Refusal> {
    let (table, wish) = price_and_weight()?;
    let (first, second) = MOTORS.split_at(4);
    for engine in ENGINES {
        let by_volts = table.query(wish).group_by([0]).engine(engine);
        assert_eq!(by_volts.run(first)?.entries(), [2, 1, 2, 3]);
        assert_eq!(by_volts.run(second)?.entries(), [2, 1, 2]);
        let together = by_volts.run(&motors(&[1, 2, 3, 5, 6]))?;
        assert_eq!(together.entries(), [0, 1, 2, 0, 4]);
    }
    Ok(())
}
