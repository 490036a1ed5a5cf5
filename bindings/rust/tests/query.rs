//! How a query is asked: rows of every form, groups, sets of columns, and answers one by one.
use finialbasil::{query, Answer, Answers, Columns, Engine, Refusal, Rows, Table, Term};

/// Volts, price, brand.
const MOTORS: [[i32; 3]; 4] = [[24, 90, 7], [24, 80, 7], [24, 95, 9], [12, 70, 9]];

fn cheapest() -> Result<(Table, Term), Refusal> {
    let mut table = Table::new();
    let price = table.lowest(1)?;
    Ok((table, price))
}

#[test]
fn rows_of_every_form() -> Result<(), Refusal> {
    let (table, price) = cheapest()?;
    let expected = [3, 3, 3, 3];
    let asked = table.query(price);
    assert_eq!(asked.run(&MOTORS)?.entries(), expected);
    assert_eq!(asked.run(&MOTORS[..])?.entries(), expected);
    assert_eq!(asked.run(&MOTORS.to_vec())?.entries(), expected);
    let flat = [24, 90, 7, 24, 80, 7, 24, 95, 9, 12, 70, 9];
    assert_eq!(asked.run(Rows::flat(&flat, 3))?.entries(), expected);
    // The same run in rows of two columns: the prices are 90, 24, 7, 95, 9 and 70.
    assert_eq!(asked.run(Rows::flat(&flat, 2))?.entries(), [2; 6]);

    let rows = Rows::from(&MOTORS);
    assert_eq!((rows.len(), rows.columns(), rows.is_empty()), (4, 3, false));
    assert_eq!(rows, Rows::flat(&flat, 3));
    assert_eq!(rows, Rows::from(&MOTORS[..]));
    assert_eq!(rows, Rows::from(&MOTORS.to_vec()));
    Ok(())
}

#[test]
fn how_many_rows_there_are() {
    let counts = [
        (0, 3, 0),
        (2, 3, 0),
        (3, 3, 1),
        (7, 3, 2),
        (7, 1, 7),
        (7, 0, 0),
    ];
    for (numbers, columns, expected) in counts {
        let numbers = vec![0; numbers];
        let rows = Rows::flat(&numbers, columns);
        assert_eq!((rows.len(), rows.columns()), (expected, columns));
        assert_eq!(rows.is_empty(), expected == 0);
    }
    let none: [[i32; 5]; 0] = [];
    assert_eq!(
        (Rows::from(&none).len(), Rows::from(&none).columns()),
        (0, 5)
    );
    // Rows without columns are none, however many there are.
    assert_eq!(
        (Rows::from(&[[]; 3]).len(), Rows::from(&[[]; 3]).columns()),
        (0, 0)
    );
}

/// Price alone; within volts; within brand; within both.
#[test]
fn groups() -> Result<(), Refusal> {
    let (table, price) = cheapest()?;
    for engine in [Engine::Auto, Engine::Direct, Engine::ByParts] {
        let asked = table.query(price).engine(engine);
        assert_eq!(asked.run(&MOTORS)?.entries(), [3, 3, 3, 3]);
        assert_eq!(asked.group_by([]).run(&MOTORS)?.entries(), [3, 3, 3, 3]);
        assert_eq!(asked.group_by([0]).run(&MOTORS)?.entries(), [1, 1, 1, 3]);
        assert_eq!(asked.group_by([2]).run(&MOTORS)?.entries(), [1, 1, 3, 3]);
        let both = [1, 1, 2, 3];
        assert_eq!(asked.group_by([0, 2]).run(&MOTORS)?.entries(), both);
        assert_eq!(asked.group_by([2, 0, 2]).run(&MOTORS)?.entries(), both);
        assert_eq!(
            asked.group_by([0]).group_by([2]).run(&MOTORS)?.entries(),
            both
        );
        assert_eq!(
            asked.group_by((0..3).step_by(2)).run(&MOTORS)?.entries(),
            both
        );
        let set = Columns::from_bits(0b101);
        assert_eq!(asked.group_by(set).run(&MOTORS)?.entries(), both);
    }
    Ok(())
}

/// What the check reports can be given to a query as it is.
#[test]
fn grouped_by_what_a_table_reads() -> Result<(), Refusal> {
    let (table, price) = cheapest()?;
    let mut volts = Table::new();
    volts.around(0, 24)?;
    let columns = volts.check(3)?.columns;
    let answers = table.query(price).group_by(columns).run(&MOTORS)?;
    assert_eq!(answers.entries(), [1, 1, 1, 3]);
    Ok(())
}

#[test]
fn a_query_may_be_run_again() -> Result<(), Refusal> {
    let (table, price) = cheapest()?;
    let by_volts = table.query(price).group_by([0]);
    assert_eq!(by_volts.run(&MOTORS)?.entries(), [1, 1, 1, 3]);
    assert_eq!(by_volts.run(&MOTORS[2..])?.entries(), [0, 1]);
    let bytes = query(table.as_bytes(), price.record()).group_by([0]);
    assert_eq!(bytes.run(&MOTORS), by_volts.run(&MOTORS));
    Ok(())
}

#[test]
fn sets_of_columns() {
    assert_eq!(Columns::NONE, Columns::default());
    assert_eq!(Columns::of([]), Some(Columns::NONE));
    assert!(Columns::NONE.is_empty() && Columns::NONE.iter().next().is_none());
    assert_eq!((Columns::NONE.bits(), Columns::NONE.len()), (0, 0));

    let set = Columns::of([7, 0, 3, 0]).unwrap();
    // 128 for column 7, 1 for column 0, 8 for column 3.
    assert_eq!((set.bits(), set.len(), set.is_empty()), (137, 3, false));
    assert_eq!(set, Columns::from_bits(137));
    assert_eq!(set.iter().collect::<Vec<_>>(), [0, 3, 7]);
    assert_eq!(set.into_iter().collect::<Vec<_>>(), [0, 3, 7]);
    assert_eq!(set.iter().len(), 3);
    for column in 0..300 {
        assert_eq!(set.contains(column), [0, 3, 7].contains(&column));
    }
    assert!(!set.contains(usize::MAX));
    assert_eq!(Columns::of(0..8), Some(Columns::from_bits(255)));
    for beyond in [8, 64, 256, usize::MAX] {
        assert_eq!(Columns::of([0, beyond]), None);
        assert_eq!(Columns::of([beyond, 0]), None);
    }
}

#[test]
fn answers_one_by_one() -> Result<(), Refusal> {
    let (table, price) = cheapest()?;
    let answers: Answers = table.query(price).group_by([0]).run(&MOTORS)?;
    let by = |by| Answer::Dropped { by };
    let expected = [by(1), Answer::Kept, by(1), Answer::Kept];
    let mut seen = Vec::new();
    for answer in &answers {
        seen.push(answer);
    }
    assert_eq!(seen, expected);
    assert_eq!(answers.iter().collect::<Vec<_>>(), expected);
    assert_eq!(
        (answers.iter().len(), answers.clone().into_iter().len()),
        (4, 4)
    );
    let mut rest = answers.iter();
    rest.next();
    assert_eq!((rest.len(), rest.size_hint()), (3, (3, Some(3))));
    seen.clear();
    for answer in answers {
        seen.push(answer);
    }
    assert_eq!(seen, expected);
    Ok(())
}
