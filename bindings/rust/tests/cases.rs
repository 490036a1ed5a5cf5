//! The cases of SPECIFICATION, "Worked cases", and its limits: built with the builder, answered by each engine.
use finialbasil::{
    compare, perfect, query, Answer, Columns, Engine, Mark, Outcome, Refusal, Rows, Table, Term,
};
use finialbasil::{BY_PARTS_FROM, MOST_ROWS};

const ENGINES: [Engine; 3] = [Engine::Auto, Engine::Direct, Engine::ByParts];

/// Rows V; columns 3 to 7, all zero there, are left out.
const V: [[i32; 3]; 7] = [
    [-5, 3, 4],
    [-5, 4, 4],
    [5, 1, 8],
    [5, 6, 6],
    [-6, 0, 6],
    [-6, 0, 4],
    [6, 2, 7],
];

/// T1 with its terms in record order.
fn t1() -> Result<(Table, [Term; 5]), Refusal> {
    let mut table = Table::new();
    let near = table.around(0, 0)?;
    let low = table.lowest(1)?;
    let equally = table.pareto(near, low)?;
    let high = table.highest(2)?;
    let top = table.pareto(equally, high)?;
    Ok((table, [near, low, equally, high, top]))
}

/// The entries, by the methods and by the functions over bytes, with each engine and in both forms.
fn answers(table: &Table, columns: usize, rows: &[i32], term: Term, group: u8, expected: &[u16]) {
    let kept: Vec<usize> = (0..expected.len())
        .filter(|row| usize::from(expected[*row]) == *row)
        .collect();
    let rows = Rows::flat(rows, columns);
    let group = Columns::from_bits(group);
    for engine in ENGINES {
        let by_methods = table.query(term).group_by(group).engine(engine);
        let got = by_methods.run(rows).unwrap();
        assert_eq!(got.entries(), expected, "{engine:?}");
        assert_eq!(got.len(), expected.len());
        assert_eq!(got.kept_count(), kept.len(), "{engine:?}");
        assert_eq!(got.kept().collect::<Vec<_>>(), kept, "{engine:?}");
        let over_bytes = query(table.as_bytes(), term.record())
            .group_by(group)
            .engine(engine);
        assert_eq!(over_bytes.run(rows), Ok(got));

        // Two entries more than rows, which keep their contents.
        let mut buffer = vec![0xa5a5; expected.len() + 2];
        let count = by_methods.run_into(rows, &mut buffer);
        assert_eq!(count, Ok(kept.len()), "{engine:?}");
        assert_eq!(buffer, [expected, &[0xa5a5; 2]].concat(), "{engine:?}");
        let mut other = vec![0xa5a5; expected.len() + 2];
        let count = over_bytes.run_into(rows, &mut other);
        assert_eq!((count, other), (Ok(kept.len()), buffer), "{engine:?}");
    }
}

#[test]
fn t1_over_v() -> Result<(), Refusal> {
    let (table, [.., top]) = t1()?;
    let summary = table.check(3)?;
    assert_eq!((summary.records, summary.top), (5, 4));
    assert_eq!((summary.columns.bits(), summary.column_count), (0b111, 3));
    assert_eq!(table.top(), Some(top));
    answers(&table, 3, V.as_flattened(), top, 0, &[0, 0, 2, 2, 4, 4, 2]);
    Ok(())
}

/// The top is the last term, not the last record, and need not read every column.
#[test]
fn what_the_check_says() -> Result<(), Refusal> {
    let mut table = Table::new();
    let low = table.lowest(2)?;
    let flipped = table.dual(low)?;
    let summary = table.check(5)?;
    assert_eq!((summary.records, summary.top), (2, flipped.record()));
    assert_eq!((summary.columns.bits(), summary.column_count), (0b100, 1));

    let mut table = Table::new();
    table.pos(7, &[1, 2])?;
    let summary = table.check(8)?;
    assert_eq!((summary.records, summary.top), (3, 0));
    assert_eq!((summary.columns.bits(), summary.column_count), (128, 1));
    assert_eq!(summary.columns.iter().collect::<Vec<_>>(), [7]);
    assert!(summary.columns.contains(7) && !summary.columns.contains(6));
    assert!(!summary.columns.contains(8) && !summary.columns.contains(usize::MAX));
    Ok(())
}

#[test]
fn t1_over_v_row_by_row() -> Result<(), Refusal> {
    let (table, [.., top]) = t1()?;
    let got = table.query(top).run(&V)?;
    let by = |by| Answer::Dropped { by };
    let kept = Answer::Kept;
    let expected = [kept, by(0), kept, by(2), kept, by(4), by(2)];
    assert_eq!(got.iter().collect::<Vec<_>>(), expected);
    assert_eq!(got.iter().len(), 7);
    assert_eq!((got.get(6), got.get(7)), (Some(by(2)), None));
    assert!(!got.is_empty() && kept.is_kept() && !by(2).is_kept());
    Ok(())
}

#[test]
fn around_prior_lowest_over_v() -> Result<(), Refusal> {
    let mut table = Table::new();
    let (near, low) = (table.around(0, 0)?, table.lowest(1)?);
    let top = table.prior(near, low)?;
    assert_eq!(table.check(3)?.columns.iter().collect::<Vec<_>>(), [0, 1]);
    answers(&table, 3, V.as_flattened(), top, 0, &[0, 0, 2, 2, 0, 0, 0]);
    Ok(())
}

#[test]
fn t1_record_1_over_v_by_group() -> Result<(), Refusal> {
    let (table, [_, low, ..]) = t1()?;
    answers(&table, 3, V.as_flattened(), low, 1, &[0, 0, 2, 2, 4, 5, 6]);
    Ok(())
}

#[test]
fn example_3() -> Result<(), Refusal> {
    let mut table = Table::new();
    let (pos, neg) = (table.pos(0, &[2, 3])?, table.neg(0, &[1, 2, 4, 6])?);
    let top = table.pareto(pos, neg)?;
    answers(&table, 1, &[1, 2, 3, 4, 5, 6], top, 0, &[2, 1, 2, 2, 4, 2]);
    Ok(())
}

#[test]
fn example_8() -> Result<(), Refusal> {
    let mut table = Table::new();
    let top = table.explicit(0, &[(4, 3), (4, 2), (3, 1)])?;
    answers(&table, 1, &[3, 2, 4, 6], top, 0, &[0, 1, 0, 0]);
    Ok(())
}

#[test]
fn beaten_under_both_placings_by_different_rows() -> Result<(), Refusal> {
    let rows = [[1, 5], [5, 1], [3, 3]];
    let mut table = Table::new();
    let (first, second) = (table.lowest(0)?, table.lowest(1)?);
    let top = table.pareto(first, second)?;
    answers(&table, 2, rows.as_flattened(), top, 0, &[0, 1, 2]);
    for (columns, expected) in [([0, 1], [0, 0, 0]), ([1, 0], [1, 1, 1])] {
        let mut table = Table::new();
        let (left, right) = (table.lowest(columns[0])?, table.lowest(columns[1])?);
        let top = table.prior(left, right)?;
        answers(&table, 2, rows.as_flattened(), top, 0, &expected);
    }
    Ok(())
}

#[test]
fn distances_do_not_wrap() -> Result<(), Refusal> {
    let mut table = Table::new();
    let top = table.around(0, 2_147_483_647)?;
    answers(&table, 1, &[-2_147_483_648, 0], top, 0, &[1, 1]);
    Ok(())
}

#[test]
fn no_rows() -> Result<(), Refusal> {
    let (table, [.., top]) = t1()?;
    answers(&table, 3, &[], top, 0, &[]);
    for engine in ENGINES {
        let (query, none) = (table.query(top).engine(engine), Rows::flat(&[], 3));
        let got = query.run(none)?;
        assert!(got.is_empty() && got.kept().next().is_none());
        assert_eq!(query.run_into(none, &mut []), Ok(0));
    }
    Ok(())
}

#[test]
fn rows_to_the_limit() -> Result<(), Refusal> {
    let mut table = Table::new();
    let top = table.lowest(0)?;
    // Falling values: the last row is better than each before it.
    let falling: Vec<i32> = (0..1024).rev().collect();
    answers(&table, 1, &falling, top, 0, &[1023; 1024]);
    // Each row a group of its own.
    let own: Vec<u16> = (0..1024).collect();
    answers(&table, 1, &falling, top, 1, &own);
    // Around the change of the engine.
    for rows in [1, BY_PARTS_FROM - 1, BY_PARTS_FROM, BY_PARTS_FROM + 1] {
        let last = u16::try_from(rows - 1).unwrap();
        answers(&table, 1, &falling[..rows], top, 0, &vec![last; rows]);
    }
    for engine in ENGINES {
        let got = table.query(top).engine(engine).run(&[[0]; 1025]);
        assert_eq!(got.unwrap_err().reason().to_string(), "15 ROWS");
    }
    Ok(())
}

#[test]
fn eight_columns_of_1024_rows() -> Result<(), Refusal> {
    let (table, [.., top]) = t1()?;
    // V at the start of 1,024 rows of eight columns; all others are equal to its row 6, so row 2 betters them.
    let mut rows = Vec::new();
    for i in 0..MOST_ROWS {
        rows.extend(V[i.min(6)]);
        rows.extend([0; 5]);
    }
    let mut expected = vec![0, 0, 2, 2, 4, 4];
    expected.resize(1024, 2);
    answers(&table, 8, &rows, top, 0, &expected);
    Ok(())
}

#[test]
fn comparing() -> Result<(), Refusal> {
    let (table, [near, low, _, _, top]) = t1()?;
    let cases = [
        (top, 2, 3, Outcome::FirstBetter),
        (top, 3, 2, Outcome::SecondBetter),
        // The same distance to 0 is not the same value.
        (top, 0, 2, Outcome::Unranked),
        (near, 0, 2, Outcome::Unranked),
        (low, 4, 5, Outcome::Same),
        (top, 4, 5, Outcome::FirstBetter),
        (top, 6, 6, Outcome::Same),
    ];
    for (term, first, second, expected) in cases {
        let got = table.compare(term, &V[first], &V[second])?;
        assert_eq!(got, expected, "{first} {second}");
        let got = compare(table.as_bytes(), term.record(), &V[first], &V[second])?;
        assert_eq!(got, expected, "{first} {second}");
    }
    Ok(())
}

#[test]
fn perfect_rows() -> Result<(), Refusal> {
    let mut table = Table::new();
    let (near, low) = (table.around(0, 24)?, table.lowest(1)?);
    let high = table.dual(low)?;
    let top = table.pareto(near, high)?;
    let cases = [
        (near, [24, 0], true),
        (near, [25, 0], false),
        (low, [0, i32::MIN], true),
        (low, [0, i32::MAX], false),
        (high, [0, i32::MAX], true),
        (high, [0, i32::MIN], false),
        (top, [24, i32::MAX], true),
        (top, [23, i32::MAX], false),
    ];
    for (term, row, expected) in cases {
        let mark = if expected { Mark::Yes } else { Mark::No };
        assert_eq!(table.perfect(term, &row), Ok(mark), "{row:?}");
        let got = perfect(table.as_bytes(), term.record(), &row);
        assert_eq!(got, Ok(mark), "{row:?}");
        assert_eq!(mark.is_perfect(), expected);
    }
    Ok(())
}

#[test]
fn the_engine_for_so_many_rows() {
    assert_eq!(Engine::default(), Engine::Auto);
    assert_eq!(Engine::for_rows(0), Engine::Direct);
    assert_eq!(Engine::for_rows(BY_PARTS_FROM - 1), Engine::Direct);
    assert_eq!(Engine::for_rows(BY_PARTS_FROM), Engine::ByParts);
    assert_eq!(Engine::for_rows(MOST_ROWS), Engine::ByParts);
}
