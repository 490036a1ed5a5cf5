//! SPECIFICATION, "What a call refuses": each number, its place and its order.

mod common;

use common::*;
use oracle::{Oracle, Refused};

const ORACLE: Oracle = Oracle { mistake: None };

/// The number and the place with which the table is refused.
fn check(records: &[Bytes], columns: usize) -> (u32, Option<usize>) {
    turned_down(ORACLE.check(&table(records), columns))
}

fn turned_down<T: std::fmt::Debug>(reply: Result<T, Refused>) -> (u32, Option<usize>) {
    let Refused { number, place } = reply.expect_err("accepted");
    (number, place)
}

fn passes(records: &[Bytes], columns: usize) {
    assert_eq!(ORACLE.check(&table(records), columns).err(), None);
}

#[test]
fn width() {
    let lowest = [base(LOWEST, 0)];
    for columns in 1..=8 {
        passes(&lowest, columns);
    }
    for columns in [0, 9, 256, 257, 264, usize::MAX] {
        assert_eq!(check(&lowest, columns), (1, None));
    }
    assert_eq!(check(&[], 0), (1, None));
}

#[test]
fn length() {
    let mut records = vec![base(LOWEST, 0)];
    records.extend((0..127).map(dual));
    passes(&records, 1);
    records.push(dual(127));
    assert_eq!(check(&records, 1), (2, None));
    assert_eq!(check(&[], 1), (2, None));
    let bytes = table(&records);
    for length in [1, 11, 13, 1_535, 1_537, 1_547] {
        assert_eq!(turned_down(ORACLE.check(&bytes[..length], 1)), (2, None));
    }
}

#[test]
fn kind() {
    for kind in (11..16).chain(20..=255) {
        assert_eq!(check(&[base(kind, 0)], 1), (3, Some(0)));
        assert_eq!(check(&[base(LOWEST, 0), base(kind, 9)], 1), (3, Some(1)));
    }
    // An unknown kind before its fields.
    assert_eq!(check(&[record(11, [9, 9, 9], 9, 9)], 1), (3, Some(0)));
}

#[test]
fn filler_by_kind() {
    // Which of q, s, u and v each kind may fill.
    let may_fill = |kind: u8| match kind {
        AROUND => [false, false, true, false],
        BETWEEN => [false, false, true, true],
        PARETO | PRIOR | BOTH => [true, false, false, false],
        _ => [false; 4],
    };
    for kind in (1..=10).chain(16..=19) {
        for (field, allowed) in may_fill(kind).into_iter().enumerate() {
            let one = |i: usize| i32::from(field == i);
            let filled = record(kind, [0, one(0) as u8, one(1) as u8], one(2), one(3));
            let reply = turned_down_or_none(&[base(LOWEST, 0), base(LOWEST, 0), filled]);
            assert_eq!(reply == Some((4, Some(2))), !allowed, "{kind} {field}");
        }
    }
}

fn turned_down_or_none(records: &[Bytes]) -> Option<(u32, Option<usize>)> {
    let reply = ORACLE.check(&table(records), 1);
    reply.err().map(|refused| (refused.number, refused.place))
}

#[test]
fn filler_by_role() {
    let under = |kind, value| check(&[base(kind, 0), value], 1);
    let filled = |role, v| record(0, [role, 0, 0], 5, v);
    // A value goes by its own role, taken or not.
    assert_eq!(under(POS, filled(4, 1)), (8, Some(1)));
    assert_eq!(under(EXPLICIT, filled(1, 1)), (4, Some(1)));
    assert_eq!(under(POS, filled(1, 1)), (4, Some(1)));
    for unknown in [0, 5, 255] {
        assert_eq!(under(POS, filled(unknown, 0)), (8, Some(1)));
        assert_eq!(under(POS, filled(unknown, 1)), (4, Some(1)));
    }
    assert_eq!(under(EXPLICIT, record(0, [4, 1, 0], 1, 2)), (4, Some(1)));
    assert_eq!(under(EXPLICIT, record(0, [4, 0, 1], 1, 2)), (4, Some(1)));
    passes(&[base(EXPLICIT, 0), edge(1, 2)], 1);
}

#[test]
fn column() {
    for kind in 1..=10 {
        assert_eq!(check(&[base(kind, 2)], 2), (5, Some(0)));
        assert_eq!(check(&[base(kind, 255)], 8), (5, Some(0)));
        passes(&[base(kind, 1)], 2);
    }
    // "AROUND with column 8 and v = 1: FILLER."
    assert_eq!(check(&[record(AROUND, [8, 0, 0], 0, 1)], 8), (4, Some(0)));
}

#[test]
fn part() {
    let lowest = base(LOWEST, 0);
    let pos = [base(POS, 0), value(FAVOURITE, 1)];
    assert_eq!(check(&[dual(0)], 1), (6, Some(0)));
    assert_eq!(check(&[lowest, dual(1)], 1), (6, Some(1)));
    assert_eq!(check(&[lowest, dual(2), lowest], 1), (6, Some(1)));
    assert_eq!(check(&[lowest, dual(255)], 1), (6, Some(1)));
    assert_eq!(check(&[pos[0], pos[1], dual(1)], 1), (6, Some(2)));
    let right_is_value = compound(PARETO, 0, 1);
    assert_eq!(check(&[pos[0], pos[1], right_is_value], 1), (6, Some(2)));
    // PART of both parts goes before REUSED: left reused, right no term.
    let records = [lowest, dual(0), compound(PARETO, 0, 2)];
    assert_eq!(check(&records, 1), (6, Some(2)));
}

#[test]
fn reused() {
    let lowest = base(LOWEST, 0);
    assert_eq!(check(&[lowest, compound(PARETO, 0, 0)], 1), (7, Some(1)));
    assert_eq!(check(&[lowest, dual(0), dual(0)], 1), (7, Some(2)));
    let records = [lowest, dual(0), lowest, compound(PRIOR, 2, 0)];
    assert_eq!(check(&records, 1), (7, Some(3)));
    // REUSED before APART: both parts of a BOTH.
    let records = [lowest, dual(0), base(LOWEST, 1), compound(BOTH, 0, 2)];
    assert_eq!(check(&records, 2), (7, Some(3)));
}

#[test]
fn stray() {
    assert_eq!(check(&[value(FAVOURITE, 1)], 1), (8, Some(0)));
    assert_eq!(check(&[value(FAVOURITE, 1), base(POS, 0)], 1), (8, Some(0)));
    let takes = |kind| match kind {
        POS => vec![1],
        NEG => vec![2],
        POS_NEG => vec![1, 2],
        POS_POS => vec![1, 3],
        EXPLICIT => vec![4],
        _ => vec![],
    };
    for kind in 1..=10 {
        for role in 0..=5 {
            let records = [
                base(kind, 0),
                record(0, [role, 0, 0], 1, i32::from(role == 4) * 2),
            ];
            match takes(kind).contains(&role) {
                true => passes(&records, 1),
                false => assert_eq!(check(&records, 1), (8, Some(1))),
            }
        }
    }
    // A compound takes none, though its part before it would.
    let pos = [base(POS, 0), dual(0), value(FAVOURITE, 1)];
    assert_eq!(check(&pos, 1), (8, Some(2)));
}

#[test]
fn crowd() {
    let mut records = vec![base(POS, 0)];
    // Repeats count too.
    records.extend([value(FAVOURITE, 3); 16]);
    passes(&records, 1);
    records.push(value(FAVOURITE, 3));
    assert_eq!(check(&records, 1), (9, Some(17)));
    records[17] = value(DISLIKED, 3);
    assert_eq!(check(&records, 1), (8, Some(17)));
    // CROWD before LOOP, and 16 to each term.
    let mut records = vec![base(EXPLICIT, 0)];
    records.extend((0..16).map(|i| edge(i, i + 1)));
    records.push(edge(16, 0));
    assert_eq!(check(&records, 1), (9, Some(17)));
    records[17] = base(NEG, 0);
    records.extend((0..16).map(|i| value(DISLIKED, i)));
    records.push(compound(PARETO, 0, 17));
    passes(&records, 1);
}

#[test]
fn clash() {
    for (kind, other) in [(POS_NEG, DISLIKED), (POS_POS, SECOND_CHOICE)] {
        let with = |values: [Bytes; 3]| [base(kind, 0), values[0], values[1], values[2]];
        let records = [base(kind, 0), value(FAVOURITE, 5), value(other, 5)];
        assert_eq!(check(&records, 1), (10, Some(2)));
        let records = with([value(other, 5), value(FAVOURITE, 6), value(FAVOURITE, 5)]);
        assert_eq!(check(&records, 1), (10, Some(3)));
        passes(
            &with([value(other, 5), value(other, 5), value(FAVOURITE, 6)]),
            1,
        );
    }
    // Another term's run does not count.
    let two = [
        base(POS_NEG, 0),
        value(FAVOURITE, 5),
        base(POS_NEG, 0),
        value(DISLIKED, 5),
        compound(PARETO, 0, 2),
    ];
    passes(&two, 1);
}

#[test]
fn loops() {
    let explicit = |edges: &[Bytes]| [&[base(EXPLICIT, 0)], edges].concat();
    assert_eq!(
        check(&explicit(&[edge(1, 2), edge(2, 1)]), 1),
        (11, Some(2))
    );
    assert_eq!(check(&explicit(&[edge(1, 1)]), 1), (11, Some(1)));
    let long = [edge(1, 2), edge(3, 4), edge(2, 3), edge(9, 1), edge(4, 1)];
    passes(&explicit(&long[..4]), 1);
    assert_eq!(check(&explicit(&long), 1), (11, Some(5)));
    // A repeated edge closes no cycle, nor do two ways to one end.
    passes(&explicit(&[edge(1, 2), edge(1, 2)]), 1);
    passes(
        &explicit(&[edge(1, 2), edge(1, 3), edge(2, 4), edge(3, 4)]),
        1,
    );
    // Edges of another term do not count.
    let two = [
        base(EXPLICIT, 0),
        edge(1, 2),
        base(EXPLICIT, 0),
        edge(2, 1),
        compound(PARETO, 0, 2),
    ];
    passes(&two, 1);
}

#[test]
fn bounds() {
    passes(&[between(0, 3, 3)], 1);
    passes(&[between(0, i32::MIN, i32::MAX)], 1);
    assert_eq!(check(&[between(0, 4, 3)], 1), (12, Some(0)));
    assert_eq!(check(&[between(0, i32::MAX, i32::MIN)], 1), (12, Some(0)));
    // COLUMN before BOUNDS.
    assert_eq!(check(&[between(1, 4, 3)], 1), (5, Some(0)));
}

#[test]
fn apart() {
    let parts = [base(LOWEST, 0), base(LOWEST, 1)];
    let with = |kind| [parts[0], parts[1], compound(kind, 0, 1)];
    assert_eq!(check(&with(BOTH), 2), (13, Some(2)));
    passes(&with(PARETO), 2);
    // A proper subset is APART too.
    let pareto = with(PARETO);
    let subset = [
        pareto[0],
        pareto[1],
        pareto[2],
        parts[0],
        compound(BOTH, 2, 3),
    ];
    assert_eq!(check(&subset, 2), (13, Some(4)));
    let subset = [
        pareto[0],
        pareto[1],
        pareto[2],
        parts[0],
        compound(BOTH, 3, 2),
    ];
    assert_eq!(check(&subset, 2), (13, Some(4)));
    passes(&[parts[0], dual(0), parts[0], compound(BOTH, 1, 2)], 1);
}

#[test]
fn loose() {
    assert_eq!(
        check(&[base(LOWEST, 0), base(HIGHEST, 0)], 1),
        (14, Some(0))
    );
    let three = [base(LOWEST, 0), base(HIGHEST, 0), base(ANY, 0)];
    assert_eq!(check(&three, 1), (14, Some(0)));
    let middle = [three[0], three[1], dual(0)];
    assert_eq!(check(&middle, 1), (14, Some(1)));
    // The last term is meant, values may follow it.
    passes(&[base(POS, 0), value(FAVOURITE, 1)], 1);
}

#[test]
fn records_before_numbers() {
    // BOUNDS at 0 before KIND at 1; BOUNDS at 1 before LOOSE at 0.
    assert_eq!(check(&[between(0, 4, 3), base(11, 0)], 1), (12, Some(0)));
    assert_eq!(
        check(&[base(LOWEST, 0), between(0, 4, 3)], 1),
        (12, Some(1))
    );
}

/// Two LOWEST of one column, a POS with a value between them.
fn small() -> Vec<u8> {
    table(&[
        base(POS, 0),
        value(FAVOURITE, 1),
        base(LOWEST, 1),
        compound(PARETO, 0, 2),
    ])
}

fn query(columns: usize, rows: &[i32], term: usize, group: u8, entries: usize) -> Reply {
    let mut answers = vec![0xA5A5; entries];
    let reply = ORACLE.query(&small(), columns, rows, term, group, &mut answers);
    if reply.is_err() {
        assert!(answers.iter().all(|&entry| entry == 0xA5A5));
    }
    reply.map_err(|refused| (refused.number, refused.place))
}

type Reply = Result<usize, (u32, Option<usize>)>;

#[test]
fn rows_of_a_query() {
    assert_eq!(query(2, &[0; 2048], 3, 0, 1024), Ok(1024));
    assert_eq!(query(2, &[0; 2050], 3, 0, 1025), Err((15, None)));
    assert_eq!(query(2, &[0; 3], 3, 0, 9), Err((15, None)));
    assert_eq!(query(2, &[0; 2], 3, 0, 1), Ok(1));
}

#[test]
fn single_rows() {
    let compare = |first: &[i32], second: &[i32], term| {
        ORACLE
            .compare(&small(), 2, term, first, second)
            .map_err(|refused| (refused.number, refused.place))
    };
    assert!(compare(&[1, 2], &[3, 4], 3).is_ok());
    for (first, second) in [
        (&[1, 2][..], &[3][..]),
        (&[1], &[3, 4]),
        (&[1, 2], &[3, 4, 5]),
    ] {
        assert_eq!(compare(first, second, 3), Err((15, None)));
    }
    // ROWS, then TERM.
    assert_eq!(compare(&[1], &[3, 4], 4), Err((15, None)));
    assert_eq!(compare(&[1, 2], &[3, 4], 4), Err((16, None)));
    let perfect = |row: &[i32], term| turned_down(ORACLE.perfect(&small(), 2, term, row));
    assert_eq!(perfect(&[1], 4), (15, None));
    assert_eq!(perfect(&[1, 2], 1), (16, None));
    assert_eq!(perfect(&[1, 2], 256), (16, None));
}

#[test]
fn term_group_and_short() {
    let rows = [1, 2, 3, 4];
    for term in [1, 4, 256, 259, usize::MAX] {
        assert_eq!(query(2, &rows, term, 0b100, 1), Err((16, None)));
    }
    for term in [0, 2, 3] {
        assert!(query(2, &rows, term, 0, 2).is_ok());
    }
    assert_eq!(query(2, &rows, 3, 0b100, 1), Err((17, None)));
    assert_eq!(query(2, &rows, 3, 0b1000_0000, 2), Err((17, None)));
    assert!(query(2, &rows, 3, 0b11, 2).is_ok());
    assert_eq!(query(2, &rows, 3, 0b11, 1), Err((18, None)));
    assert_eq!(query(2, &rows, 3, 0, 0), Err((18, None)));
    assert_eq!(query(2, &[], 3, 0, 0), Ok(0));
    // The table goes before the rows, the rows before the rest.
    assert_eq!(query(9, &rows, 9, 255, 0), Err((1, None)));
    assert_eq!(query(1, &rows, 9, 255, 0), Err((5, Some(2))));
    let loose = table(&[base(LOWEST, 0), base(LOWEST, 1)]);
    let reply = ORACLE.query(&loose, 2, &[1], 9, 255, &mut []);
    assert_eq!(turned_down(reply), (14, Some(0)));
    assert_eq!(
        turned_down(ORACLE.query(&[], 2, &[1], 9, 255, &mut [])),
        (2, None)
    );
    assert_eq!(query(2, &[1], 9, 255, 0), Err((15, None)));
}

#[test]
fn every_number_that_an_input_earns() {
    let bits = |numbers: &[u32]| numbers.iter().fold(0, |bits, number| bits | 1 << number);
    let table_only = |records: &[Bytes], columns| {
        ORACLE.earned(&table(records), columns, None, &[], None, None, None)
    };
    assert_eq!(table_only(&[base(LOWEST, 0)], 1), 0);
    assert_eq!(table_only(&[], 0), bits(&[1, 2]));
    let filled = [record(AROUND, [8, 0, 0], 0, 1), base(11, 0), value(9, 1)];
    assert_eq!(table_only(&filled, 8), bits(&[3, 4, 5, 8]));
    let parts = [base(LOWEST, 0), dual(0), compound(BOTH, 0, 9), base(ANY, 1)];
    assert_eq!(table_only(&parts, 2), bits(&[6, 7, 14]));
    let apart = [base(LOWEST, 0), between(1, 4, 3), compound(BOTH, 0, 1)];
    assert_eq!(table_only(&apart, 2), bits(&[12, 13]));
    let mut crowd = vec![base(EXPLICIT, 0)];
    crowd.extend([edge(1, 1); 17]);
    crowd.extend([base(POS_NEG, 0), value(FAVOURITE, 1), value(DISLIKED, 1)]);
    assert_eq!(table_only(&crowd, 1), bits(&[9, 10, 11, 14]));
    let rows = [0; 2050];
    let earned = ORACLE.earned(&small(), 2, Some(&rows), &[], Some(1), Some(4), Some(1));
    assert_eq!(earned, bits(&[15, 16, 17, 18]));
    let single: [&[i32]; 2] = [&[1, 2], &[1]];
    let earned = ORACLE.earned(&small(), 2, None, &single, Some(0), None, None);
    assert_eq!(earned, bits(&[15]));
}
