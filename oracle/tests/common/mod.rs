//! Writers of records, rows and files for the cases.

// Each test file uses its own share of these.
#![allow(dead_code)]

use oracle::Oracle;

pub const LOWEST: u8 = 1;
pub const HIGHEST: u8 = 2;
pub const AROUND: u8 = 3;
pub const BETWEEN: u8 = 4;
pub const POS: u8 = 5;
pub const NEG: u8 = 6;
pub const POS_NEG: u8 = 7;
pub const POS_POS: u8 = 8;
pub const EXPLICIT: u8 = 9;
pub const ANY: u8 = 10;
pub const PARETO: u8 = 16;
pub const PRIOR: u8 = 17;
pub const BOTH: u8 = 18;
pub const DUAL: u8 = 19;

pub const FAVOURITE: u8 = 1;
pub const DISLIKED: u8 = 2;
pub const SECOND_CHOICE: u8 = 3;

pub type Bytes = [u8; 12];

/// A record with every field as given.
pub fn record(kind: u8, [p, q, s]: [u8; 3], u: i32, v: i32) -> Bytes {
    let ([a, b, c, d], [e, f, g, h]) = (u.to_le_bytes(), v.to_le_bytes());
    [kind, p, q, s, a, b, c, d, e, f, g, h]
}

pub fn value(role: u8, u: i32) -> Bytes {
    record(0, [role, 0, 0], u, 0)
}

/// Role 4: u worse, v better.
pub fn edge(worse: i32, better: i32) -> Bytes {
    record(0, [4, 0, 0], worse, better)
}

/// A base term that fills its column only.
pub fn base(kind: u8, column: u8) -> Bytes {
    record(kind, [column, 0, 0], 0, 0)
}

pub fn around(column: u8, wish: i32) -> Bytes {
    record(AROUND, [column, 0, 0], wish, 0)
}

pub fn between(column: u8, low: i32, up: i32) -> Bytes {
    record(BETWEEN, [column, 0, 0], low, up)
}

pub fn compound(kind: u8, left: u8, right: u8) -> Bytes {
    record(kind, [left, right, 0], 0, 0)
}

pub fn dual(part: u8) -> Bytes {
    record(DUAL, [part, 0, 0], 0, 0)
}

pub fn table(records: &[Bytes]) -> Vec<u8> {
    records.concat()
}

/// Table T1: 0 AROUND column 0 wish 0; 1 LOWEST column 1; 2 PARETO 0 1;
/// 3 HIGHEST column 2; 4 PARETO 2 3.
pub fn t1() -> Vec<u8> {
    table(&[
        around(0, 0),
        base(LOWEST, 1),
        compound(PARETO, 0, 1),
        base(HIGHEST, 2),
        compound(PARETO, 2, 3),
    ])
}

/// Rows V (Example 2 of the report).
pub const V: [[i32; 3]; 7] = [
    [-5, 3, 4],
    [-5, 4, 4],
    [5, 1, 8],
    [5, 6, 6],
    [-6, 0, 6],
    [-6, 0, 4],
    [6, 2, 7],
];

/// Kept count and entries of a query that must not be refused.
pub fn entries<const N: usize>(
    table: &[u8],
    term: usize,
    group: u8,
    rows: &[[i32; N]],
) -> (usize, Vec<u16>) {
    let mut answers = vec![0xA5A5; rows.len() + 1];
    let kept = Oracle::default()
        .query(table, N, &rows.concat(), term, group, &mut answers)
        .unwrap();
    assert_eq!(answers.pop(), Some(0xA5A5), "the entry after the last row");
    (kept, answers)
}

/// The bytes of `rows.bin`: rows padded to eight columns.
pub fn file_of_rows<const N: usize>(rows: &[[i32; N]]) -> Vec<u8> {
    let mut bytes = Vec::new();
    for row in rows {
        for column in 0..8 {
            let number: i32 = row.get(column).copied().unwrap_or(0);
            bytes.extend(number.to_le_bytes());
        }
    }
    bytes
}
