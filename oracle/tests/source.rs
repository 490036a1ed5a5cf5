//! Examples and laws of the report, as far as its text gives them.

mod common;

use common::*;
use oracle::{Oracle, Outcome};

const ORACLE: Oracle = Oracle { mistake: None };

fn outcome<const N: usize>(records: &[Bytes], first: &[i32; N], second: &[i32; N]) -> Outcome {
    ORACLE
        .compare(&table(records), N, records.len() - 1, first, second)
        .unwrap()
}

/// Definition 13: the tops of both tables rank all these rows alike.
fn equivalent<const N: usize>(one: &[Bytes], other: &[Bytes], rows: &[[i32; N]]) {
    for first in rows {
        for second in rows {
            assert_eq!(outcome(one, first, second), outcome(other, first, second));
        }
    }
}

/// All rows of two columns from -2 to 2.
fn grid() -> Vec<[i32; 2]> {
    (0..25).map(|i| [i % 5 - 2, i / 5 - 2]).collect()
}

#[test]
fn example_1_levels_of_the_explicit_graph() {
    // white 1, red 2, yellow 3, green 4, brown 5, black 6.
    let explicit = table(&[base(EXPLICIT, 0), edge(4, 3), edge(4, 2), edge(3, 1)]);
    let ask = |first: i32, second: i32| ORACLE.compare(&explicit, 1, 0, &[first], &[second]);
    for (better, worse) in [
        (1, 3),
        (1, 4),
        (2, 4),
        (3, 4),
        (1, 5),
        (2, 6),
        (3, 5),
        (4, 6),
    ] {
        assert_eq!(ask(better, worse), Ok(Outcome::FirstBetter));
        assert_eq!(ask(worse, better), Ok(Outcome::SecondBetter));
    }
    for (one, other) in [(1, 2), (2, 3), (5, 6)] {
        assert_eq!(ask(one, other), Ok(Outcome::Unranked));
    }
}

#[test]
fn example_4_pareto_before_highest() {
    let p9 = table(&[
        around(0, 0),
        base(LOWEST, 1),
        compound(PARETO, 0, 1),
        base(HIGHEST, 2),
        compound(PRIOR, 2, 3),
    ]);
    // Of the rows 4 and 5, equal in the PARETO's columns, column 2 decides.
    assert_eq!(entries(&p9, 4, 0, &V), (3, vec![0, 0, 2, 2, 4, 4, 2]));
    assert_eq!(entries(&p9, 2, 0, &V), (4, vec![0, 0, 2, 2, 4, 5, 2]));
}

#[test]
fn example_7_non_discrimination() {
    // Places in the two chains val5, val4, val3, val2, val1 and val3, val1, val5,
    // val2, val4, which stand for the prices and mileages.
    let cars = [[5, 2], [4, 4], [3, 1], [2, 5], [1, 3]];
    let lowest = [base(LOWEST, 0), base(LOWEST, 1)];
    let pareto = table(&[lowest[0], lowest[1], compound(PARETO, 0, 1)]);
    assert_eq!(entries(&pareto, 2, 0, &cars), (2, vec![2, 2, 2, 4, 4]));
    let by_price = table(&[lowest[0], lowest[1], compound(PRIOR, 0, 1)]);
    assert_eq!(entries(&by_price, 2, 0, &cars), (1, vec![4; 5]));
    let by_mileage = table(&[lowest[0], lowest[1], compound(PRIOR, 1, 0)]);
    assert_eq!(entries(&by_mileage, 2, 0, &cars), (1, vec![2; 5]));
}

#[test]
fn example_9_more_rows_keep_fewer() {
    let best = table(&[base(HIGHEST, 0), base(HIGHEST, 1), compound(PARETO, 0, 1)]);
    // frog, cat, shark, turtle.
    let cars = [[100, 3], [50, 3], [50, 10], [100, 10]];
    assert_eq!(entries(&best, 2, 0, &cars[..2]), (1, vec![0, 0]));
    assert_eq!(entries(&best, 2, 0, &cars[..3]), (2, vec![0, 0, 2]));
    assert_eq!(entries(&best, 2, 0, &cars), (1, vec![3, 3, 3, 3]));
}

#[test]
fn example_10_an_offer_of_each_make() {
    // Audi 1, BMW 2, VW 3; the last BMW is the one that goes.
    let cars = [[1, 40000], [2, 35000], [3, 20000], [2, 50000]];
    let each_make = table(&[base(ANY, 0), around(1, 40000), compound(PRIOR, 0, 1)]);
    assert_eq!(entries(&each_make, 2, 0, &cars), (3, vec![0, 1, 2, 1]));
    // The same by grouping (Definition 16).
    assert_eq!(entries(&each_make, 1, 1, &cars), (3, vec![0, 1, 2, 1]));
}

#[test]
fn example_11_lowest_and_highest_keep_all() {
    for kind in [PARETO, BOTH] {
        let records = table(&[base(LOWEST, 0), base(HIGHEST, 0), compound(kind, 0, 1)]);
        let rows = [[3], [6], [9]];
        assert_eq!(entries(&records, 2, 0, &rows), (3, vec![0, 1, 2]));
    }
}

#[test]
fn proposition_3_duals() {
    let rows: Vec<[i32; 1]> = (-2..=2).map(|value| [value]).collect();
    equivalent(&[base(HIGHEST, 0)], &[base(LOWEST, 0), dual(0)], &rows);
    let pos = [base(POS, 0), value(FAVOURITE, 1), dual(0)];
    let neg = [base(NEG, 0), value(DISLIKED, 1)];
    // The top of `neg` is its record 0, so a DUAL pair stands over it.
    let neg = [neg[0], neg[1], dual(0), dual(2)];
    equivalent(&pos, &neg, &rows);
    let any = [base(ANY, 0)];
    for kind in [PARETO, BOTH] {
        let against_itself = [around(0, 1), around(0, 1), dual(1), compound(kind, 0, 2)];
        equivalent(&against_itself, &any, &rows);
    }
    let before_itself = [around(0, 1), around(0, 1), dual(1), compound(PRIOR, 0, 2)];
    equivalent(&before_itself, &[around(0, 1)], &rows);
}

#[test]
fn propositions_5_and_6() {
    let parts = [around(0, 0), base(LOWEST, 1)];
    let pareto = [parts[0], parts[1], compound(PARETO, 0, 1)];
    let both_placings = [
        parts[0],
        parts[1],
        compound(PRIOR, 0, 1),
        parts[0],
        parts[1],
        compound(PRIOR, 4, 3),
        compound(BOTH, 2, 5),
    ];
    equivalent(&pareto, &both_placings, &grid());
    let same_columns = |kind| [around(0, 0), between(0, 1, 2), compound(kind, 0, 1)];
    equivalent(&same_columns(PARETO), &same_columns(BOTH), &grid());
}
