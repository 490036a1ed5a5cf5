//! SPECIFICATION, "Perfect".

mod common;

use common::*;
use oracle::{Oracle, Outcome};

const ORACLE: Oracle = Oracle { mistake: None };

fn perfect(records: &[Bytes], term: usize, row: &[i32]) -> bool {
    ORACLE
        .perfect(&table(records), row.len(), term, row)
        .unwrap()
}

/// Values near zero and near both ends of the range. Every list, wish and bound
/// of the terms below lies among them, so a better or worse value does too.
fn windows() -> Vec<i32> {
    let ends = (i32::MIN..i32::MIN + 9).chain(i32::MAX - 8..=i32::MAX);
    ends.chain(-12..=12).collect()
}

/// Base terms of every kind, lists empty and full.
fn bases() -> Vec<Vec<Bytes>> {
    let favourites = [value(FAVOURITE, 2), value(FAVOURITE, -3)];
    let disliked = [value(DISLIKED, 4), value(DISLIKED, 0)];
    let seconds = [value(SECOND_CHOICE, 4), value(SECOND_CHOICE, i32::MAX)];
    let edges = [edge(4, 3), edge(4, 2), edge(3, i32::MIN)];
    let listed = |kind: u8, lists: &[&[Bytes]]| {
        let mut records = vec![base(kind, 0)];
        records.extend(lists.concat());
        records
    };
    let mut bases: Vec<Vec<Bytes>> = (1..=10)
        .filter(|kind| ![AROUND, BETWEEN].contains(kind))
        .map(|kind| vec![base(kind, 0)])
        .collect();
    for wish in [0, 5, -1, i32::MIN, i32::MAX, i32::MAX - 1] {
        bases.push(vec![around(0, wish)]);
        bases.push(vec![between(0, i32::MIN, wish)]);
        bases.push(vec![between(0, wish, wish)]);
        bases.push(vec![between(0, wish, i32::MAX)]);
    }
    bases.push(vec![between(0, -2, 3)]);
    bases.push(listed(POS, &[&favourites]));
    bases.push(listed(NEG, &[&disliked]));
    bases.push(listed(POS_NEG, &[&favourites]));
    bases.push(listed(POS_NEG, &[&disliked]));
    bases.push(listed(POS_NEG, &[&favourites, &disliked]));
    bases.push(listed(POS_POS, &[&favourites]));
    bases.push(listed(POS_POS, &[&seconds]));
    bases.push(listed(POS_POS, &[&favourites, &seconds]));
    bases.push(listed(EXPLICIT, &[&edges]));
    bases
}

#[test]
fn a_base_term_is_perfect_where_no_value_is_better() {
    for mut records in bases() {
        let bytes = table(&records);
        records.push(dual(0));
        let over = records.len() - 1;
        for row in windows() {
            let is = |outcome| {
                windows()
                    .into_iter()
                    .any(|other| ORACLE.compare(&bytes, 1, 0, &[row], &[other]) == Ok(outcome))
            };
            assert_eq!(perfect(&records, 0, &[row]), !is(Outcome::SecondBetter));
            // Beneath a DUAL none is worse.
            assert_eq!(perfect(&records, over, &[row]), !is(Outcome::FirstBetter));
        }
    }
}

#[test]
fn the_ends_of_the_range() {
    assert!(perfect(&[base(LOWEST, 0)], 0, &[i32::MIN]));
    assert!(!perfect(&[base(LOWEST, 0)], 0, &[i32::MIN + 1]));
    assert!(perfect(&[base(HIGHEST, 0)], 0, &[i32::MAX]));
    assert!(!perfect(&[base(HIGHEST, 0)], 0, &[i32::MAX - 1]));
    let turned = [around(0, 0), dual(0)];
    assert!(perfect(&turned, 1, &[i32::MIN]));
    assert!(!perfect(&turned, 1, &[i32::MAX]));
    let turned = [around(0, -1), dual(0)];
    assert!(!perfect(&turned, 1, &[i32::MIN]));
    assert!(perfect(&turned, 1, &[i32::MAX]));
}

#[test]
fn every_base_term_counts() {
    let records = [around(0, 7), base(LOWEST, 1), compound(PRIOR, 0, 1)];
    assert!(perfect(&records, 2, &[7, i32::MIN]));
    assert!(!perfect(&records, 2, &[7, 0]));
    assert!(!perfect(&records, 2, &[6, i32::MIN]));
    // A part alone does not ask the other.
    assert!(perfect(&records, 0, &[7, 0]));
    assert!(perfect(&records, 1, &[6, i32::MIN]));
}

#[test]
fn duals_count_from_the_asked_term_down_and_with_it() {
    let records = [base(LOWEST, 0), dual(0), dual(1), dual(2)];
    for (term, best) in [(0, i32::MIN), (1, i32::MAX), (2, i32::MIN), (3, i32::MAX)] {
        let worst = if best == i32::MIN { i32::MAX } else { i32::MIN };
        assert!(perfect(&records, term, &[best]));
        assert!(!perfect(&records, term, &[worst]));
    }
    // Only the left part stands beneath the DUAL.
    let records = [
        base(LOWEST, 0),
        dual(0),
        base(LOWEST, 1),
        compound(PARETO, 1, 2),
    ];
    assert!(perfect(&records, 3, &[i32::MAX, i32::MIN]));
    assert!(!perfect(&records, 3, &[i32::MIN, i32::MIN]));
    assert!(!perfect(&records, 3, &[i32::MAX, i32::MAX]));
}

#[test]
fn unlisted_and_empty_lists() {
    assert!(perfect(&[base(POS, 0)], 0, &[3]));
    assert!(perfect(&[base(NEG, 0)], 0, &[3]));
    assert!(perfect(&[base(EXPLICIT, 0)], 0, &[3]));
    assert!(perfect(&[base(ANY, 0)], 0, &[3]));
    let neg = [base(NEG, 0), value(DISLIKED, 3)];
    assert!(!perfect(&neg, 0, &[3]));
    assert!(perfect(&neg, 0, &[4]));
    // Example 8 of the report: "Note that red is a perfect match", of the edges (green,
    // yellow), (green, red), (yellow, white) as 4, 3, 2 and 1.
    let explicit = [base(EXPLICIT, 0), edge(4, 3), edge(4, 2), edge(3, 1)];
    assert!(perfect(&explicit, 0, &[2]));
    assert!(perfect(&explicit, 0, &[1]));
    assert!(!perfect(&explicit, 0, &[3]));
    assert!(!perfect(&explicit, 0, &[6]));
}
