//! SPECIFICATION, "Worked cases", and cases on each side of every kind of term.

mod common;

use common::*;
use oracle::{Checked, Oracle, Outcome};

const ORACLE: Oracle = Oracle { mistake: None };

/// What the comparison of two values says under a table's term 0, column 0.
fn values(records: &[Bytes], first: i32, second: i32) -> Outcome {
    ORACLE
        .compare(&table(records), 1, 0, &[first], &[second])
        .unwrap()
}

/// Each value is better than the next, in both directions of asking.
fn falls(records: &[Bytes], best_first: &[i32]) {
    for (i, &better) in best_first.iter().enumerate() {
        for &worse in &best_first[i + 1..] {
            assert_eq!(values(records, better, worse), Outcome::FirstBetter);
            assert_eq!(values(records, worse, better), Outcome::SecondBetter);
        }
    }
}

fn unranked(records: &[Bytes], one: i32, other: i32) {
    assert_eq!(values(records, one, other), Outcome::Unranked);
    assert_eq!(values(records, other, one), Outcome::Unranked);
    assert_eq!(values(records, one, one), Outcome::Same);
}

#[test]
fn t1_over_v_top() {
    assert_eq!(entries(&t1(), 4, 0, &V), (3, vec![0, 0, 2, 2, 4, 4, 2]));
}

#[test]
fn t1_is_checked() {
    let checked = Checked {
        records: 5,
        top: 4,
        columns: 0b111,
        column_count: 3,
    };
    assert_eq!(ORACLE.check(&t1(), 3), Ok(checked));
    assert_eq!(ORACLE.check(&t1(), 8), Ok(checked));
}

#[test]
fn around_prior_lowest_over_v() {
    let prior = table(&[around(0, 0), base(LOWEST, 1), compound(PRIOR, 0, 1)]);
    assert_eq!(entries(&prior, 2, 0, &V), (2, vec![0, 0, 2, 2, 0, 0, 0]));
}

#[test]
fn record_1_over_v_by_column_0() {
    // Equal rows 4 and 5 in column 1 both stay.
    assert_eq!(entries(&t1(), 1, 1, &V), (5, vec![0, 0, 2, 2, 4, 5, 6]));
}

#[test]
fn pos_and_neg_on_one_column() {
    let both_views = table(&[
        base(POS, 0),
        value(FAVOURITE, 2),
        value(FAVOURITE, 3),
        base(NEG, 0),
        value(DISLIKED, 1),
        value(DISLIKED, 2),
        value(DISLIKED, 4),
        value(DISLIKED, 6),
        compound(PARETO, 0, 3),
    ]);
    let rows = [[1], [2], [3], [4], [5], [6]];
    let (kept, answers) = entries(&both_views, 8, 0, &rows);
    assert_eq!((kept, answers), (3, vec![2, 1, 2, 2, 4, 2]));
}

#[test]
fn explicit_edges() {
    let explicit = table(&[base(EXPLICIT, 0), edge(4, 3), edge(4, 2), edge(3, 1)]);
    let rows = [[3], [2], [4], [6]];
    assert_eq!(entries(&explicit, 0, 0, &rows), (2, vec![0, 1, 0, 0]));
}

#[test]
fn beaten_under_both_placings_by_different_rows() {
    let pareto = table(&[base(LOWEST, 0), base(LOWEST, 1), compound(PARETO, 0, 1)]);
    let rows = [[1, 5], [5, 1], [3, 3]];
    assert_eq!(entries(&pareto, 2, 0, &rows), (3, vec![0, 1, 2]));
    let left_first = table(&[base(LOWEST, 0), base(LOWEST, 1), compound(PRIOR, 0, 1)]);
    assert_eq!(entries(&left_first, 2, 0, &rows), (1, vec![0, 0, 0]));
    let right_first = table(&[base(LOWEST, 0), base(LOWEST, 1), compound(PRIOR, 1, 0)]);
    assert_eq!(entries(&right_first, 2, 0, &rows), (1, vec![1, 1, 1]));
}

#[test]
fn around_the_end_of_the_range() {
    let end = table(&[around(0, 2147483647)]);
    let rows = [[-2147483648], [0]];
    assert_eq!(entries(&end, 0, 0, &rows), (1, vec![1, 1]));
}

#[test]
fn no_rows() {
    assert_eq!(ORACLE.query(&t1(), 3, &[], 4, 0, &mut []), Ok(0));
    let mut answers = [7, 8];
    assert_eq!(ORACLE.query(&t1(), 3, &[], 4, 0, &mut answers), Ok(0));
    assert_eq!(answers, [7, 8]);
}

#[test]
fn columns_that_nobody_reads_have_no_bearing() {
    let lowest = table(&[base(LOWEST, 1)]);
    let rows = [[9, 1, 0], [3, 1, 7], [5, 2, 2]];
    assert_eq!(entries(&lowest, 0, 0, &rows), (2, vec![0, 1, 0]));
    let same = ORACLE.compare(&lowest, 3, 0, &rows[0], &rows[1]);
    assert_eq!(same, Ok(Outcome::Same));
}

#[test]
fn the_witness_is_kept_and_of_the_same_group() {
    let lowest = table(&[base(LOWEST, 0)]);
    // Row 1 is better than row 0 and dropped itself.
    assert_eq!(entries(&lowest, 0, 0, &[[3], [2], [1]]), (1, vec![2, 2, 2]));
    // Column 1 groups rows 0 and 3, and rows 1 and 2.
    let rows = [[3, 1], [1, 0], [2, 0], [2, 1]];
    assert_eq!(entries(&lowest, 0, 0b10, &rows), (2, vec![3, 1, 1, 3]));
    // Both columns group: no two rows share both.
    assert_eq!(entries(&lowest, 0, 0b11, &rows), (4, vec![0, 1, 2, 3]));
    // Columns 1 and 2 group: rows 0 and 1 share column 1 only.
    let rows = [[3, 1, 0], [1, 1, 2], [2, 1, 0]];
    assert_eq!(entries(&lowest, 0, 0b110, &rows), (2, vec![2, 1, 2]));
}

#[test]
fn lowest_and_highest() {
    falls(&[base(LOWEST, 0)], &[i32::MIN, -1, 0, i32::MAX]);
    falls(&[base(HIGHEST, 0)], &[i32::MAX, 0, -1, i32::MIN]);
}

#[test]
fn around_is_by_exact_distance() {
    falls(&[around(0, 24)], &[24, 23, 26, 21, 0, i32::MAX, i32::MIN]);
    unranked(&[around(0, 24)], 23, 25);
    // The distance is 4,294,967,295 at the far end, less one beside it.
    falls(
        &[around(0, i32::MIN)],
        &[i32::MIN, 0, i32::MAX - 1, i32::MAX],
    );
}

#[test]
fn between_is_by_the_nearer_bound() {
    falls(&[between(0, -2, 2)], &[0, 3, -4, 5, i32::MAX, i32::MIN]);
    unranked(&[between(0, -2, 2)], -2, 2);
    unranked(&[between(0, -2, 2)], 0, 1);
    unranked(&[between(0, -2, 2)], -3, 3);
    let ends = [between(0, i32::MAX, i32::MAX)];
    falls(&ends, &[i32::MAX, 0, i32::MIN + 1, i32::MIN]);
}

#[test]
fn pos_and_neg() {
    let pos = [base(POS, 0), value(FAVOURITE, 2), value(FAVOURITE, 3)];
    falls(&pos, &[2, 1]);
    falls(&pos, &[3, 1]);
    unranked(&pos, 2, 3);
    unranked(&pos, 1, 4);
    let neg = [base(NEG, 0), value(DISLIKED, 2), value(DISLIKED, 3)];
    falls(&neg, &[1, 2]);
    falls(&neg, &[1, 3]);
    unranked(&neg, 2, 3);
    unranked(&neg, 1, 4);
    unranked(&[base(POS, 0)], 1, 2);
    unranked(&[base(NEG, 0)], 1, 2);
}

#[test]
fn pos_neg_and_pos_pos() {
    let pos_neg = [base(POS_NEG, 0), value(FAVOURITE, 1), value(DISLIKED, 9)];
    falls(&pos_neg, &[1, 5, 9]);
    unranked(&pos_neg, 5, 6);
    let seconds = value(SECOND_CHOICE, 9);
    let pos_pos = [base(POS_POS, 0), value(FAVOURITE, 1), seconds];
    falls(&pos_pos, &[1, 9, 5]);
    unranked(&pos_pos, 5, 6);
    // Without favourites the second choices are best, the disliked still worst.
    falls(&[base(POS_POS, 0), seconds], &[9, 5]);
    falls(&[base(POS_NEG, 0), value(DISLIKED, 9)], &[5, 9]);
}

#[test]
fn explicit_reaches_over_several_edges() {
    let chain = [base(EXPLICIT, 0), edge(3, 2), edge(2, 1), edge(1, 0)];
    falls(&chain, &[0, 1, 2, 3, 99]);
    unranked(&chain, 98, 99);
    unranked(&[base(EXPLICIT, 0)], 1, 2);
    let two_ways = [base(EXPLICIT, 0), edge(4, 2), edge(4, 3), edge(4, 2)];
    unranked(&two_ways, 2, 3);
    falls(&two_ways, &[2, 4]);
    falls(&two_ways, &[3, 4]);
}

#[test]
fn any_ranks_nothing() {
    unranked(&[base(ANY, 0)], 1, 2);
}

/// What rows say under the compound at record 2 of two LOWEST on columns 0, 1.
fn lowest_twice(kind: u8, first: [i32; 2], second: [i32; 2]) -> Outcome {
    let records = [base(LOWEST, 0), base(LOWEST, 1), compound(kind, 0, 1)];
    ORACLE
        .compare(&table(&records), 2, 2, &first, &second)
        .unwrap()
}

#[test]
fn pareto_and_prior() {
    assert_eq!(lowest_twice(PARETO, [1, 1], [2, 2]), Outcome::FirstBetter);
    assert_eq!(lowest_twice(PARETO, [1, 2], [2, 2]), Outcome::FirstBetter);
    assert_eq!(lowest_twice(PARETO, [2, 1], [2, 2]), Outcome::FirstBetter);
    assert_eq!(lowest_twice(PARETO, [1, 3], [2, 2]), Outcome::Unranked);
    assert_eq!(lowest_twice(PARETO, [2, 2], [2, 2]), Outcome::Same);
    assert_eq!(lowest_twice(PRIOR, [1, 3], [2, 2]), Outcome::FirstBetter);
    assert_eq!(lowest_twice(PRIOR, [3, 1], [2, 2]), Outcome::SecondBetter);
    assert_eq!(lowest_twice(PRIOR, [2, 1], [2, 2]), Outcome::FirstBetter);
    assert_eq!(lowest_twice(PRIOR, [2, 2], [2, 2]), Outcome::Same);
}

#[test]
fn equal_distance_is_not_equal() {
    for kind in [PARETO, PRIOR] {
        let records = table(&[around(0, 0), base(LOWEST, 1), compound(kind, 0, 1)]);
        let outcome = ORACLE.compare(&records, 2, 2, &[-5, 1], &[5, 2]);
        assert_eq!(outcome, Ok(Outcome::Unranked));
    }
}

#[test]
fn prior_asks_for_equality_in_all_columns_of_the_left() {
    let records = table(&[
        base(LOWEST, 0),
        base(ANY, 1),
        compound(PARETO, 0, 1),
        base(LOWEST, 2),
        compound(PRIOR, 2, 3),
    ]);
    let ask = |first: [i32; 3], second: [i32; 3]| {
        ORACLE.compare(&records, 3, 4, &first, &second).unwrap()
    };
    assert_eq!(ask([1, 5, 0], [1, 5, 9]), Outcome::FirstBetter);
    assert_eq!(ask([1, 5, 0], [1, 6, 9]), Outcome::Unranked);
    assert_eq!(ask([2, 5, 0], [1, 5, 9]), Outcome::SecondBetter);
}

#[test]
fn both_asks_for_better_in_both() {
    let pos = [base(POS, 0), value(FAVOURITE, 2), value(FAVOURITE, 3)];
    let records = [
        pos[0],
        pos[1],
        pos[2],
        base(LOWEST, 0),
        compound(BOTH, 0, 3),
    ];
    let ask = |first, second| {
        ORACLE
            .compare(&table(&records), 1, 4, &[first], &[second])
            .unwrap()
    };
    assert_eq!(ask(2, 4), Outcome::FirstBetter);
    assert_eq!(ask(4, 2), Outcome::SecondBetter);
    // Favourite but higher; lower but not favourite; neither favourite.
    assert_eq!(ask(2, 1), Outcome::Unranked);
    assert_eq!(ask(2, 3), Outcome::Unranked);
    assert_eq!(ask(4, 5), Outcome::Unranked);
    assert_eq!(ask(4, 4), Outcome::Same);
}

#[test]
fn dual_lets_the_rows_change_places() {
    let records = table(&[base(LOWEST, 0), dual(0), dual(1)]);
    let ask = |term| ORACLE.compare(&records, 1, term, &[1], &[2]).unwrap();
    assert_eq!(ask(0), Outcome::FirstBetter);
    assert_eq!(ask(1), Outcome::SecondBetter);
    assert_eq!(ask(2), Outcome::FirstBetter);
}

#[test]
fn parts_may_share_columns() {
    // PRIOR of LOWEST 0 and (HIGHEST 0 before LOWEST 1): where column 0 is equal
    // column 1 decides.
    let records = table(&[
        base(LOWEST, 0),
        base(HIGHEST, 0),
        base(LOWEST, 1),
        compound(PRIOR, 1, 2),
        compound(PRIOR, 0, 3),
    ]);
    let ask = |first: [i32; 2], second: [i32; 2]| {
        ORACLE.compare(&records, 2, 4, &first, &second).unwrap()
    };
    assert_eq!(ask([1, 9], [2, 0]), Outcome::FirstBetter);
    assert_eq!(ask([1, 9], [1, 0]), Outcome::SecondBetter);
    let checked = ORACLE.check(&records, 2).unwrap();
    assert_eq!((checked.columns, checked.column_count), (0b11, 2));
}

#[test]
fn the_top_may_be_followed_by_its_values() {
    let records = table(&[base(POS, 5), value(FAVOURITE, 2), value(FAVOURITE, 2)]);
    let checked = Checked {
        records: 3,
        top: 0,
        columns: 0b10_0000,
        column_count: 1,
    };
    assert_eq!(ORACLE.check(&records, 8), Ok(checked));
}

#[test]
fn deep_tables_answer() {
    // 127 DUALs over a LOWEST: an odd number, so the higher value is better.
    let mut records = vec![base(LOWEST, 0)];
    records.extend((0..127).map(dual));
    let deep = table(&records);
    assert_eq!(ORACLE.check(&deep, 1).unwrap().top, 127);
    let outcome = ORACLE.compare(&deep, 1, 127, &[1], &[2]);
    assert_eq!(outcome, Ok(Outcome::SecondBetter));
    // 63 PARETOs on one column: LOWEST throughout stays LOWEST.
    let mut records = vec![base(LOWEST, 0)];
    for i in 0..63 {
        records.push(base(LOWEST, 0));
        records.push(compound(PARETO, 2 * i, 2 * i + 1));
    }
    let deep = table(&records);
    let outcome = ORACLE.compare(&deep, 1, 126, &[1], &[2]);
    assert_eq!(outcome, Ok(Outcome::FirstBetter));
}
