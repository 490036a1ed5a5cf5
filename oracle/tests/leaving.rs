//! SPECIFICATION, "Leaving out rows": cases by hand.

mod common;

use common::*;
use oracle::{Catalogue, Left, Mistake, Oracle};

const ORACLE: Oracle = Oracle { mistake: None };

fn mistaken(mistake: Mistake) -> Oracle {
    Oracle {
        mistake: Some(mistake),
    }
}

/// What is asked, of which rows.
struct Asked<const N: usize> {
    table: Vec<u8>,
    term: usize,
    group: u8,
    rows: Vec<[i32; N]>,
}

impl<const N: usize> Asked<N> {
    fn new(table: Vec<u8>, term: usize, group: u8, rows: &[[i32; N]]) -> Asked<N> {
        let rows = rows.to_vec();
        Asked {
            table,
            term,
            group,
            rows,
        }
    }

    fn over(&self, rows: &[[i32; N]]) -> Vec<u16> {
        entries(&self.table, self.term, self.group, rows).1
    }

    /// The rows that are left without these.
    fn left(&self, oracle: &Oracle, out: &[usize]) -> Left {
        let stays: Vec<bool> = (0..self.rows.len()).map(|i| !out.contains(&i)).collect();
        oracle.left(N, &self.rows.concat(), &stays)
    }

    /// The entries before these rows are taken out; afterwards; and afterwards
    /// by old numbers.
    fn without(&self, out: &[usize], before: &[u16], after: &[u16], by_old: &[u16]) {
        assert_eq!(self.over(&self.rows), before);
        let may_go = ORACLE.may_go(before);
        assert!(out.iter().all(|i| may_go.contains(i)));
        let left = self.left(&ORACLE, out);
        assert_eq!(ORACLE.entries_left(before, &left), after);
        assert_eq!(self.over(&rows(&left)), after);
        assert_eq!(old_entries(&left, after), by_old);
    }

    /// The rows before `split` and those behind it, each queried by itself.
    fn together(&self, oracle: &Oracle, split: usize) -> Left {
        let (first, second) = self.rows.split_at(split);
        oracle.together(
            N,
            Catalogue {
                rows: &first.concat(),
                entries: &self.over(first),
            },
            Catalogue {
                rows: &second.concat(),
                entries: &self.over(second),
            },
        )
    }

    /// Split there: the numbers kept apart, each in its own catalogue; and the
    /// rows kept of both together, which one query over both keeps.
    fn splits(&self, split: usize, apart: [&[usize]; 2], expected: &[[i32; N]]) {
        let (first, second) = self.rows.split_at(split);
        assert_eq!(kept(&self.over(first)), apart[0]);
        assert_eq!(kept(&self.over(second)), apart[1]);
        let left = self.together(&ORACLE, split);
        let numbers = apart[0].iter().copied();
        let behind = apart[1].iter().map(|i| split + i);
        assert_eq!(left.old, numbers.chain(behind).collect::<Vec<_>>());
        let of_both = self.over(&self.rows);
        let again = self.over(&rows(&left));
        assert_eq!(ORACLE.entries_left(&of_both, &left), again);
        assert_eq!(cells(&rows(&left), &again), expected);
        assert_eq!(cells(&self.rows, &of_both), expected);
    }
}

fn rows<const N: usize>(left: &Left) -> Vec<[i32; N]> {
    let rows = left.rows.chunks_exact(N);
    rows.map(|row| row.try_into().unwrap()).collect()
}

fn old_entries(left: &Left, entries: &[u16]) -> Vec<u16> {
    let old = |entry: &u16| left.old[usize::from(*entry)] as u16;
    entries.iter().map(old).collect()
}

fn kept(entries: &[u16]) -> Vec<usize> {
    let own = |i: &usize| usize::from(entries[*i]) == *i;
    (0..entries.len()).filter(own).collect()
}

/// The kept rows themselves.
fn cells<const N: usize>(rows: &[[i32; N]], entries: &[u16]) -> Vec<[i32; N]> {
    kept(entries).into_iter().map(|i| rows[i]).collect()
}

fn lowest(values: &[i32]) -> Asked<1> {
    let rows: Vec<[i32; 1]> = values.iter().map(|value| [*value]).collect();
    Asked::new(table(&[base(LOWEST, 0)]), 0, 0, &rows)
}

#[test]
fn t1_over_v_without_some_dropped_rows() {
    let top = Asked::new(t1(), 4, 0, &V);
    let before = [0, 0, 2, 2, 4, 4, 2];
    assert_eq!(ORACLE.may_go(&before), [1, 3, 5, 6]);
    top.without(&[1], &before, &[0, 1, 1, 3, 3, 1], &[0, 2, 2, 4, 4, 2]);
    top.without(&[1, 3, 5, 6], &before, &[0, 1, 2], &[0, 2, 4]);
    top.without(&[3, 6], &before, &[0, 0, 2, 3, 3], &[0, 0, 2, 4, 4]);
}

#[test]
fn the_rows_that_are_left_stand_in_their_old_order() {
    let left = Asked::new(t1(), 4, 0, &V).left(&ORACLE, &[1, 3, 5, 6]);
    assert_eq!(left.rows, [-5, 3, 4, 5, 1, 8, -6, 0, 6]);
    assert_eq!(left.old, [0, 2, 4]);
}

#[test]
fn a_row_before_the_named_one_is_taken_out() {
    let falling = lowest(&[3, 2, 1, 2]);
    falling.without(&[1], &[2, 2, 2, 2], &[1, 1, 1], &[2, 2, 2]);
    let pareto = table(&[base(LOWEST, 0), base(LOWEST, 1), compound(PARETO, 0, 1)]);
    let pareto = Asked::new(pareto, 2, 0, &[[2, 2], [1, 3], [1, 1], [3, 1]]);
    pareto.without(&[1], &[2, 2, 2, 2], &[1, 1, 1], &[2, 2, 2]);
}

#[test]
fn a_grouped_query_without_a_row() {
    // Column 0 groups the rows 0, 1 and 3; row 2 is alone.
    let rows = [[7, 3], [7, 1], [8, 9], [7, 2]];
    let grouped = Asked::new(table(&[base(LOWEST, 1)]), 0, 1, &rows);
    grouped.without(&[0], &[1, 1, 2, 1], &[0, 1, 0], &[1, 2, 1]);
}

#[test]
fn no_row_is_taken_out() {
    lowest(&[2, 1]).without(&[], &[1, 1], &[1, 1], &[1, 1]);
}

#[test]
fn nothing_is_said_of_a_kept_row_taken_out() {
    let two = lowest(&[1, 2]);
    assert_eq!(two.over(&two.rows), [0, 0]);
    assert_eq!(ORACLE.may_go(&[0, 0]), [1]);
    // Without row 0 the row that it beats is kept.
    let left = two.left(&ORACLE, &[0]);
    assert_eq!(two.over(&rows(&left)), [0]);
    assert_eq!(old_entries(&left, &[0]), [1]);
    // The row that its entry named is gone, and no other takes its place.
    assert_eq!(ORACLE.entries_left(&[0, 0], &left), [u16::MAX]);
}

#[test]
fn two_catalogues() {
    // Equal rows, one in each catalogue, are both kept.
    lowest(&[3, 1, 2, 1, 4]).splits(3, [&[1], &[0]], &[[1], [1]]);
    let kept = [[-5, 3, 4], [5, 1, 8], [-6, 0, 6]];
    Asked::new(t1(), 4, 0, &V).splits(3, [&[0, 2], &[0, 1, 3]], &kept);
    // The first catalogue is empty; and the second.
    lowest(&[5, 4]).splits(0, [&[], &[1]], &[[4]]);
    lowest(&[5, 4]).splits(2, [&[1], &[]], &[[4]]);
    // What the first keeps, the second betters.
    lowest(&[3, 2, 1]).splits(2, [&[1], &[0]], &[[1]]);
}

#[test]
fn two_catalogues_by_groups() {
    // Column 0 groups. Apart, each catalogue keeps one seven and its eight;
    // together (7, 1) betters (7, 2), and (8, 5) betters (8, 6).
    let rows = [[7, 2], [8, 5], [7, 3], [7, 1], [8, 6], [7, 4]];
    let grouped = Asked::new(table(&[base(LOWEST, 1)]), 0, 1, &rows);
    grouped.splits(3, [&[0, 1], &[0, 1]], &[[8, 5], [7, 1]]);
}

#[test]
fn each_planted_mistake_shows() {
    let both = lowest(&[3, 1, 2, 1, 4]);
    let before = both.over(&both.rows);
    assert_eq!(ORACLE.may_go(&before), [0, 2, 4]);
    // Row 3 is kept, and row 1 is named in its place.
    let may_go = mistaken(Mistake::UnnamedGoes).may_go(&before);
    assert_eq!(may_go, [0, 2, 3, 4]);

    let left = both.left(&ORACLE, &[0, 2]);
    assert_eq!(ORACLE.entries_left(&before, &left), [0, 1, 0]);
    assert_eq!(
        (&left.old[..], &left.rows[..]),
        (&[1, 3, 4][..], &[1, 1, 4][..])
    );
    let turned = both.left(&mistaken(Mistake::LeftTurned), &[0, 2]);
    assert_eq!((turned.old, turned.rows), (vec![4, 3, 1], vec![4, 1, 1]));
    let turned = both.left(&mistaken(Mistake::RunTurned), &[0, 2]);
    assert_eq!((turned.old, turned.rows), (vec![1, 3, 4], vec![4, 1, 1]));
    let by_old_numbers = mistaken(Mistake::OldNumbers).entries_left(&before, &left);
    assert_eq!(by_old_numbers, [1, 3, 1]);
    let by_cells = mistaken(Mistake::NamedByCells).entries_left(&before, &left);
    assert_eq!(by_cells, [0, 0, 0]);

    let together = |mistake| both.together(&mistaken(mistake), 3);
    assert_eq!(both.together(&ORACLE, 3).old, [1, 3]);
    assert_eq!(together(Mistake::SecondFirst).old, [3, 1]);
    assert_eq!(together(Mistake::SecondFromZero).old, [1, 0]);
    assert_eq!(together(Mistake::EqualOnce).old, [1]);
}
