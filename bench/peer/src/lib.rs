//! Query as one would write it in plain Rust (SPECIFICATION, "When a row is better" and "Query"): a tree of terms, a
//! recursive comparison, a nested loop over the rows that are not dropped. The bench measures the library against it.
//! It does not check the table: one that the check refuses gives nonsense or panics.
#![forbid(unsafe_code)]

mod term;

use term::{Outcome, Term};

/// What is asked: an accepted table, the column count, the rows in one run, a term's record number and the group byte.
#[derive(Clone, Copy)]
pub struct Query<'a> {
    pub table: &'a [u8],
    pub columns: usize,
    pub rows: &'a [i32],
    pub term: usize,
    pub group: u8,
}

/// Row i's answer becomes i if the row is kept, else the lowest kept row of its group that is better. Gives how many
/// rows were kept.
pub fn query(asked: Query, answers: &mut [u16]) -> usize {
    let term = Term::decode(asked.table, asked.term);
    let rows: Vec<&[i32]> = asked.rows.chunks_exact(asked.columns).collect();
    let grouping: Vec<usize> = (0..asked.columns)
        .filter(|c| asked.group >> c & 1 == 1)
        .collect();
    let together = |x: &[i32], y: &[i32]| grouping.iter().all(|&c| x[c] == y[c]);
    let dropped = eliminate(&term, &rows, &together);
    let kept: Vec<usize> = (0..rows.len()).filter(|&i| !dropped[i]).collect();
    for (i, row) in rows.iter().enumerate() {
        let better =
            |&&k: &&usize| together(rows[k], row) && term.compare(rows[k], row) == Outcome::First;
        let entry = match dropped[i] {
            false => i,
            true => *kept.iter().find(better).expect("a kept row is better"),
        };
        answers[i] = entry as u16;
    }
    kept.len()
}

/// Which rows another row of their group beats: each row that is left meets each later one that is left.
fn eliminate(
    term: &Term,
    rows: &[&[i32]],
    together: &impl Fn(&[i32], &[i32]) -> bool,
) -> Vec<bool> {
    let mut dropped = vec![false; rows.len()];
    for i in 0..rows.len() {
        if dropped[i] {
            continue;
        }
        for j in i + 1..rows.len() {
            if dropped[j] || !together(rows[i], rows[j]) {
                continue;
            }
            match term.compare(rows[i], rows[j]) {
                Outcome::First => dropped[j] = true,
                Outcome::Second => {
                    dropped[i] = true;
                    break;
                }
                Outcome::Same | Outcome::Unranked => {}
            }
        }
    }
    dropped
}
