//! What was reached with rows left out of queries, counted as they are judged.

use crate::input::Input;
use crate::leaving::Way;
use crate::library::Reply;
use crate::records::VALUE;
use oracle::Left;
use std::collections::HashSet;

/// By the two ways to leave rows out.
#[derive(Default, Clone)]
pub struct Leaving {
    pub out: Out,
    pub split: Split,
}

/// Queries again without some dropped rows. From `some` on, those that lost a row.
#[derive(Default, Clone)]
pub struct Out {
    pub none: u64,
    /// Not all dropped rows are taken out.
    pub some: u64,
    pub all: u64,
    pub ungrouped: u64,
    pub grouped: u64,
    /// A dropped row names a row that has another number than before.
    pub renumbered: u64,
    pub renumbered_in_groups: u64,
    /// The asked term is not the top.
    pub part_asked: u64,
    /// More than 64 rows are left.
    pub over_64: u64,
    /// 1,024 rows before.
    pub most_rows: u64,
}

/// Queries over two catalogues apart, then over their kept rows. From `both` on, those with rows in both.
#[derive(Default, Clone)]
pub struct Split {
    pub first_empty: u64,
    pub second_empty: u64,
    pub both: u64,
    pub ungrouped: u64,
    pub grouped: u64,
    /// A row is kept apart and dropped together.
    pub beaten: u64,
    pub beaten_in_groups: u64,
    /// Two rows of the same cells, one in each catalogue, both kept.
    pub equal: u64,
    /// A dropped row names a row that has another number than in one query.
    pub renumbered: u64,
    pub part_asked: u64,
    /// More than 64 rows are kept apart.
    pub over_64: u64,
    /// 1,024 rows in both.
    pub most_rows: u64,
}

impl Leaving {
    /// A query, its reply, and the rows left of it in one way.
    pub fn note(&mut self, input: &Input, whole: &Reply, way: &Way, left: &Left) {
        let seen = Seen::of(input, whole, left);
        match way {
            Way::Out(out) => self.out.note(&seen, out.len()),
            Way::Split(at) => {
                let equal = equal_kept(input, whole, *at);
                self.split.note(&seen, *at, equal);
            }
        }
    }
}

/// What is counted of either way.
struct Seen {
    rows: usize,
    dropped: usize,
    left: usize,
    grouped: bool,
    part_asked: bool,
    /// A row that is left is dropped.
    beaten: bool,
    renumbered: bool,
}

impl Seen {
    fn of(input: &Input, whole: &Reply, left: &Left) -> Seen {
        let named = |row: usize| whole.answers[row] as usize;
        let mut dropped = left.old.iter().filter(|row| named(**row) != **row);
        let mut table = input.table.chunks_exact(12);
        // A row has its old number if no row before it is gone.
        let moved = |row: &usize| left.old.get(named(*row)) != Some(&named(*row));
        Seen {
            rows: input.row_count(),
            dropped: input.row_count() - whole.values[0] as usize,
            left: left.old.len(),
            grouped: input.group != 0,
            part_asked: table.rposition(|record| record[0] != VALUE) != Some(input.term),
            beaten: dropped.clone().next().is_some(),
            renumbered: dropped.any(moved),
        }
    }
}

impl Out {
    fn note(&mut self, seen: &Seen, out: usize) {
        self.none += (out == 0) as u64;
        if out == 0 {
            return;
        }
        self.some += (out < seen.dropped) as u64;
        self.all += (out == seen.dropped) as u64;
        self.ungrouped += !seen.grouped as u64;
        self.grouped += seen.grouped as u64;
        self.renumbered += seen.renumbered as u64;
        self.renumbered_in_groups += (seen.renumbered && seen.grouped) as u64;
        self.part_asked += seen.part_asked as u64;
        self.over_64 += (seen.left > 64) as u64;
        self.most_rows += (seen.rows == 1_024) as u64;
    }
}

impl Split {
    fn note(&mut self, seen: &Seen, at: usize, equal: bool) {
        self.first_empty += (at == 0) as u64;
        self.second_empty += (at == seen.rows) as u64;
        if at == 0 || at == seen.rows {
            return;
        }
        self.both += 1;
        self.ungrouped += !seen.grouped as u64;
        self.grouped += seen.grouped as u64;
        self.beaten += seen.beaten as u64;
        self.beaten_in_groups += (seen.beaten && seen.grouped) as u64;
        self.equal += equal as u64;
        self.renumbered += seen.renumbered as u64;
        self.part_asked += seen.part_asked as u64;
        self.over_64 += (seen.left > 64) as u64;
        self.most_rows += (seen.rows == 1_024) as u64;
    }
}

/// Whether two rows of the same cells are kept, one before row `at` and one from it on.
fn equal_kept(input: &Input, whole: &Reply, at: usize) -> bool {
    let rows: Vec<&[i32]> = input.rows.chunks_exact(input.columns).collect();
    let kept = |row: &usize| whole.answers[*row] as usize == *row;
    let before: HashSet<&[i32]> = (0..at).filter(kept).map(|row| rows[row]).collect();
    let mut behind = (at..rows.len()).filter(kept);
    behind.any(|row| before.contains(rows[row]))
}
