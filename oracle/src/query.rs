//! Query: which rows are kept, and the witness of each dropped one.

use crate::better::equal_in;
use crate::refusals::Asked;
use crate::table::Table;
use crate::{wrong, Mistake, Oracle, Refused};

/// What a query is asked.
#[derive(Clone)]
pub struct Query<'a> {
    pub table: &'a Table,
    pub term: usize,
    /// The term and the records beneath it.
    pub beneath: Vec<usize>,
    pub rows: Vec<&'a [i32]>,
    /// The columns of the group byte.
    pub group: Vec<usize>,
}

impl Query<'_> {
    /// Where a sentence says "the set", "the rows of one group are meant".
    fn same_set(&self, i: usize, j: usize) -> bool {
        equal_in(&self.group, self.rows[i], self.rows[j])
    }
}

impl Oracle {
    /// "Query: also the rows, a term number, a group byte and the answer buffer
    /// of 16-bit numbers." Writes the entries; returns how many rows are kept.
    pub fn query(
        &self,
        table: &[u8],
        columns: usize,
        rows: &[i32],
        term: usize,
        group: u8,
        answers: &mut [u16],
    ) -> Result<usize, Refused> {
        let term = self.term_taken(term);
        let asked = Asked {
            run: Some(rows),
            term: Some(term),
            group: Some(group),
            entries: Some(answers.len()),
            ..Asked::default()
        };
        let accepted = self.accepted(table, columns, &asked);
        if let (Err(refused), Some(entry)) = (&accepted, answers.first_mut()) {
            if self.has(Mistake::RefusalWrites) {
                *entry = refused.number as u16;
            }
        }
        let table = accepted?;
        let query = Query {
            table: &table,
            term,
            beneath: table.beneath(term),
            // "Row after row in one run."
            rows: rows.chunks_exact(table.count).collect(),
            group: self.group_columns(table.count, group),
        };
        Ok(self.settle(&query, answers))
    }

    /// "Row i's entry is i if kept, else the lowest kept row of its group that is
    /// better. Gives how many rows were kept."
    fn settle(&self, query: &Query, answers: &mut [u16]) -> usize {
        let rows = query.rows.len();
        let kept = match self.wrong(|mistake| wrong::kept(mistake, query)) {
            Some(wrong) => wrong,
            None => self.kept(query),
        };
        for i in 0..rows {
            let entry = if kept[i] {
                i
            } else {
                self.witness(query, &kept, i)
            };
            answers[i] = entry as u16;
        }
        // "Entries after the last row keep their contents."
        if self.has(Mistake::EntryAfterLast) && answers.len() > rows {
            answers[rows] = rows as u16;
        }
        let count = (0..rows).filter(|&i| kept[i]).count();
        match self.mistake {
            Some(Mistake::KeptCountHigh) if count < rows => count + 1,
            Some(Mistake::KeptOfFirstGroup) => (0..rows)
                .filter(|&i| kept[i] && query.same_set(0, i))
                .count(),
            _ => count,
        }
    }

    /// A row is kept when "no row of the set is better, and only then".
    pub(crate) fn kept(&self, query: &Query) -> Vec<bool> {
        let rows = 0..query.rows.len();
        let beaten = |i: usize| {
            rows.clone()
                .any(|j| query.same_set(i, j) && self.is_better(query, i, j))
        };
        rows.clone().map(|i| !beaten(i)).collect()
    }

    /// "The lowest kept row of its group that is better."
    fn witness(&self, query: &Query, kept: &[bool], i: usize) -> usize {
        let mut witnesses = (0..kept.len()).filter(|&j| {
            (kept[j] || self.has(Mistake::DroppedWitness))
                && (query.same_set(i, j) || self.has(Mistake::GroupWitness))
                && self.is_better(query, i, j)
        });
        let witness = match self.has(Mistake::HighestWitness) {
            true => witnesses.next_back(),
            false => witnesses.next(),
        };
        // "Every dropped row is beaten by a kept row of the set": only a planted
        // mistake finds none.
        assert!(witness.is_some() || self.mistake.is_some());
        witness.unwrap_or(0)
    }

    /// Whether row j is better than row i under the term.
    fn is_better(&self, query: &Query, i: usize, j: usize) -> bool {
        let (x, y) = (query.rows[i], query.rows[j]);
        if self.has(Mistake::EqualRowRemoved) && j < i {
            let columns = query.table.columns(query.term);
            if equal_in(columns, x, y) {
                return true;
            }
        }
        self.ranks(query.table, &query.beneath, x, y).0
    }

    /// The columns of a group byte: "bit j means equal in column j; 0 is one
    /// group".
    fn group_columns(&self, count: usize, group: u8) -> Vec<usize> {
        let bits = (0..8).filter(|bit| group >> bit & 1 == 1);
        match self.mistake {
            Some(Mistake::GroupIgnored) => Vec::new(),
            Some(Mistake::GroupFirstColumn) => bits.take(1).collect(),
            Some(Mistake::GroupBitsTurned) => bits.map(|bit| count - 1 - bit).collect(),
            _ => bits.collect(),
        }
    }
}
