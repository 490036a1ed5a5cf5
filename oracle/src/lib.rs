//! An independent implementation, for tests: read from the specification's
//! sources (SPECIFICATION, "Sources"), whose sentences stand in quotation marks
//! beside the code, and sharing no code with the library. It has definitions over
//! all rows, graph search for reachability, and the table of refusals as it stands.

mod better;
mod leaving;
mod mistakes;
mod perfect;
mod pick;
mod query;
mod refusals;
mod table;
mod wrong;

pub use leaving::{Catalogue, Left};
pub use mistakes::Mistake;
use refusals::Asked;

/// A refusal (SPECIFICATION, "What a call refuses"): its number, and the record
/// as place where it gives one.
#[derive(Clone, Copy, Debug, PartialEq, Eq)]
pub struct Refused {
    pub number: u32,
    pub place: Option<usize>,
}

/// What Check gives: number of records, top, columns read by the top (bit j for
/// column j) and how many.
#[derive(Clone, Copy, Debug, PartialEq, Eq)]
pub struct Checked {
    pub records: usize,
    pub top: usize,
    pub columns: u32,
    pub column_count: u32,
}

/// What Compare gives.
#[derive(Clone, Copy, Debug, PartialEq, Eq)]
pub enum Outcome {
    Same,
    FirstBetter,
    SecondBetter,
    Unranked,
}

/// The oracle, without or with one planted mistake.
#[derive(Clone, Copy, Debug, Default)]
pub struct Oracle {
    pub mistake: Option<Mistake>,
}

impl Oracle {
    /// "Check: table and column count."
    pub fn check(&self, table: &[u8], columns: usize) -> Result<Checked, Refused> {
        let table = self.accepted(table, columns, &Asked::default())?;
        // An accepted table has a term: its record 0.
        let mut top = table.last_term().unwrap_or(0);
        let last = table.records.len() - 1;
        let mut read = table.columns(top);
        if self.has(Mistake::MaskOfLast) {
            read = table.columns(last);
        }
        // "One bit each, bit j for column j."
        let columns = read.iter().fold(0, |mask, &column| mask | 1 << column);
        // "The check reports how many bits are set."
        let mut column_count = table.columns(top).len() as u32;
        if self.has(Mistake::CountOfBaseTerms) {
            column_count = table.records.iter().filter(|term| term.is_base()).count() as u32;
        }
        let mut records = table.records.len();
        if self.has(Mistake::RecordsAreTerms) {
            records = table.records.iter().filter(|term| term.is_term()).count();
        }
        if self.has(Mistake::TopIsLastRecord) {
            top = last;
        }
        Ok(Checked {
            records,
            top,
            columns,
            column_count,
        })
    }

    /// "Compare: also a term's record number and two rows. Gives same (equal in
    /// the term's columns), first better, second better, or unranked."
    pub fn compare(
        &self,
        table: &[u8],
        columns: usize,
        term: usize,
        first: &[i32],
        second: &[i32],
    ) -> Result<Outcome, Refused> {
        let term = self.term_taken(term);
        let asked = Asked {
            single_rows: &[first, second],
            term: Some(term),
            ..Asked::default()
        };
        let table = self.accepted(table, columns, &asked)?;
        let same = match self.has(Mistake::SameWholeRow) {
            true => first == second,
            false => better::equal_in(table.columns(term), first, second),
        };
        let (mut second_better, mut first_better) =
            self.ranks(&table, &table.beneath(term), first, second);
        if self.has(Mistake::CompareTurned) {
            std::mem::swap(&mut first_better, &mut second_better);
        }
        Ok(match (same, first_better, second_better) {
            (true, _, _) => Outcome::Same,
            (_, true, _) => Outcome::FirstBetter,
            (_, _, true) => Outcome::SecondBetter,
            _ => Outcome::Unranked,
        })
    }

    /// Every refusal number that this input earns by itself anywhere, bit n for
    /// number n. Each rule is judged apart from the others over every whole
    /// record; skipped is only what cannot be judged: fields of an unknown kind,
    /// columns of a BOTH over unknown parts, rows of no columns.
    #[allow(clippy::too_many_arguments)]
    pub fn earned(
        &self,
        table: &[u8],
        columns: usize,
        rows: Option<&[i32]>,
        single_rows: &[&[i32]],
        term: Option<usize>,
        group: Option<u8>,
        answers_len: Option<usize>,
    ) -> u32 {
        let asked = Asked {
            run: rows,
            single_rows,
            term: term.map(|term| self.term_taken(term)),
            group,
            entries: answers_len,
        };
        self.every_refusal(table, columns, &asked)
    }
}
