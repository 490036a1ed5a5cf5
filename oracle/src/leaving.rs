//! SPECIFICATION, "Leaving out rows": what the answers are once dropped rows are
//! taken out, and what two catalogues hand on to one query over both.

use crate::{wrong, Mistake, Oracle};

/// The entry where a kept row is gone, of which nothing is said: no row has this
/// number.
const NO_ROW: u16 = u16::MAX;

/// A row with its old number.
pub(crate) type Numbered<'a> = (usize, &'a [i32]);

/// "The rows that are left."
#[derive(Clone, Debug, PartialEq, Eq)]
pub struct Left {
    /// Row after row in one run.
    pub rows: Vec<i32>,
    /// By the number that a row has here, the one that it had before.
    pub old: Vec<usize>,
}

impl Left {
    fn of(numbered: Vec<Numbered>) -> Left {
        let (old, rows): (Vec<usize>, Vec<&[i32]>) = numbered.into_iter().unzip();
        Left {
            rows: rows.concat(),
            old,
        }
    }

    /// The number that the row with this old one has here, if it is left.
    pub(crate) fn renumbered(&self, old: usize) -> Option<usize> {
        self.old.iter().position(|&number| number == old)
    }
}

/// A catalogue queried by itself: its rows and the entries that were written.
#[derive(Clone, Copy, Debug)]
pub struct Catalogue<'a> {
    pub rows: &'a [i32],
    pub entries: &'a [u16],
}

impl Oracle {
    /// "Some or all of the dropped rows": those that may be taken out.
    pub fn may_go(&self, entries: &[u16]) -> Vec<usize> {
        let dropped = |&i: &usize| match self.has(Mistake::UnnamedGoes) {
            true => wrong::unnamed(entries, i),
            false => usize::from(entries[i]) != i,
        };
        (0..entries.len()).filter(dropped).collect()
    }

    /// "The rows that are left being numbered from 0 again in their old order."
    pub fn left(&self, columns: usize, rows: &[i32], stays: &[bool]) -> Left {
        let rows = rows.chunks_exact(columns).enumerate();
        let left: Vec<Numbered> = rows.filter(|(i, _)| stays[*i]).collect();
        match self.wrong(|mistake| wrong::left(mistake, &left)) {
            Some(wrong) => Left::of(wrong),
            None => Left::of(left),
        }
    }

    /// "The same rows are kept and each remaining dropped row names the same
    /// better row": the entries over the rows that are left, from the entries
    /// over all rows.
    pub fn entries_left(&self, entries: &[u16], left: &Left) -> Vec<u16> {
        let entry = |&old: &usize| {
            let named = usize::from(entries[old]);
            if let Some(wrong) = self.wrong(|mistake| wrong::entry_left(mistake, left, named)) {
                return wrong as u16;
            }
            // A row that is named is kept, and so it is left.
            left.renumbered(named).map_or(NO_ROW, |entry| entry as u16)
        };
        left.old.iter().map(entry).collect()
    }

    /// "Querying two catalogues separately and then their kept rows together":
    /// the kept rows of the first and then of the second, with the numbers that
    /// they have in "one query over both", the second's rows behind the first's.
    pub fn together(&self, columns: usize, first: Catalogue, second: Catalogue) -> Left {
        let behind = match self.has(Mistake::SecondFromZero) {
            true => 0,
            false => first.entries.len(),
        };
        let (first, second) = (kept(columns, first, 0), kept(columns, second, behind));
        match self.wrong(|mistake| wrong::together(mistake, &first, &second)) {
            Some(wrong) => Left::of(wrong),
            None => Left::of([first, second].concat()),
        }
    }
}

/// The kept rows of a catalogue whose rows are numbered from `from` on.
fn kept<'a>(columns: usize, catalogue: Catalogue<'a>, from: usize) -> Vec<Numbered<'a>> {
    let rows = catalogue.rows.chunks_exact(columns).enumerate();
    rows.filter(|(i, _)| usize::from(catalogue.entries[*i]) == *i)
        .map(|(i, row)| (from + i, row))
        .collect()
}
