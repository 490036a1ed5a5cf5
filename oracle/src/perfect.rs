//! SPECIFICATION, "Perfect": the mark of a row that no other value could better.

use crate::better::cell;
use crate::refusals::Asked;
use crate::table::{Table, DUAL};
use crate::{wrong, Mistake, Oracle, Refused};

impl Oracle {
    /// "A row is perfect when, in every base term beneath the asked term (itself
    /// if it is a base term), no 32-bit value is better than the row's; beneath
    /// an odd number of DUALs, none is worse."
    pub fn perfect(
        &self,
        table: &[u8],
        columns: usize,
        term: usize,
        row: &[i32],
    ) -> Result<bool, Refused> {
        let term = self.term_taken(term);
        let asked = Asked {
            single_rows: &[row],
            term: Some(term),
            ..Asked::default()
        };
        let table = self.accepted(table, columns, &asked)?;
        let duals = self.duals_above(&table, term);
        let unmatched = |&i: &usize| {
            let value = cell(row, usize::from(table.records[i].p));
            self.unmatched(&table, i, value, duals[i] % 2 == 1)
        };
        let beneath = table.beneath(term);
        let mut bases = beneath.iter().filter(|&&i| table.records[i].is_base());
        Ok(match self.mistake {
            Some(Mistake::FirstBaseOnly) => bases.take(1).all(unmatched),
            Some(Mistake::OneBaseEnough) => bases.any(unmatched),
            _ => bases.all(unmatched),
        })
    }

    /// For each record beneath the asked term the number of DUALs above it,
    /// "counted from the asked term down and with it".
    fn duals_above(&self, table: &Table, term: usize) -> Vec<usize> {
        let mut duals = vec![0; term + 1];
        if self.has(Mistake::DualsFromTop) {
            duals[term] = duals_over(table, term);
        }
        for &i in table.beneath(term).iter().rev() {
            let counts = match self.mistake {
                Some(Mistake::DualsNotCounted) => false,
                Some(Mistake::OwnDualLeftOut) => table.records[i].kind == DUAL && i != term,
                _ => table.records[i].kind == DUAL,
            };
            for part in table.records[i].parts() {
                duals[part] = duals[i] + usize::from(counts);
            }
        }
        duals
    }

    /// Whether "no 32-bit value is better" than this one in a base term; with
    /// `turned`, whether "none is worse".
    fn unmatched(&self, table: &Table, i: usize, value: i32, turned: bool) -> bool {
        if let Some(wrong) =
            self.wrong(|mistake| wrong::unmatched(mistake, table, i, value, turned))
        {
            return wrong;
        }
        self.telling_values(table, i).into_iter().all(|other| {
            if turned {
                !self.base(table, i, other, value)
            } else {
                !self.base(table, i, value, other)
            }
        })
    }

    /// Values such that if any 32-bit value is better than a given one, or
    /// worse, then one of these is: both ends of the range (lowest, highest,
    /// farthest), the wish and the bounds (nearest), the values the term lists,
    /// and one that it does not list, since unlisted values rank alike.
    fn telling_values(&self, table: &Table, i: usize) -> Vec<i32> {
        let record = &table.records[i];
        let mut telling = vec![record.u, record.v];
        for value in table.run(i) {
            telling.extend([value.u, value.v]);
        }
        if self.has(Mistake::ListedOnly) {
            return telling;
        }
        telling.extend((0..).find(|other| !telling.contains(other)));
        telling.extend([i32::MIN, i32::MAX]);
        telling
    }
}

/// How many DUALs stand over a term, from the top of the table down.
fn duals_over(table: &Table, term: usize) -> usize {
    let mut at = term;
    let mut duals = 0;
    for (i, record) in table.records.iter().enumerate().skip(term + 1) {
        if record.parts().any(|part| part == at) {
            at = i;
            duals += usize::from(record.kind == DUAL);
        }
    }
    duals
}
