//! SPECIFICATION, "The table": the records as they stand in the bytes, the value
//! records of each term and the columns each term reads.

use crate::{Mistake, Oracle};

pub const VALUE: u8 = 0;
pub const LOWEST: u8 = 1;
pub const HIGHEST: u8 = 2;
pub const AROUND: u8 = 3;
pub const BETWEEN: u8 = 4;
pub const POS: u8 = 5;
pub const NEG: u8 = 6;
pub const POS_NEG: u8 = 7;
pub const POS_POS: u8 = 8;
pub const EXPLICIT: u8 = 9;
pub const ANY: u8 = 10;
pub const PARETO: u8 = 16;
pub const PRIOR: u8 = 17;
pub const BOTH: u8 = 18;
pub const DUAL: u8 = 19;

pub const FAVOURITE: u8 = 1;
pub const DISLIKED: u8 = 2;
pub const SECOND_CHOICE: u8 = 3;
pub const EDGE: u8 = 4;

/// "A table is a run of 12-byte records with no header."
pub const RECORD_BYTES: usize = 12;

/// "Byte 0 is the kind. Bytes 1 to 3 are p, q and s. Bytes 4 to 7 are u and
/// 8 to 11 are v."
#[derive(Clone, Copy, Debug, PartialEq, Eq)]
pub struct Record {
    pub kind: u8,
    pub p: u8,
    pub q: u8,
    pub s: u8,
    pub u: i32,
    pub v: i32,
}

impl Record {
    fn read(bytes: &[u8]) -> Record {
        // "Signed 32-bit, two's complement, low byte first."
        let number = |at: usize| {
            i32::from_le_bytes([bytes[at], bytes[at + 1], bytes[at + 2], bytes[at + 3]])
        };
        Record {
            kind: bytes[0],
            p: bytes[1],
            q: bytes[2],
            s: bytes[3],
            u: number(4),
            v: number(8),
        }
    }

    pub fn is_value(&self) -> bool {
        self.kind == VALUE
    }

    pub fn is_base(&self) -> bool {
        (LOWEST..=ANY).contains(&self.kind)
    }

    pub fn is_compound(&self) -> bool {
        (PARETO..=DUAL).contains(&self.kind)
    }

    /// "A record is a value, a base term or a compound term."
    pub fn is_term(&self) -> bool {
        self.is_base() || self.is_compound()
    }

    /// "PARETO, PRIOR, BOTH: p left part, q right part"; "DUAL: p part".
    pub fn parts(&self) -> impl Iterator<Item = usize> {
        let how_many = match self.kind {
            PARETO | PRIOR | BOTH => 2,
            DUAL => 1,
            _ => 0,
        };
        [self.p, self.q].into_iter().take(how_many).map(usize::from)
    }
}

/// The records of a table, and what follows from their order. Any bytes give
/// one: whether it is accepted is judged elsewhere.
#[derive(Clone)]
pub struct Table {
    pub count: usize,
    pub records: Vec<Record>,
    /// For each record the nearest term record before it.
    pub term_before: Vec<Option<usize>>,
    /// For each record the number of the next term record after it, or the end.
    next_term: Vec<usize>,
    /// For each term its columns in rising order; none where a part is no
    /// earlier term, so that its columns are not known.
    columns: Vec<Option<Vec<usize>>>,
}

impl Table {
    /// "Value records belong to the nearest term record before them and follow
    /// it without a gap."
    pub fn run(&self, term: usize) -> &[Record] {
        &self.records[term + 1..self.next_term[term]]
    }

    /// The values of a term's run that stand before record `i` of that run.
    pub fn earlier_values(&self, term: usize, i: usize) -> impl Iterator<Item = &Record> {
        self.records[term + 1..i]
            .iter()
            .filter(|record| record.is_value())
    }

    pub fn known_columns(&self, term: usize) -> Option<&[usize]> {
        self.columns[term].as_deref()
    }

    /// The columns of a term of an accepted table.
    pub fn columns(&self, term: usize) -> &[usize] {
        // Only a planted mistake asks for a record without columns.
        self.known_columns(term).unwrap_or(&[])
    }

    /// "Each term but the last term of the table is a part exactly once; that
    /// last one is the top."
    pub fn last_term(&self) -> Option<usize> {
        self.records.iter().rposition(Record::is_term)
    }

    /// The records beneath a term and the term itself, rising. Parts are "below
    /// the compound's own" number, so each part comes before its compound.
    pub fn beneath(&self, term: usize) -> Vec<usize> {
        let mut found = vec![false; term + 1];
        found[term] = true;
        for i in (0..=term).rev() {
            if found[i] {
                for part in self.records[i].parts() {
                    found[part] = true;
                }
            }
        }
        (0..=term).filter(|&i| found[i]).collect()
    }
}

impl Oracle {
    /// Reads every whole record of the bytes.
    pub(crate) fn decode(&self, bytes: &[u8], count: usize) -> Table {
        let records: Vec<Record> = bytes.chunks_exact(RECORD_BYTES).map(Record::read).collect();
        let mut term_before = Vec::with_capacity(records.len());
        let mut nearest = None;
        for (i, record) in records.iter().enumerate() {
            term_before.push(nearest);
            if record.is_term() {
                nearest = Some(i);
            }
        }
        let mut next_term = vec![records.len(); records.len()];
        for i in (1..records.len()).rev() {
            next_term[i - 1] = if records[i].is_term() {
                i
            } else {
                next_term[i]
            };
        }
        let columns = self.columns_read(&records);
        Table {
            count,
            records,
            term_before,
            next_term,
            columns,
        }
    }

    /// A base term reads column p. "The columns of a compound are those of its
    /// parts together."
    fn columns_read(&self, records: &[Record]) -> Vec<Option<Vec<usize>>> {
        let mut columns: Vec<Option<Vec<usize>>> = Vec::with_capacity(records.len());
        for (i, record) in records.iter().enumerate() {
            let mut together = Vec::new();
            let mut known = record.is_term();
            if record.is_base() {
                together.push(usize::from(record.p));
            }
            let parts = match self.has(Mistake::LeftColumns) {
                true => 1,
                false => 2,
            };
            for part in record.parts().take(parts) {
                match columns.get(part).filter(|_| part < i) {
                    Some(Some(read)) => together.extend(read),
                    _ => known = false,
                }
            }
            together.sort_unstable();
            together.dedup();
            columns.push(known.then_some(together));
        }
        columns
    }
}
