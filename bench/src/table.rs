//! A table put together record by record.

pub const RECORD: usize = 12;
pub const MOST_RECORDS: usize = 128;

pub const VALUE: u8 = 0;
pub const LOWEST: u8 = 1;
pub const HIGHEST: u8 = 2;
pub const AROUND: u8 = 3;
pub const BETWEEN: u8 = 4;
pub const POS: u8 = 5;
pub const NEG: u8 = 6;
pub const POS_NEG: u8 = 7;
pub const POS_POS: u8 = 8;
pub const EXPLICIT: u8 = 9;
pub const ANY: u8 = 10;
pub const PARETO: u8 = 16;
pub const PRIOR: u8 = 17;
pub const BOTH: u8 = 18;
pub const DUAL: u8 = 19;

pub const FAVOURITE: u8 = 1;
pub const DISLIKED: u8 = 2;
pub const SECOND_CHOICE: u8 = 3;
pub const EDGE: u8 = 4;

/// The word for a kind (SPECIFICATION, "The table").
pub fn name(kind: u8) -> &'static str {
    match kind {
        VALUE => "values",
        LOWEST => "LOWEST",
        HIGHEST => "HIGHEST",
        AROUND => "AROUND",
        BETWEEN => "BETWEEN",
        POS => "POS",
        NEG => "NEG",
        POS_NEG => "POS/NEG",
        POS_POS => "POS/POS",
        EXPLICIT => "EXPLICIT",
        ANY => "ANY",
        PARETO => "PARETO",
        PRIOR => "PRIOR",
        BOTH => "BOTH",
        DUAL => "DUAL",
        _ => "unknown",
    }
}

/// The records so far. Each call that puts a term gives its record number.
#[derive(Clone, Default)]
pub struct Table {
    pub bytes: Vec<u8>,
}

impl Table {
    pub fn records(&self) -> usize {
        self.bytes.len() / RECORD
    }

    fn put(&mut self, head: [u8; 4], u: i32, v: i32) -> usize {
        self.bytes.extend(head);
        self.bytes.extend(u.to_le_bytes());
        self.bytes.extend(v.to_le_bytes());
        self.records() - 1
    }

    /// A base term that needs no value but u and v.
    pub fn base(&mut self, kind: u8, column: usize, u: i32, v: i32) -> usize {
        self.put([kind, column as u8, 0, 0], u, v)
    }

    /// A base term and its value records: role, u, v.
    pub fn with_values(&mut self, kind: u8, column: usize, values: &[(u8, i32, i32)]) -> usize {
        let term = self.base(kind, column, 0, 0);
        for &(role, u, v) in values {
            self.put([VALUE, role, 0, 0], u, v);
        }
        term
    }

    pub fn join(&mut self, kind: u8, left: usize, right: usize) -> usize {
        self.put([kind, left as u8, right as u8, 0], 0, 0)
    }

    pub fn dual(&mut self, part: usize) -> usize {
        self.put([DUAL, part as u8, 0, 0], 0, 0)
    }
}
