//! The writer of tables: records of 12 bytes (SPECIFICATION, "The table"), and what can be read off an accepted table.

pub const VALUE: u8 = 0;
pub const LOWEST: u8 = 1;
pub const HIGHEST: u8 = 2;
pub const AROUND: u8 = 3;
pub const BETWEEN: u8 = 4;
pub const POS: u8 = 5;
pub const NEG: u8 = 6;
pub const POS_NEG: u8 = 7;
pub const POS_POS: u8 = 8;
pub const EXPLICIT: u8 = 9;
pub const ANY: u8 = 10;
pub const PARETO: u8 = 16;
pub const PRIOR: u8 = 17;
pub const BOTH: u8 = 18;
pub const DUAL: u8 = 19;

/// The kinds of terms, and their words.
pub const TERMS: [(u8, &str); 14] = [
    (LOWEST, "LOWEST"),
    (HIGHEST, "HIGHEST"),
    (AROUND, "AROUND"),
    (BETWEEN, "BETWEEN"),
    (POS, "POS"),
    (NEG, "NEG"),
    (POS_NEG, "POS/NEG"),
    (POS_POS, "POS/POS"),
    (EXPLICIT, "EXPLICIT"),
    (ANY, "ANY"),
    (PARETO, "PARETO"),
    (PRIOR, "PRIOR"),
    (BOTH, "BOTH"),
    (DUAL, "DUAL"),
];

pub const MOST: usize = 128;

#[derive(Clone, Copy, Debug, Default, PartialEq, Eq)]
pub struct Record {
    pub kind: u8,
    pub p: u8,
    pub q: u8,
    pub s: u8,
    pub u: i32,
    pub v: i32,
}

impl Record {
    pub fn base(kind: u8, column: usize) -> Record {
        Record {
            kind,
            p: column as u8,
            ..Record::default()
        }
    }

    pub fn compound(kind: u8, left: usize, right: usize) -> Record {
        Record {
            kind,
            p: left as u8,
            q: right as u8,
            ..Record::default()
        }
    }

    pub fn dual(part: usize) -> Record {
        Record::compound(DUAL, part, 0)
    }

    pub fn value(role: u8, u: i32) -> Record {
        Record {
            kind: VALUE,
            p: role,
            u,
            ..Record::default()
        }
    }

    pub fn edge(worse: i32, better: i32) -> Record {
        Record {
            v: better,
            ..Record::value(4, worse)
        }
    }

    pub fn is_term(&self) -> bool {
        TERMS.iter().any(|(kind, _)| *kind == self.kind)
    }

    pub fn is_base(&self) -> bool {
        (LOWEST..=ANY).contains(&self.kind)
    }

    /// The two parts, or one, or none.
    pub fn parts(&self) -> Vec<usize> {
        match self.kind {
            PARETO | PRIOR | BOTH => vec![self.p as usize, self.q as usize],
            DUAL => vec![self.p as usize],
            _ => vec![],
        }
    }

    /// Names another part in the place of one.
    pub fn replace_part(&mut self, from: usize, to: usize) {
        let count = self.parts().len();
        if count > 0 && self.p as usize == from {
            self.p = to as u8;
        }
        if count > 1 && self.q as usize == from {
            self.q = to as u8;
        }
    }

    fn bytes(&self) -> [u8; 12] {
        let (u, v) = (self.u.to_le_bytes(), self.v.to_le_bytes());
        [
            self.kind, self.p, self.q, self.s, u[0], u[1], u[2], u[3], v[0], v[1], v[2], v[3],
        ]
    }

    fn of(bytes: &[u8]) -> Record {
        let number = |at: usize| i32::from_le_bytes(bytes[at..at + 4].try_into().unwrap());
        Record {
            kind: bytes[0],
            p: bytes[1],
            q: bytes[2],
            s: bytes[3],
            u: number(4),
            v: number(8),
        }
    }
}

pub fn written(records: &[Record]) -> Vec<u8> {
    records.iter().flat_map(|record| record.bytes()).collect()
}

/// The whole records of a run of bytes.
pub fn read(table: &[u8]) -> Vec<Record> {
    table.chunks_exact(12).map(Record::of).collect()
}

/// The number of the last term, or 0.
pub fn last_term(records: &[Record]) -> usize {
    records.iter().rposition(Record::is_term).unwrap_or(0)
}

/// Puts a block before record `at`, whose parts are counted from its own first record. Parts keep their terms.
pub fn insert(records: &mut Vec<Record>, at: usize, block: &[Record]) {
    shift(records, |part| {
        if part as usize >= at {
            part.wrapping_add(block.len() as u8)
        } else {
            part
        }
    });
    let mut block = block.to_vec();
    shift(&mut block, |part| part.wrapping_add(at as u8));
    records.splice(at..at, block);
}

/// Takes a record away. Parts behind it keep their terms.
pub fn remove(records: &mut Vec<Record>, at: usize) {
    records.remove(at);
    shift(
        records,
        |part| if part as usize > at { part - 1 } else { part },
    );
}

fn shift(records: &mut [Record], number: impl Fn(u8) -> u8) {
    for record in records.iter_mut() {
        match record.kind {
            PARETO | PRIOR | BOTH => {
                record.p = number(record.p);
                record.q = number(record.q);
            }
            DUAL => record.p = number(record.p),
            _ => {}
        }
    }
}

/// What stands at and beneath the terms of an accepted table.
pub struct Shape {
    /// The columns that each term reads.
    pub columns: Vec<u8>,
    /// 1 for a base term.
    pub depth: Vec<usize>,
}

impl Shape {
    pub fn of(records: &[Record]) -> Shape {
        let mut shape = Shape {
            columns: vec![],
            depth: vec![],
        };
        for record in records {
            let parts = record.parts();
            let own = if record.is_base() { 1 << record.p } else { 0 };
            let columns = parts
                .iter()
                .fold(own, |all, part| all | shape.columns[*part]);
            let deepest = parts.iter().map(|part| shape.depth[*part]).max();
            shape.columns.push(columns);
            shape.depth.push(1 + deepest.unwrap_or(0));
        }
        shape
    }
}

/// A table of one term alone, with what stands beneath it and their values.
pub fn extracted(records: &[Record], term: usize) -> Vec<Record> {
    let mut terms = beneath(records, term);
    terms.sort_unstable();
    let mut from = vec![];
    for term in terms {
        let values = records[term + 1..]
            .iter()
            .take_while(|record| record.kind == VALUE);
        from.extend(term..=term + values.count());
    }
    let mut taken: Vec<Record> = from.iter().map(|i| records[*i]).collect();
    shift(&mut taken, |part| {
        from.iter().position(|i| *i == part as usize).unwrap_or(0) as u8
    });
    taken
}

/// The terms beneath a term of an accepted table, itself first.
pub fn beneath(records: &[Record], term: usize) -> Vec<usize> {
    let mut found = vec![term];
    let mut next = 0;
    while next < found.len() {
        found.extend(records[found[next]].parts());
        next += 1;
    }
    found
}
