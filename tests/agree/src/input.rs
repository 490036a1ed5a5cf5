//! One input of one call, or of both engines.

use crate::random::Random;

#[derive(Clone, Copy, Debug, PartialEq, Eq)]
pub enum Call {
    Check,
    Compare,
    Perfect,
    Direct,
    ByParts,
}

impl Call {
    pub const ALL: [Call; 5] = [
        Call::Check,
        Call::Compare,
        Call::Perfect,
        Call::Direct,
        Call::ByParts,
    ];

    pub fn words(self) -> &'static str {
        [
            "check",
            "compare",
            "perfect",
            "query direct",
            "query by parts",
        ][self as usize]
    }

    /// The highest refusal number that the call can give.
    pub fn refusals(self) -> usize {
        [14, 16, 16, 18, 18][self as usize]
    }

    pub fn is_query(self) -> bool {
        matches!(self, Call::Direct | Call::ByParts)
    }
}

/// What takes the input: the two engines take the same.
#[derive(Clone, Copy, Debug, PartialEq, Eq)]
pub enum Asks {
    Check,
    Compare,
    Perfect,
    Query,
}

impl Asks {
    pub const ALL: [Asks; 4] = [Asks::Check, Asks::Compare, Asks::Perfect, Asks::Query];

    pub fn calls(self) -> &'static [Call] {
        match self {
            Asks::Check => &[Call::Check],
            Asks::Compare => &[Call::Compare],
            Asks::Perfect => &[Call::Perfect],
            Asks::Query => &[Call::Direct, Call::ByParts],
        }
    }

    pub fn words(self) -> &'static str {
        ["check", "compare", "perfect", "query"][self as usize]
    }

    pub fn refusals(self) -> usize {
        self.calls()[0].refusals()
    }
}

/// How the table came about.
#[derive(Clone, Copy, Debug, PartialEq, Eq)]
pub enum Origin {
    Whole,
    Byte,
    Field,
    Swapped,
    Moved,
    Cut,
    RandomRecords,
    RandomBytes,
    Faults,
    Order,
    Limit,
}

impl Origin {
    pub const ALL: [Origin; 11] = [
        Origin::Whole,
        Origin::Byte,
        Origin::Field,
        Origin::Swapped,
        Origin::Moved,
        Origin::Cut,
        Origin::RandomRecords,
        Origin::RandomBytes,
        Origin::Faults,
        Origin::Order,
        Origin::Limit,
    ];

    pub fn words(self) -> &'static str {
        [
            "whole",
            "a byte changed",
            "a field changed",
            "records swapped",
            "a record doubled or taken away",
            "cut by bytes",
            "random records",
            "random bytes",
            "two refusals earned",
            "two faults in one record",
            "limits",
        ][self as usize]
    }
}

/// A call reads the fields that it takes and no others.
#[derive(Clone, Debug)]
pub struct Input {
    pub asks: Asks,
    pub table: Vec<u8>,
    pub columns: usize,
    pub term: usize,
    pub first: Vec<i32>,
    pub second: Vec<i32>,
    pub rows: Vec<i32>,
    pub group: u8,
    /// Entries of the answer buffer.
    pub answers: usize,
    /// Where the lent memory lies, and the pattern of the answer buffer.
    pub placing: u64,
    pub origin: Origin,
    /// The refusal and the place written down with the input, where it has them.
    pub stated: Option<(u32, u32)>,
    /// The case of two faults in one record, and 0 to 3 for none, the lower, the higher and both of them.
    pub case: Option<(usize, usize)>,
}

impl Input {
    pub fn new(
        random: &mut Random,
        asks: Asks,
        table: Vec<u8>,
        columns: usize,
        origin: Origin,
    ) -> Input {
        Input {
            asks,
            table,
            columns,
            term: 0,
            first: vec![],
            second: vec![],
            rows: vec![],
            group: 0,
            answers: 0,
            placing: random.next(),
            origin,
            stated: None,
            case: None,
        }
    }

    /// Whole rows in the run.
    pub fn row_count(&self) -> usize {
        self.rows.len().checked_div(self.columns).unwrap_or(0)
    }

    /// What stands in entry `k` of the answer buffer before a call. No row has such a number.
    pub fn pattern(&self, k: usize) -> u16 {
        let mixed = (self.placing ^ k as u64).wrapping_mul(0x9e37_79b9_7f4a_7c15);
        0x8000 | (mixed >> 49) as u16
    }

    pub fn patterned(&self) -> Vec<u16> {
        (0..self.answers).map(|k| self.pattern(k)).collect()
    }
}
