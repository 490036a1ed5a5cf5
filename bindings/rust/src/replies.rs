//! What check, compare and perfect give where nothing is refused.
use crate::Columns;

/// What [`check`](crate::check) says of an accepted table.
#[non_exhaustive]
#[derive(Clone, Copy, Debug, PartialEq, Eq, Hash)]
pub struct Summary {
    /// Number of records.
    pub records: usize,
    /// Record number of the top: the last term of the table.
    pub top: usize,
    /// Columns that the top reads.
    pub columns: Columns,
    /// How many these are.
    pub column_count: usize,
}

/// How the first row compares with the second.
// Not non_exhaustive: two rows compare in these four ways, and callers match on all of them.
#[derive(Clone, Copy, Debug, PartialEq, Eq, Hash)]
pub enum Outcome {
    /// The two are equal in the term's columns.
    Same,
    /// The first row is better.
    FirstBetter,
    /// The second row is better.
    SecondBetter,
    /// Neither is better, and they are not the same.
    Unranked,
}

impl Outcome {
    /// The outcome with this number of the C interface, 0 to 3. The library gives no other; the last arm takes those
    /// too, as it claims the least.
    pub(crate) fn numbered(number: u32) -> Outcome {
        match number {
            0 => Outcome::Same,
            1 => Outcome::FirstBetter,
            2 => Outcome::SecondBetter,
            _ => Outcome::Unranked,
        }
    }
}

/// Whether a row is perfect, as [`perfect`](crate::perfect) gives it.
#[non_exhaustive]
#[derive(Clone, Copy, Debug, PartialEq, Eq, Hash)]
pub enum Mark {
    /// It is not said to be perfect.
    No,
    /// It is perfect.
    Yes,
}

impl Mark {
    /// The mark with this number of the C interface. Only 1 says perfect; every other number claims less.
    pub(crate) fn numbered(number: u32) -> Mark {
        if number == 1 {
            Mark::Yes
        } else {
            Mark::No
        }
    }

    /// Whether the row is perfect.
    #[must_use]
    pub fn is_perfect(self) -> bool {
        self == Mark::Yes
    }
}

#[cfg(test)]
mod tests {
    use super::*;

    /// The calls cannot give such numbers, so only here can they be tried.
    #[test]
    fn a_number_outside_the_list_claims_the_least() {
        for number in [2, 3, u32::MAX] {
            assert_eq!(Mark::numbered(number), Mark::No);
        }
        for number in [4, u32::MAX] {
            assert_eq!(Outcome::numbered(number), Outcome::Unranked);
        }
    }
}
