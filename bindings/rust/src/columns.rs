//! Sets of columns: what a table reads, and what a query groups by.
use crate::MOST_COLUMNS;

/// A set of columns, bit j for column j.
///
/// ```
/// use finialbasil::{Columns, Table};
///
/// let mut table = Table::new();
/// let (volts, weight) = (table.around(0, 24)?, table.lowest(2)?);
/// table.prior(volts, weight)?;
///
/// let columns = table.check(3)?.columns;
/// assert_eq!(columns.iter().collect::<Vec<_>>(), [0, 2]);
/// assert!(columns.contains(2) && !columns.contains(1));
/// assert_eq!((columns.bits(), columns.len()), (0b101, 2));
///
/// assert_eq!(Columns::of([2, 0]), Some(columns));
/// assert_eq!(Columns::of([8]), None);
/// assert_eq!(Columns::from_bits(0b101), columns);
/// # Ok::<(), finialbasil::Refusal>(())
/// ```
#[derive(Clone, Copy, Debug, Default, PartialEq, Eq, Hash)]
pub struct Columns {
    bits: u8,
}

impl Columns {
    /// No column.
    pub const NONE: Columns = Columns { bits: 0 };

    /// The set that a byte says, bit j for column j.
    #[must_use]
    pub const fn from_bits(bits: u8) -> Columns {
        Columns { bits }
    }

    /// The set of these columns; none where one of them is not below 8. A column may be named twice.
    #[must_use]
    pub fn of(columns: impl IntoIterator<Item = usize>) -> Option<Columns> {
        let mut bits = 0;
        for column in columns {
            bits |= bit(column)?;
        }
        Some(Columns { bits })
    }

    /// The set as a byte, bit j for column j.
    #[must_use]
    pub const fn bits(self) -> u8 {
        self.bits
    }

    /// Whether the column is in the set.
    #[must_use]
    pub fn contains(self, column: usize) -> bool {
        bit(column).is_some_and(|bit| self.bits & bit != 0)
    }

    /// How many columns there are.
    #[must_use]
    pub const fn len(self) -> usize {
        self.bits.count_ones() as usize
    }

    /// Whether there is no column.
    #[must_use]
    pub const fn is_empty(self) -> bool {
        self.bits == 0
    }

    /// The columns, lowest first.
    #[must_use]
    pub const fn iter(self) -> ColumnsIter {
        ColumnsIter { left: self }
    }
}

/// The bit of a column, if it has one.
fn bit(column: usize) -> Option<u8> {
    (column < MOST_COLUMNS).then(|| 1 << column)
}

impl IntoIterator for Columns {
    type Item = usize;
    type IntoIter = ColumnsIter;

    fn into_iter(self) -> ColumnsIter {
        self.iter()
    }
}

/// The columns of a set, lowest first: what [`Columns::iter`] gives.
#[derive(Clone, Debug)]
pub struct ColumnsIter {
    left: Columns,
}

impl Iterator for ColumnsIter {
    type Item = usize;

    fn next(&mut self) -> Option<usize> {
        let bits = self.left.bits;
        // Taking one away clears the lowest bit, and sets only bits below it.
        self.left.bits &= bits.checked_sub(1)?;
        Some(bits.trailing_zeros() as usize)
    }

    fn size_hint(&self) -> (usize, Option<usize>) {
        (self.left.len(), Some(self.left.len()))
    }
}

impl ExactSizeIterator for ColumnsIter {}
