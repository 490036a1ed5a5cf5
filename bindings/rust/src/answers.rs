//! What a query gives where nothing is refused.
use alloc::vec::{self, Vec};
use core::iter::Enumerate;
use core::slice;

/// What a query says of one row.
// Not non_exhaustive: a row is kept or dropped, and callers match on both.
#[derive(Clone, Copy, Debug, PartialEq, Eq, Hash)]
pub enum Answer {
    /// No row of its group is better.
    Kept,
    /// Some row of its group is better.
    Dropped {
        /// The lowest-numbered kept row of its group that is better.
        by: usize,
    },
}

impl Answer {
    /// What entry `row` of an answer buffer says: its own number for a kept row, else the row that is better.
    #[must_use]
    pub fn from_entry(row: usize, entry: u16) -> Answer {
        match usize::from(entry) {
            by if by == row => Answer::Kept,
            by => Answer::Dropped { by },
        }
    }

    /// Whether the row is kept.
    #[must_use]
    pub fn is_kept(self) -> bool {
        self == Answer::Kept
    }
}

/// What a query says of each row, as [`Query::run`](crate::Query::run) gives it. Without some of the dropped rows it
/// says the same of the others: see [leaving out dropped rows](crate#leaving-out-dropped-rows).
///
/// ```
/// use finialbasil::{Answer, Table};
///
/// let mut table = Table::new();
/// let cheap = table.lowest(0)?;
/// let answers = table.query(cheap).run(&[[95], [80], [80]])?;
///
/// assert_eq!(answers.kept_count(), 2);
/// assert_eq!(answers.kept().collect::<Vec<_>>(), [1, 2]);
/// assert_eq!(answers.get(0), Some(Answer::Dropped { by: 1 }));
/// assert_eq!(answers.get(3), None);
/// for (row, answer) in answers.iter().enumerate() {
///     match answer {
///         Answer::Kept => println!("{row} is kept"),
///         Answer::Dropped { by } => println!("{by} is better than {row}"),
///     }
/// }
/// # Ok::<(), finialbasil::Refusal>(())
/// ```
#[derive(Clone, Debug, PartialEq, Eq, Hash)]
pub struct Answers {
    entries: Vec<u16>,
    kept: usize,
}

impl Answers {
    pub(crate) fn of(entries: Vec<u16>, kept: usize) -> Answers {
        Answers { entries, kept }
    }

    /// How many rows there are.
    #[must_use]
    pub fn len(&self) -> usize {
        self.entries.len()
    }

    /// Whether there are no rows at all.
    #[must_use]
    pub fn is_empty(&self) -> bool {
        self.entries.is_empty()
    }

    /// How many rows are kept, over all groups.
    #[must_use]
    pub fn kept_count(&self) -> usize {
        self.kept
    }

    /// The numbers of the kept rows, lowest first. The same query over these rows alone keeps them all.
    pub fn kept(&self) -> impl Iterator<Item = usize> + '_ {
        self.iter()
            .enumerate()
            .filter(|(_, answer)| answer.is_kept())
            .map(|(row, _)| row)
    }

    /// The answer for a row, if there is such a row.
    #[must_use]
    pub fn get(&self, row: usize) -> Option<Answer> {
        let entry = *self.entries.get(row)?;
        Some(Answer::from_entry(row, entry))
    }

    /// The answers, row by row.
    #[must_use]
    pub fn iter(&self) -> AnswersIter<'_> {
        AnswersIter(self.entries.iter().enumerate())
    }

    /// The entries as the library wrote them: each row's own number if it is kept, else the row that is better.
    #[must_use]
    pub fn entries(&self) -> &[u16] {
        &self.entries
    }
}

impl<'a> IntoIterator for &'a Answers {
    type Item = Answer;
    type IntoIter = AnswersIter<'a>;

    fn into_iter(self) -> AnswersIter<'a> {
        self.iter()
    }
}

impl IntoIterator for Answers {
    type Item = Answer;
    type IntoIter = AnswersIntoIter;

    fn into_iter(self) -> AnswersIntoIter {
        AnswersIntoIter(self.entries.into_iter().enumerate())
    }
}

/// The answers, row by row: what [`Answers::iter`] gives.
#[derive(Clone, Debug)]
pub struct AnswersIter<'a>(Enumerate<slice::Iter<'a, u16>>);

impl Iterator for AnswersIter<'_> {
    type Item = Answer;

    fn next(&mut self) -> Option<Answer> {
        let (row, entry) = self.0.next()?;
        Some(Answer::from_entry(row, *entry))
    }

    fn size_hint(&self) -> (usize, Option<usize>) {
        self.0.size_hint()
    }
}

impl ExactSizeIterator for AnswersIter<'_> {}

/// The answers, row by row, of [`Answers`] that are consumed.
#[derive(Clone, Debug)]
pub struct AnswersIntoIter(Enumerate<vec::IntoIter<u16>>);

impl Iterator for AnswersIntoIter {
    type Item = Answer;

    fn next(&mut self) -> Option<Answer> {
        let (row, entry) = self.0.next()?;
        Some(Answer::from_entry(row, entry))
    }

    fn size_hint(&self) -> (usize, Option<usize>) {
        self.0.size_hint()
    }
}

impl ExactSizeIterator for AnswersIntoIter {}
