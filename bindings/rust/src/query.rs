//! The query: what is asked, of which rows, and by which engine.
use crate::{calls, lent, Answers, Columns, Reason, Refusal, MOST_ROWS};
use alloc::vec;
use alloc::vec::Vec;

/// A query over the bytes of a table, for the term with this record number. [`Query`] says what can be asked of it.
///
/// ```
/// use finialbasil::query;
///
/// // LOWEST column 1, within rows of the same value in column 0.
/// let table = [1, 1, 0, 0, 0, 0, 0, 0, 0, 0, 0, 0];
/// let motors = [[24, 90], [24, 80], [12, 95]];
/// let answers = query(&table, 0).group_by([0]).run(&motors)?;
/// assert_eq!(answers.entries(), [1, 1, 2]);
/// # Ok::<(), finialbasil::Refusal>(())
/// ```
pub fn query(table: &[u8], term: usize) -> Query<'_> {
    Query {
        table,
        term,
        group: Some(Columns::NONE),
        engine: Engine::Auto,
    }
}

/// A query: which rows a term keeps, and for each dropped row which kept row is better.
///
/// [`Table::query`](crate::Table::query) makes one, and [`query`] for the bytes of any table. It may be run many times.
///
/// ```
/// use finialbasil::{Answer, Engine, Table};
///
/// let mut table = Table::new();
/// let price = table.lowest(1)?;
/// let motors = [[24, 90], [24, 80], [12, 95]];
///
/// let cheapest = table.query(price).run(&motors)?;
/// assert_eq!(cheapest.kept().collect::<Vec<_>>(), [1]);
///
/// // Only motors of equal voltage, column 0, against each other.
/// let by_volts = table.query(price).group_by([0]).engine(Engine::Direct).run(&motors)?;
/// assert_eq!(by_volts.kept().collect::<Vec<_>>(), [1, 2]);
/// assert_eq!(by_volts.get(0), Some(Answer::Dropped { by: 1 }));
/// # Ok::<(), finialbasil::Refusal>(())
/// ```
#[must_use = "a query does nothing until it is run"]
#[derive(Clone, Copy, Debug)]
pub struct Query<'a> {
    table: &'a [u8],
    term: usize,
    /// None where a column was named for which the group byte has no bit.
    group: Option<Columns>,
    engine: Engine,
}

impl Query<'_> {
    /// Weighs only those rows against each other that are equal in these columns. Without it all rows are one group.
    /// Called again, it adds columns. A column that the rows do not have is refused when the query is run (GROUP).
    ///
    /// ```
    /// use finialbasil::{Columns, Table};
    ///
    /// let mut table = Table::new();
    /// let price = table.lowest(1)?;
    /// let motors = [[24, 90, 7], [24, 80, 7], [24, 95, 9]]; // volts, price, brand
    ///
    /// let answers = table.query(price).group_by([0, 2]).run(&motors)?;
    /// assert_eq!(answers.entries(), [1, 1, 2]);
    /// assert_eq!(table.query(price).group_by([0]).group_by([2]).run(&motors)?, answers);
    /// assert_eq!(table.query(price).group_by(Columns::from_bits(0b101)).run(&motors)?, answers);
    /// # Ok::<(), finialbasil::Refusal>(())
    /// ```
    pub fn group_by(mut self, columns: impl IntoIterator<Item = usize>) -> Self {
        self.group = self
            .group
            .and_then(|group| Columns::of(group.into_iter().chain(columns)));
        self
    }

    /// Takes this engine. Without it, that is [`Engine::Auto`].
    pub fn engine(mut self, engine: Engine) -> Self {
        self.engine = engine;
        self
    }

    /// Runs the query over these rows: an array, a slice or a `Vec` of rows, or [`Rows::flat`].
    ///
    /// # Errors
    /// The first refusal of 1 to 17.
    pub fn run<'r>(&self, rows: impl Into<Rows<'r>>) -> Result<Answers, Refusal> {
        let rows = rows.into();
        // More rows than a query takes are refused before the buffer is looked at.
        let mut entries = vec![0; rows.len().min(MOST_ROWS)];
        let kept = self.run_into(rows, &mut entries)?;
        Ok(Answers::of(entries, kept))
    }

    /// As [`run`](Query::run), but writes the entries to a buffer of the caller's and gives how many rows were kept.
    ///
    /// Entry i becomes i if row i is kept, else the lowest kept row of its group that is better;
    /// [`Answer::from_entry`](crate::Answer::from_entry) reads it. Entries after the last row keep their contents, and
    /// on a refusal all do.
    ///
    /// ```
    /// use finialbasil::{Answer, Table};
    ///
    /// let mut table = Table::new();
    /// let price = table.lowest(0)?;
    /// let mut entries = [0; 8];
    /// let kept = table.query(price).run_into(&[[95], [80], [80]], &mut entries)?;
    /// assert_eq!((kept, &entries[..3]), (2, &[1, 1, 2][..]));
    /// assert_eq!(Answer::from_entry(0, entries[0]), Answer::Dropped { by: 1 });
    /// # Ok::<(), finialbasil::Refusal>(())
    /// ```
    ///
    /// # Errors
    /// The first refusal of 1 to 18.
    pub fn run_into<'r>(
        &self,
        rows: impl Into<Rows<'r>>,
        answers: &mut [u16],
    ) -> Result<usize, Refusal> {
        let rows = rows.into();
        if let Some(group) = self.group {
            return self.ask(rows, group, answers);
        }
        // The library cannot be asked about a column without a bit, but it says what it refuses before the groups: with
        // no room for answers it gives that, or else SHORT, or nothing where there are no rows.
        match self.ask(rows, Columns::NONE, &mut []) {
            Err(refusal) if refusal.reason() != Reason::Short => Err(refusal),
            _ => Err(Refusal::without_place(Reason::Group)),
        }
    }

    fn ask(&self, rows: Rows<'_>, group: Columns, answers: &mut [u16]) -> Result<usize, Refusal> {
        let engine = match self.engine {
            Engine::Auto => Engine::for_rows(rows.len()),
            chosen => chosen,
        };
        let call = if engine == Engine::Direct {
            lent::query_direct
        } else {
            lent::query_by_parts
        };
        let reply = call(
            self.table,
            rows.columns,
            rows.numbers,
            self.term,
            group.bits(),
            answers,
        );
        calls::value(reply).map(|kept| kept as usize)
    }
}

/// The rows of a query, borrowed. Arrays, slices and `Vec`s of rows become this by themselves where a query is run.
///
/// ```
/// use finialbasil::{Rows, Table};
///
/// let mut table = Table::new();
/// let price = table.lowest(1)?;
/// let motors = vec![[24, 90], [24, 80], [12, 95]];
/// let flat = [24, 90, 24, 80, 12, 95];
/// assert_eq!(table.query(price).run(&motors)?, table.query(price).run(Rows::flat(&flat, 2))?);
/// # Ok::<(), finialbasil::Refusal>(())
/// ```
#[derive(Clone, Copy, Debug, PartialEq, Eq, Hash)]
pub struct Rows<'a> {
    numbers: &'a [i32],
    columns: usize,
}

impl<'a> Rows<'a> {
    /// Row after row in one run of numbers, each row with so many columns. The query refuses a run that ends within a
    /// row (ROWS).
    #[must_use]
    pub const fn flat(numbers: &'a [i32], columns: usize) -> Rows<'a> {
        Rows { numbers, columns }
    }

    /// How many whole rows there are.
    #[must_use]
    pub fn len(self) -> usize {
        self.numbers.len().checked_div(self.columns).unwrap_or(0)
    }

    /// Whether there is no whole row.
    #[must_use]
    pub fn is_empty(self) -> bool {
        self.len() == 0
    }

    /// How many columns each row has.
    #[must_use]
    pub const fn columns(self) -> usize {
        self.columns
    }
}

impl<'a, const N: usize> From<&'a [[i32; N]]> for Rows<'a> {
    fn from(rows: &'a [[i32; N]]) -> Rows<'a> {
        Rows::flat(rows.as_flattened(), N)
    }
}

impl<'a, const N: usize, const M: usize> From<&'a [[i32; N]; M]> for Rows<'a> {
    fn from(rows: &'a [[i32; N]; M]) -> Rows<'a> {
        rows.as_slice().into()
    }
}

impl<'a, const N: usize> From<&'a Vec<[i32; N]>> for Rows<'a> {
    fn from(rows: &'a Vec<[i32; N]>) -> Rows<'a> {
        rows.as_slice().into()
    }
}

/// From this many rows on, [`Engine::Auto`] takes the engine by parts; with fewer, the direct one, which mostly takes
/// less time then.
pub const BY_PARTS_FROM: usize = 128;

/// How a query finds its answers. Every engine gives the same answers and the same refusals, so this is a choice about
/// time only.
///
/// ```
/// use finialbasil::{Engine, Table, BY_PARTS_FROM};
///
/// assert_eq!(Engine::default(), Engine::Auto);
/// assert_eq!(Engine::for_rows(BY_PARTS_FROM - 1), Engine::Direct);
/// assert_eq!(Engine::for_rows(BY_PARTS_FROM), Engine::ByParts);
///
/// let mut table = Table::new();
/// let cheap = table.lowest(0)?;
/// let prices = [[95], [80], [120]];
/// let direct = table.query(cheap).engine(Engine::Direct).run(&prices)?;
/// let by_parts = table.query(cheap).engine(Engine::ByParts).run(&prices)?;
/// assert_eq!(direct, by_parts);
/// # Ok::<(), finialbasil::Refusal>(())
/// ```
// Callers choose an engine and have no need to match on one: a further engine must not break those who do.
#[non_exhaustive]
#[derive(Clone, Copy, Debug, Default, PartialEq, Eq, Hash)]
pub enum Engine {
    /// What [`Engine::for_rows`] says for the number of rows.
    #[default]
    Auto,
    /// Rows compared pair by pair.
    Direct,
    /// From the answers of the term's parts, by blocks of rows; for the larger catalogues.
    ByParts,
}

impl Engine {
    /// The engine that is likely the faster one for so many rows: [`Engine::ByParts`] from [`BY_PARTS_FROM`] on.
    #[must_use]
    pub const fn for_rows(rows: usize) -> Engine {
        if rows < BY_PARTS_FROM {
            Engine::Direct
        } else {
            Engine::ByParts
        }
    }
}
