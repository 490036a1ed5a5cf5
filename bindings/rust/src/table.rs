//! The builder of tables: a method for each kind of term, and the calls on what was built.
use crate::record::{self, base, compound, kind, role, values, InWords, Record};
use crate::{
    calls, query, Mark, Outcome, Query, Reason, Refusal, Summary, MOST_COLUMNS, MOST_RECORDS,
    RECORD_BYTES,
};
use alloc::vec;
use alloc::vec::Vec;
use core::fmt;
use core::iter;
use core::sync::atomic::{AtomicU64, Ordering};

/// A table of wishes, built term by term.
///
/// Each method adds one term with its values and gives a [`Term`], to be used as a part of a later term or in a call.
/// The term that is added last is the top; every other one must become a part of exactly one later term.
///
/// ```
/// use finialbasil::Table;
///
/// let mut table = Table::new();
/// let volts = table.around(0, 24)?;
/// let price = table.lowest(1)?;
/// let top = table.prior(volts, price)?;
///
/// assert_eq!(table.check(2)?.records, 3);
/// let answers = table.query(top).run(&[[24, 90], [24, 80], [12, 50]])?;
/// assert_eq!(answers.kept().collect::<Vec<_>>(), [1]);
/// # Ok::<(), finialbasil::Refusal>(())
/// ```
///
/// # Neither better nor equal
///
/// A part leaves the choice to the other part only where the two rows are equal in its columns: the same numbers. 12
/// and 16 bar under [`between`](Table::between) 10 and 16, 22 and 26 volts [`around`](Table::around) 24, or two brands
/// that are both favourites are different numbers, and neither is better. If two rows are so in a part of a
/// [`pareto`](Table::pareto), or in the left part of a [`prior`](Table::prior), then neither row is better, whatever
/// the other part says: "10 to 16 bar, then price" keeps an expensive valve at 12 bar beside a cheap one at 16.
///
/// If the price should decide, work out the distance for the query, hand it over as a column of its own and ask
/// [`lowest`](Table::lowest) of it. For favourites and disliked values do so with the class: 0 for the best values, 1
/// for the next, 2 for the last. (Where [`perfect`](Table::perfect) is asked too, ask `around` with the wish 0: it
/// ranks distances and classes alike, and 0 is perfect.)
///
/// ```
/// use finialbasil::Table;
///
/// let valves = [[12, 9_000], [16, 4_500]]; // bar, cents
/// let mut table = Table::new();
/// let (bar, price) = (table.between(0, 10, 16)?, table.lowest(1)?);
/// let wish = table.prior(bar, price)?;
/// assert_eq!(table.query(wish).run(&valves)?.kept().collect::<Vec<_>>(), [0, 1]);
///
/// let valves = valves.map(|[bar, cents]| {
///     let distance = 0.max(10 - bar).max(bar - 16);
///     [bar, cents, distance]
/// });
/// let mut table = Table::new();
/// let (distance, price) = (table.lowest(2)?, table.lowest(1)?);
/// let wish = table.prior(distance, price)?;
/// assert_eq!(table.query(wish).run(&valves)?.kept().collect::<Vec<_>>(), [1]);
/// # Ok::<(), finialbasil::Refusal>(())
/// ```
///
/// # In words
///
/// Displayed, a table has a line for each record, in words.
///
/// ```
/// # use finialbasil::Table;
/// # let mut table = Table::new();
/// let volts = table.around(0, 24)?;
/// let brand = table.pos(3, &[7])?;
/// table.prior(volts, brand)?;
/// assert_eq!(
///     table.to_string(),
///     "0: AROUND column 0, wish 24, the nearer the better\n\
///      1: POS column 3, favourites first\n\
///      2:   favourite 7\n\
///      3: PRIOR: 0 first, then 1 (the top)"
/// );
/// # Ok::<(), finialbasil::Refusal>(())
/// ```
///
/// # What is refused, and when
///
/// The builder has no rules of its own. At each term it asks the library's check, with the greatest column count,
/// whether the records can stand; if not, the method gives the refusal, and the table is as it was before.
///
/// | Refusal | The method was given |
/// |---|---|
/// | LENGTH | a term with which the table would have over 128 records |
/// | COLUMN | a column that no rows have: not below 8 |
/// | PART | a part of another table |
/// | REUSED | a part that is a part already, or the same part twice |
/// | CROWD | over 16 values, all roles together |
/// | CLASH | a favourite that is disliked or a second choice too |
/// | LOOP | edges that close a cycle |
/// | BOUNDS | low above up |
/// | APART | parts of [`both`](Table::both) that read different columns |
///
/// Two things are left to [`Table::check`] and to the calls, which vet the whole table each time: whether the columns
/// are below the count of your rows (COLUMN), and whether every term but the last has become a part (LOOSE).
///
/// A table is not `Clone`: two tables that go on from the same terms could not tell their terms apart.
#[derive(Debug)]
pub struct Table {
    id: u64,
    records: Vec<Record>,
}

/// A term of a [`Table`]. Another table takes it for no term: as a part it is refused with PART, in a call with TERM.
///
/// ```
/// use finialbasil::{Reason, Table};
///
/// let (mut one, mut other) = (Table::new(), Table::new());
/// let price = one.lowest(0)?;
/// let weight = other.lowest(0)?;
/// assert_eq!(one.dual(weight).unwrap_err().reason(), Reason::Part);
/// assert_eq!(one.perfect(weight, &[5]).unwrap_err().reason(), Reason::Term);
/// assert!(one.dual(price).is_ok());
/// # Ok::<(), finialbasil::Refusal>(())
/// ```
#[derive(Clone, Copy, Debug, PartialEq, Eq, Hash)]
pub struct Term {
    table: u64,
    record: usize,
}

impl Term {
    /// Its record number, for the functions that take the bytes of a table.
    #[must_use]
    pub fn record(self) -> usize {
        self.record
    }
}

/// The id of the next table, so that a term tells which table it belongs to.
static NEXT: AtomicU64 = AtomicU64::new(0);

impl Table {
    /// A table without records. The check refuses it (LENGTH) until it has a term.
    #[must_use]
    pub fn new() -> Table {
        Table {
            id: NEXT.fetch_add(1, Ordering::Relaxed),
            records: Vec::new(),
        }
    }

    /// A table from its bytes, as [`as_bytes`](Table::as_bytes) gives them, this crate or another program.
    /// [`terms`](Table::terms) gives its terms. It can be built on, with its top as a part.
    ///
    /// ```
    /// use finialbasil::Table;
    ///
    /// let stored = [3, 0, 0, 0, 24, 0, 0, 0, 0, 0, 0, 0]; // AROUND column 0, wish 24
    /// let mut table = Table::from_bytes(&stored)?;
    /// assert_eq!(table.as_bytes(), stored);
    ///
    /// let volts = table.term(0).expect("record 0 is a term");
    /// let price = table.lowest(1)?;
    /// let wish = table.prior(volts, price)?;
    /// assert_eq!(table.top(), Some(wish));
    /// # Ok::<(), finialbasil::Refusal>(())
    /// ```
    ///
    /// # Errors
    /// What [`check`](crate::check) refuses with the greatest column count, 8.
    pub fn from_bytes(bytes: &[u8]) -> Result<Table, Refusal> {
        let summary = calls::check(bytes, MOST_COLUMNS)?;
        let mut table = Table::new();
        table.records = vec![[0; RECORD_BYTES]; summary.records];
        table.records.as_flattened_mut().copy_from_slice(bytes);
        Ok(table)
    }

    /// LOWEST: the lower the better.
    ///
    /// ```
    /// # use finialbasil::{Outcome, Table};
    /// # let mut table = Table::new();
    /// let price = table.lowest(0)?;
    /// assert_eq!(table.compare(price, &[80], &[95])?, Outcome::FirstBetter);
    /// # Ok::<(), finialbasil::Refusal>(())
    /// ```
    ///
    /// # Errors
    /// COLUMN, LENGTH: see [what is refused](Table#what-is-refused-and-when).
    pub fn lowest(&mut self, column: usize) -> Result<Term, Refusal> {
        self.add(base(kind::LOWEST, column, 0, 0), [])
    }

    /// HIGHEST: the higher the better.
    ///
    /// ```
    /// # use finialbasil::{Outcome, Table};
    /// # let mut table = Table::new();
    /// let torque = table.highest(0)?;
    /// assert_eq!(table.compare(torque, &[7], &[9])?, Outcome::SecondBetter);
    /// # Ok::<(), finialbasil::Refusal>(())
    /// ```
    ///
    /// # Errors
    /// COLUMN, LENGTH: see [what is refused](Table#what-is-refused-and-when).
    pub fn highest(&mut self, column: usize) -> Result<Term, Refusal> {
        self.add(base(kind::HIGHEST, column, 0, 0), [])
    }

    /// AROUND: the nearer to the wish the better.
    ///
    /// Different values at the same distance are unranked, and they are not equal. So a wish that comes after this one
    /// or ranks equally does not decide between 22 and 26 volts. If it should, hand over the distance as a column and
    /// ask [`lowest`](Table::lowest) of it: see [neither better nor equal](Table#neither-better-nor-equal).
    ///
    /// ```
    /// # use finialbasil::{Outcome, Table};
    /// # let mut table = Table::new();
    /// let volts = table.around(0, 24)?;
    /// assert_eq!(table.compare(volts, &[24], &[12])?, Outcome::FirstBetter);
    /// assert_eq!(table.compare(volts, &[22], &[26])?, Outcome::Unranked);
    /// # Ok::<(), finialbasil::Refusal>(())
    /// ```
    ///
    /// # Errors
    /// COLUMN, LENGTH: see [what is refused](Table#what-is-refused-and-when).
    pub fn around(&mut self, column: usize, wish: i32) -> Result<Term, Refusal> {
        self.add(base(kind::AROUND, column, wish, 0), [])
    }

    /// BETWEEN: from low to up is best, both included; outside, the nearer to the nearer bound the better.
    ///
    /// ```
    /// # use finialbasil::{Outcome, Table};
    /// # let mut table = Table::new();
    /// let volts = table.between(0, 22, 26)?;
    /// assert_eq!(table.compare(volts, &[26], &[27])?, Outcome::FirstBetter);
    /// assert_eq!(table.compare(volts, &[22], &[24])?, Outcome::Unranked);
    /// # Ok::<(), finialbasil::Refusal>(())
    /// ```
    ///
    /// Different values at the same distance, as all are between the bounds, are unranked, and they are not equal: see
    /// [neither better nor equal](Table#neither-better-nor-equal).
    ///
    /// # Errors
    /// COLUMN, BOUNDS, LENGTH: see [what is refused](Table#what-is-refused-and-when).
    pub fn between(&mut self, column: usize, low: i32, up: i32) -> Result<Term, Refusal> {
        self.add(base(kind::BETWEEN, column, low, up), [])
    }

    /// POS: favourites are better than all others.
    ///
    /// Two favourites are unranked, and they are not equal; nor are two others. So a wish that comes after this one or
    /// ranks equally does not decide between brands 3 and 4. If it should, hand over the class as a column, 0 for
    /// favourites and 1 for others, and ask [`lowest`](Table::lowest) of it: see [neither better nor
    /// equal](Table#neither-better-nor-equal).
    ///
    /// ```
    /// # use finialbasil::{Outcome, Table};
    /// # let mut table = Table::new();
    /// let brand = table.pos(0, &[3, 4])?;
    /// assert_eq!(table.compare(brand, &[1], &[4])?, Outcome::SecondBetter);
    /// assert_eq!(table.compare(brand, &[3], &[4])?, Outcome::Unranked);
    /// # Ok::<(), finialbasil::Refusal>(())
    /// ```
    ///
    /// # Errors
    /// COLUMN, CROWD, LENGTH: see [what is refused](Table#what-is-refused-and-when).
    pub fn pos(&mut self, column: usize, favourites: &[i32]) -> Result<Term, Refusal> {
        self.add(
            base(kind::POS, column, 0, 0),
            values(role::FAVOURITE, favourites),
        )
    }

    /// NEG: all others are better than those disliked. Values of the same class are not equal, as with
    /// [`pos`](Table::pos).
    ///
    /// ```
    /// # use finialbasil::{Outcome, Table};
    /// # let mut table = Table::new();
    /// let brand = table.neg(0, &[7])?;
    /// assert_eq!(table.compare(brand, &[1], &[7])?, Outcome::FirstBetter);
    /// # Ok::<(), finialbasil::Refusal>(())
    /// ```
    ///
    /// # Errors
    /// COLUMN, CROWD, LENGTH: see [what is refused](Table#what-is-refused-and-when).
    pub fn neg(&mut self, column: usize, disliked: &[i32]) -> Result<Term, Refusal> {
        self.add(
            base(kind::NEG, column, 0, 0),
            values(role::DISLIKED, disliked),
        )
    }

    /// POS/NEG: favourites, then all others, then those disliked. Values of the same class are not equal, as with
    /// [`pos`](Table::pos).
    ///
    /// ```
    /// # use finialbasil::{Outcome, Table};
    /// # let mut table = Table::new();
    /// let brand = table.pos_neg(0, &[3], &[7])?;
    /// assert_eq!(table.compare(brand, &[3], &[1])?, Outcome::FirstBetter);
    /// assert_eq!(table.compare(brand, &[1], &[7])?, Outcome::FirstBetter);
    /// # Ok::<(), finialbasil::Refusal>(())
    /// ```
    ///
    /// # Errors
    /// COLUMN, CROWD, CLASH, LENGTH: see [what is refused](Table#what-is-refused-and-when).
    pub fn pos_neg(
        &mut self,
        column: usize,
        favourites: &[i32],
        disliked: &[i32],
    ) -> Result<Term, Refusal> {
        let run = values(role::FAVOURITE, favourites).chain(values(role::DISLIKED, disliked));
        self.add(base(kind::POS_NEG, column, 0, 0), run)
    }

    /// POS/POS: favourites, then second choices, then all others. Values of the same class are not equal, as with
    /// [`pos`](Table::pos).
    ///
    /// ```
    /// # use finialbasil::{Outcome, Table};
    /// # let mut table = Table::new();
    /// let brand = table.pos_pos(0, &[3], &[4, 5])?;
    /// assert_eq!(table.compare(brand, &[3], &[4])?, Outcome::FirstBetter);
    /// assert_eq!(table.compare(brand, &[4], &[1])?, Outcome::FirstBetter);
    /// # Ok::<(), finialbasil::Refusal>(())
    /// ```
    ///
    /// # Errors
    /// COLUMN, CROWD, CLASH, LENGTH: see [what is refused](Table#what-is-refused-and-when).
    pub fn pos_pos(
        &mut self,
        column: usize,
        favourites: &[i32],
        second_choices: &[i32],
    ) -> Result<Term, Refusal> {
        let run =
            values(role::FAVOURITE, favourites).chain(values(role::SECOND_CHOICE, second_choices));
        self.add(base(kind::POS_POS, column, 0, 0), run)
    }

    /// EXPLICIT: edges (worse, better), followed one after the other; values of no edge are worse than values of edges.
    ///
    /// ```
    /// # use finialbasil::{Outcome, Table};
    /// # let mut table = Table::new();
    /// let finish = table.explicit(0, &[(3, 2), (2, 1)])?;
    /// assert_eq!(table.compare(finish, &[1], &[3])?, Outcome::FirstBetter);
    /// assert_eq!(table.compare(finish, &[3], &[9])?, Outcome::FirstBetter);
    /// # Ok::<(), finialbasil::Refusal>(())
    /// ```
    ///
    /// # Errors
    /// COLUMN, CROWD, LOOP, LENGTH: see [what is refused](Table#what-is-refused-and-when).
    pub fn explicit(&mut self, column: usize, edges: &[(i32, i32)]) -> Result<Term, Refusal> {
        self.add(base(kind::EXPLICIT, column, 0, 0), record::edges(edges))
    }

    /// ANY: nothing is better. Placed before another wish it separates the rows by this column.
    ///
    /// ```
    /// # use finialbasil::{Outcome, Table};
    /// # let mut table = Table::new();
    /// let size = table.any(0)?;
    /// assert_eq!(table.compare(size, &[1], &[2])?, Outcome::Unranked);
    /// assert_eq!(table.compare(size, &[2], &[2])?, Outcome::Same);
    /// # Ok::<(), finialbasil::Refusal>(())
    /// ```
    ///
    /// # Errors
    /// COLUMN, LENGTH: see [what is refused](Table#what-is-refused-and-when).
    pub fn any(&mut self, column: usize) -> Result<Term, Refusal> {
        self.add(base(kind::ANY, column, 0, 0), [])
    }

    /// PARETO, both parts ranking equally: better in one part and, in the other, better or equal in all its columns.
    /// Three and more wishes rank equally by one PARETO within another; how they are nested makes no difference.
    ///
    /// Where two rows differ in a part's columns and neither is better there, as with two brands of one class, neither
    /// is better under the PARETO: see [neither better nor equal](Table#neither-better-nor-equal).
    ///
    /// ```
    /// # use finialbasil::{Outcome, Table};
    /// # let mut table = Table::new();
    /// let (price, weight) = (table.lowest(0)?, table.lowest(1)?);
    /// let equally = table.pareto(price, weight)?;
    /// assert_eq!(table.compare(equally, &[80, 5], &[80, 6])?, Outcome::FirstBetter);
    /// assert_eq!(table.compare(equally, &[80, 6], &[90, 5])?, Outcome::Unranked);
    /// # Ok::<(), finialbasil::Refusal>(())
    /// ```
    ///
    /// # Errors
    /// PART, REUSED, LENGTH: see [what is refused](Table#what-is-refused-and-when).
    pub fn pareto(&mut self, left: Term, right: Term) -> Result<Term, Refusal> {
        self.compound(kind::PARETO, left, right)
    }

    /// PRIOR, left placed before right: better in the left, or equal in all its columns and better in the right.
    ///
    /// ```
    /// # use finialbasil::{Outcome, Table};
    /// # let mut table = Table::new();
    /// let (volts, price) = (table.around(0, 24)?, table.lowest(1)?);
    /// let wish = table.prior(volts, price)?;
    /// assert_eq!(table.compare(wish, &[24, 90], &[12, 50])?, Outcome::FirstBetter);
    /// assert_eq!(table.compare(wish, &[24, 90], &[24, 80])?, Outcome::SecondBetter);
    /// # Ok::<(), finialbasil::Refusal>(())
    /// ```
    ///
    /// # Errors
    /// PART, REUSED, LENGTH: see [what is refused](Table#what-is-refused-and-when).
    pub fn prior(&mut self, left: Term, right: Term) -> Result<Term, Refusal> {
        self.compound(kind::PRIOR, left, right)
    }

    /// BOTH: better in both parts, which read the same columns.
    ///
    /// ```
    /// # use finialbasil::{Outcome, Table};
    /// # let mut table = Table::new();
    /// let (near, low) = (table.around(0, 24)?, table.lowest(0)?);
    /// let wish = table.both(near, low)?;
    /// assert_eq!(table.compare(wish, &[25], &[26])?, Outcome::FirstBetter);
    /// assert_eq!(table.compare(wish, &[23], &[22])?, Outcome::Unranked);
    /// # Ok::<(), finialbasil::Refusal>(())
    /// ```
    ///
    /// # Errors
    /// PART, REUSED, APART, LENGTH: see [what is refused](Table#what-is-refused-and-when).
    pub fn both(&mut self, left: Term, right: Term) -> Result<Term, Refusal> {
        self.compound(kind::BOTH, left, right)
    }

    /// DUAL: better and worse change places.
    ///
    /// ```
    /// # use finialbasil::{Outcome, Table};
    /// # let mut table = Table::new();
    /// let near = table.around(0, 50)?;
    /// let away_from_50_hertz = table.dual(near)?;
    /// assert_eq!(table.compare(away_from_50_hertz, &[80], &[52])?, Outcome::FirstBetter);
    /// # Ok::<(), finialbasil::Refusal>(())
    /// ```
    ///
    /// # Errors
    /// PART, REUSED, LENGTH: see [what is refused](Table#what-is-refused-and-when).
    pub fn dual(&mut self, part: Term) -> Result<Term, Refusal> {
        self.add(compound(kind::DUAL, self.number(part), 0), [])
    }

    /// How many records there are; a term takes one, and each of its values one.
    #[must_use]
    pub fn records(&self) -> usize {
        self.records.len()
    }

    /// The term with this record number; none where that record is a value, or where there is no such record.
    #[must_use]
    pub fn term(&self, record: usize) -> Option<Term> {
        let found = self.records.get(record)?;
        record::is_term(found).then_some(Term {
            table: self.id,
            record,
        })
    }

    /// The terms, lowest record number first.
    #[must_use]
    pub fn terms(&self) -> impl DoubleEndedIterator<Item = Term> + '_ {
        (0..self.records.len()).filter_map(|record| self.term(record))
    }

    /// The term that was added last.
    #[must_use]
    pub fn top(&self) -> Option<Term> {
        self.terms().next_back()
    }

    /// The bytes of the table, for the functions of the crate root, a file, or another program.
    ///
    /// ```
    /// use finialbasil::{check, Table};
    ///
    /// let mut table = Table::new();
    /// table.around(0, 24)?;
    /// assert_eq!(table.as_bytes(), [3, 0, 0, 0, 24, 0, 0, 0, 0, 0, 0, 0]);
    /// assert_eq!(check(table.as_bytes(), 1), table.check(1));
    /// # Ok::<(), finialbasil::Refusal>(())
    /// ```
    #[must_use]
    pub fn as_bytes(&self) -> &[u8] {
        self.records.as_flattened()
    }

    /// A copy of the bytes of the table.
    #[must_use]
    pub fn to_bytes(&self) -> Vec<u8> {
        self.as_bytes().to_vec()
    }

    /// As [`check`](crate::check): whether the table is accepted for rows of so many columns, and what it reads.
    ///
    /// # Errors
    /// WIDTH, COLUMN or LOOSE; LENGTH where there is no term.
    pub fn check(&self, columns: usize) -> Result<Summary, Refusal> {
        calls::check(self.as_bytes(), columns)
    }

    /// As [`compare`](crate::compare): how the first row compares with the second. Asked for a part of a wish, it says
    /// how that part alone ranks them: so a support desk can say which wish speaks for which row.
    ///
    /// # Errors
    /// As [`Table::check`], then ROWS for a second row of another length, then TERM for a term of another table.
    pub fn compare(&self, term: Term, first: &[i32], second: &[i32]) -> Result<Outcome, Refusal> {
        calls::compare(self.as_bytes(), self.number(term), first, second)
    }

    /// As [`perfect`](crate::perfect): whether no value could be better in any wish of the term.
    ///
    /// ```
    /// # use finialbasil::Table;
    /// # let mut table = Table::new();
    /// let (volts, brand) = (table.around(0, 24)?, table.pos(1, &[3, 4])?);
    /// let wish = table.pareto(volts, brand)?;
    /// assert!(table.perfect(wish, &[24, 3])?.is_perfect());
    /// assert!(!table.perfect(wish, &[25, 3])?.is_perfect());
    /// # Ok::<(), finialbasil::Refusal>(())
    /// ```
    ///
    /// # Errors
    /// As [`Table::check`], then TERM for a term of another table.
    pub fn perfect(&self, term: Term, row: &[i32]) -> Result<Mark, Refusal> {
        calls::perfect(self.as_bytes(), self.number(term), row)
    }

    /// A query: which rows the term keeps, and for each dropped row which kept row is better.
    ///
    /// ```
    /// # use finialbasil::Table;
    /// # let mut table = Table::new();
    /// let price = table.lowest(1)?;
    /// let motors = [[24, 90], [24, 80], [12, 95]];
    /// let by_volts = table.query(price).group_by([0]).run(&motors)?;
    /// assert_eq!(by_volts.kept().collect::<Vec<_>>(), [1, 2]);
    /// # Ok::<(), finialbasil::Refusal>(())
    /// ```
    ///
    /// Run, it refuses as [`Table::check`] does, then ROWS, TERM for a term of another table, GROUP and SHORT.
    pub fn query(&self, term: Term) -> Query<'_> {
        query(self.as_bytes(), self.number(term))
    }

    fn compound(&mut self, kind: u8, left: Term, right: Term) -> Result<Term, Refusal> {
        self.add(compound(kind, self.number(left), self.number(right)), [])
    }

    /// Adds a term and its values, if the check refuses nothing but that terms are no parts yet.
    fn add(
        &mut self,
        term: Record,
        values: impl IntoIterator<Item = Record>,
    ) -> Result<Term, Refusal> {
        let before = self.records.len();
        // One record more than a table has is enough to be refused.
        self.records
            .extend(iter::once(term).chain(values).take(MOST_RECORDS + 1));
        match self.check(MOST_COLUMNS) {
            Err(refusal) if refusal.reason() != Reason::Loose => {
                self.records.truncate(before);
                Err(refusal)
            }
            _ => Ok(Term {
                table: self.id,
                record: before,
            }),
        }
    }

    /// The record number of a term; for a term of another table a number that no record has, so that the library itself
    /// refuses it, in its order.
    fn number(&self, term: Term) -> usize {
        if term.table == self.id {
            term.record
        } else {
            usize::MAX
        }
    }
}

impl Default for Table {
    fn default() -> Table {
        Table::new()
    }
}

impl AsRef<[u8]> for Table {
    fn as_ref(&self) -> &[u8] {
        self.as_bytes()
    }
}

/// A line for each record: its number, what it says, and which is the top.
impl fmt::Display for Table {
    fn fmt(&self, f: &mut fmt::Formatter<'_>) -> fmt::Result {
        let top = self.top().map(Term::record);
        for (number, record) in self.records.iter().enumerate() {
            let line_feed = if number == 0 { "" } else { "\n" };
            let mark = if top == Some(number) {
                " (the top)"
            } else {
                ""
            };
            write!(f, "{line_feed}{number}: {}{mark}", InWords(record))?;
        }
        Ok(())
    }
}
