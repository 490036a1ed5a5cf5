//! Keeps the rows of a catalogue that no other row betters, under wishes such as "around 24 volts, then price and
//! weight equally": a safe interface to the proved library Finialbasil.
//!
//! The wishes are the terms of a [`Table`]. A query keeps a row exactly when no row of its set is better, and names for
//! each dropped row the lowest-numbered kept row that is better.
//!
//! # One query
//!
//! Motors with three columns: volts, price and weight. The wish is around 24 volts; then price and weight, ranking
//! equally.
//!
//! ```
//! use finialbasil::{Answer, Table};
//!
//! # fn main() -> Result<(), finialbasil::Refusal> {
//! let mut table = Table::new();
//! let volts = table.around(0, 24)?;
//! let price = table.lowest(1)?;
//! let weight = table.lowest(2)?;
//! let equally = table.pareto(price, weight)?;
//! let wish = table.prior(volts, equally)?;
//!
//! let motors = [
//!     [24, 90, 12],
//!     [24, 80, 15],
//!     [24, 85, 16], // costs more than motor 1 and is heavier
//!     [12, 50, 5],  // every motor of 24 volts comes before it
//! ];
//! let answers = table.query(wish).run(&motors)?;
//!
//! assert_eq!(answers.kept().collect::<Vec<_>>(), [0, 1]);
//! assert_eq!(answers.get(2), Some(Answer::Dropped { by: 1 }));
//! assert_eq!(answers.get(3), Some(Answer::Dropped { by: 0 }));
//! # Ok(())
//! # }
//! ```
//!
//! Before you join wishes, one after another or equally, read
//! [neither better nor equal](Table#neither-better-nor-equal).
//!
//! # For whom, and for whom not
//!
//! For catalogue software on x86-64 Linux. There is no archive for other machines. A row is 1 to 8 whole numbers of 32
//! bits: prices in cents, brands by a number. A query takes at most 1,024 rows, and a table at most 128 records.
//!
//! Query more rows in parts, then the kept rows together. That keeps what one query over all of them would keep, as
//! long as the kept rows of the parts are 1,024 at most.
//!
//! ```
//! use finialbasil::{Table, MOST_ROWS};
//!
//! let mut table = Table::new();
//! let (price, weight) = (table.lowest(0)?, table.lowest(1)?);
//! let wish = table.pareto(price, weight)?;
//! let catalogue: Vec<[i32; 2]> = (0..3_000).map(|i: i32| [i, (i - 2).abs()]).collect();
//!
//! let mut best = Vec::new();
//! for part in catalogue.chunks(MOST_ROWS) {
//!     best.extend(table.query(wish).run(part)?.kept().map(|row| part[row]));
//! }
//! let answers = table.query(wish).run(&best)?;
//! let kept: Vec<[i32; 2]> = answers.kept().map(|row| best[row]).collect();
//! assert_eq!(kept, [[0, 2], [1, 1], [2, 0]]);
//! # Ok::<(), finialbasil::Refusal>(())
//! ```
//!
//! # Leaving out dropped rows
//!
//! Take out dropped rows, some or all, and ask the same again: the same rows are kept, and each dropped row that is
//! left names the same better row. The rows that are left are numbered from 0 again, in their old order. That is
//! promised, for queries by groups too: an application may store the kept rows and forget the others.
//!
//! ```
//! use finialbasil::{Answer, Table};
//!
//! let mut table = Table::new();
//! let (price, weight) = (table.lowest(0)?, table.lowest(1)?);
//! let wish = table.pareto(price, weight)?;
//! let motors = [[95, 12], [90, 14], [80, 13], [85, 15]];
//! let answers = table.query(wish).run(&motors)?;
//! assert_eq!(answers.kept().collect::<Vec<_>>(), [0, 2]);
//! assert_eq!(answers.get(3), Some(Answer::Dropped { by: 2 }));
//!
//! // Throw away the dropped motors that cost 90 or more: that is motor 1.
//! let mut left = Vec::new();
//! for (motor, answer) in motors.iter().zip(&answers) {
//!     if answer.is_kept() || motor[0] < 90 {
//!         left.push(*motor);
//!     }
//! }
//! assert_eq!(left, [[95, 12], [80, 13], [85, 15]]);
//!
//! // Motor [80, 13] is row 1 among these. It is kept as before, and named as the one better than [85, 15] as before.
//! let again = table.query(wish).run(&left)?;
//! assert_eq!(again.kept().collect::<Vec<_>>(), [0, 1]);
//! assert_eq!(again.get(2), Some(Answer::Dropped { by: 1 }));
//! # Ok::<(), finialbasil::Refusal>(())
//! ```
//!
//! Only dropped rows may go: without a kept row, a row that it betters may be kept. As a consequence, two catalogues
//! can be queried separately and then their kept rows together. That keeps what one query over both keeps, provided
//! both together have at most 1,024 rows. The law beneath has no such bound: a larger catalogue can be queried in
//! parts, as above.
//!
//! # Two ways to the same calls
//!
//! - A [`Table`] is built here or read by [`Table::from_bytes`], and its methods take its [`Term`]s.
//! - Bytes from elsewhere, a file or another program, go to [`check`], [`compare`], [`perfect`] and [`query`] as they
//!   are, with record numbers for terms.
//!
//! # Refusals
//!
//! Nothing needs to be checked beforehand. Each call vets everything it is handed, whatever the bytes and numbers are,
//! and gives a [`Refusal`] for what it turns down: a number, a word, the place, and a sentence that says what to do.
//! Nothing in this crate panics. The calls keep nothing, may run on several threads at once, and ran within 1 MiB of
//! stack wherever that was measured.
//!
//! ```
//! use finialbasil::Table;
//!
//! let mut table = Table::new();
//! let refusal = table.between(0, 16, 10).unwrap_err();
//! assert_eq!(
//!     refusal.to_string(),
//!     "record 0: the low bound is above the up bound; give the lower bound first (refusal 12, BOUNDS)"
//! );
//! ```
//!
//! # Linking
//!
//! The crate links `libfinialbasil.a`. If the environment variable `FINIALBASIL_LIB_DIR` is set, it names the folder of
//! the archive. Else that is the folder `lib` beside `Cargo.toml`, as in a delivery, or `target/staticlib` of the
//! repository. The crate is `no_std` with `alloc`.
#![no_std]
#![deny(missing_docs, unsafe_code)]
#![forbid(unsafe_op_in_unsafe_fn)]

extern crate alloc;

mod answers;
mod calls;
mod columns;
pub mod ffi;
mod lent;
mod query;
mod record;
mod refusal;
mod replies;
mod table;

pub use answers::{Answer, Answers, AnswersIntoIter, AnswersIter};
pub use calls::{check, compare, perfect};
pub use columns::{Columns, ColumnsIter};
pub use query::{query, Engine, Query, Rows, BY_PARTS_FROM};
pub use refusal::{Place, Reason, Refusal};
pub use replies::{Mark, Outcome, Summary};
pub use table::{Table, Term};

/// Bytes of a record.
pub const RECORD_BYTES: usize = 12;
/// Most records of a table.
pub const MOST_RECORDS: usize = 128;
/// Most bytes of a table.
pub const MOST_TABLE_BYTES: usize = RECORD_BYTES * MOST_RECORDS;
/// Most columns of a row.
pub const MOST_COLUMNS: usize = 8;
/// Most values of a term.
pub const MOST_VALUES: usize = 16;
/// Most rows of a query.
pub const MOST_ROWS: usize = 1024;
