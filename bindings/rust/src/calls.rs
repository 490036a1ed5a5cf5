//! The calls over the bytes of any table, but for the query.
use crate::ffi::Reply;
use crate::{lent, Columns, Mark, Outcome, Refusal, Summary};

/// Checks the bytes of a table for rows of so many columns.
///
/// ```
/// use finialbasil::{check, Reason};
///
/// // AROUND column 0, wish 24.
/// let table = [3, 0, 0, 0, 24, 0, 0, 0, 0, 0, 0, 0];
/// assert_eq!(check(&table, 2)?.top, 0);
/// assert_eq!(check(&table, 9).unwrap_err().reason(), Reason::Width);
/// # Ok::<(), finialbasil::Refusal>(())
/// ```
///
/// # Errors
/// The first refusal of 1 to 14.
pub fn check(table: &[u8], columns: usize) -> Result<Summary, Refusal> {
    let reply = lent::check(table, columns);
    Refusal::judge(reply.refusal, reply.place)?;
    // The mask has a bit for each of at most 8 columns, so its low byte is all of it.
    let [mask, ..] = reply.columns.to_le_bytes();
    Ok(Summary {
        records: reply.records as usize,
        top: reply.top as usize,
        columns: Columns::from_bits(mask),
        column_count: reply.column_count as usize,
    })
}

/// Compares two rows under the term with this record number. The column count is that of the first row.
///
/// Rows compare strictly: no row is better than itself, outcomes turn round when the rows change places, and better
/// than better is better.
///
/// ```
/// use finialbasil::{compare, Outcome};
///
/// let table = [1, 0, 0, 0, 0, 0, 0, 0, 0, 0, 0, 0]; // LOWEST column 0
/// assert_eq!(compare(&table, 0, &[80, 5], &[95, 4])?, Outcome::FirstBetter);
/// # Ok::<(), finialbasil::Refusal>(())
/// ```
///
/// # Errors
/// The first refusal of 1 to 16. A second row of another length is ROWS.
pub fn compare(
    table: &[u8],
    term: usize,
    first: &[i32],
    second: &[i32],
) -> Result<Outcome, Refusal> {
    value(lent::compare(table, first.len(), term, first, second)).map(Outcome::numbered)
}

/// Whether a row is perfect under the term with this record number: in every base term beneath it (itself if it is a
/// base term) no 32-bit value is better than the row's, or, beneath an odd number of DUALs, counted from the asked term
/// down and with it, none is worse. The column count is that of the row.
///
/// ```
/// use finialbasil::perfect;
///
/// let table = [3, 0, 0, 0, 24, 0, 0, 0, 0, 0, 0, 0]; // AROUND column 0, wish 24
/// assert!(perfect(&table, 0, &[24])?.is_perfect());
/// assert!(!perfect(&table, 0, &[25])?.is_perfect());
/// # Ok::<(), finialbasil::Refusal>(())
/// ```
///
/// # Errors
/// The first refusal of 1 to 16, but for ROWS.
pub fn perfect(table: &[u8], term: usize, row: &[i32]) -> Result<Mark, Refusal> {
    value(lent::perfect(table, row.len(), term, row)).map(Mark::numbered)
}

pub(crate) fn value(reply: Reply) -> Result<u32, Refusal> {
    Refusal::judge(reply.refusal, reply.place)?;
    Ok(reply.value)
}
