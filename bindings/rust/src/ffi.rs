//! The C interface as `bindings/c/finialbasil.h` declares it. Its comments say what each call takes, gives and refuses.
//!
//! The functions of the crate root and the methods of [`Table`](crate::Table) are the safe way to all of this.
//!
//! # Safety
//!
//! What every call asks of its caller: a length counts elements, and that many may be read behind the pointer, and
//! behind `answers` written; a pointer is aligned, and null only where its length is 0; `answers` overlaps nothing else
//! that is lent; while the call runs nothing else writes to lent memory, and nothing else reads `answers`.

/// What `place` holds where a reply has none.
pub const NO_PLACE: u32 = 0xffff_ffff;

/// What the check gives. On a refusal the fields after `place` are 0.
#[repr(C)]
#[derive(Clone, Copy, Debug, PartialEq, Eq)]
pub struct CheckReply {
    /// 0: accepted; else 1 to 14.
    pub refusal: u32,
    /// The record that is refused, or [`NO_PLACE`].
    pub place: u32,
    /// Number of records.
    pub records: u32,
    /// Record number of the last term.
    pub top: u32,
    /// Columns that the top reads, bit j for column j.
    pub columns: u32,
    /// How many these are.
    pub column_count: u32,
}

/// What the other calls give. On a refusal `value` is 0.
#[repr(C)]
#[derive(Clone, Copy, Debug, PartialEq, Eq)]
pub struct Reply {
    /// 0: accepted; else 1 to 18.
    pub refusal: u32,
    /// The record that is refused, or [`NO_PLACE`].
    pub place: u32,
    /// What the call gives.
    pub value: u32,
}

extern "C" {
    /// Check.
    pub fn fnb_check(table: *const u8, table_len: usize, columns: usize) -> CheckReply;
    /// Compare: `value` is 0 same, 1 first better, 2 second better, 3 unranked.
    pub fn fnb_compare(
        table: *const u8,
        table_len: usize,
        columns: usize,
        term: usize,
        first: *const i32,
        first_len: usize,
        second: *const i32,
        second_len: usize,
    ) -> Reply;
    /// Perfect: `value` is 1 perfect, 0 not.
    pub fn fnb_perfect(
        table: *const u8,
        table_len: usize,
        columns: usize,
        term: usize,
        row: *const i32,
        row_len: usize,
    ) -> Reply;
    /// Query, rows compared pair by pair: `value` is how many rows were kept.
    pub fn fnb_query_direct(
        table: *const u8,
        table_len: usize,
        columns: usize,
        rows: *const i32,
        rows_len: usize,
        term: usize,
        group: u8,
        answers: *mut u16,
        answers_len: usize,
    ) -> Reply;
    /// Query, from the answers of the term's parts: the same reply and the same entries.
    pub fn fnb_query_by_parts(
        table: *const u8,
        table_len: usize,
        columns: usize,
        rows: *const i32,
        rows_len: usize,
        term: usize,
        group: u8,
        answers: *mut u16,
        answers_len: usize,
    ) -> Reply;
}
