//! The C interface called with slices: the only unsafe code of the crate.
//!
//! Slices meet every duty that the header lists. A slice's pointer is never null and is aligned, and its length counts
//! elements that may be read. `answers` is borrowed alone, so it overlaps nothing, and nothing else reads or writes it
//! during the call; the others are shared, so nothing writes to them. The calls keep no pointer, and take any contents.
#![allow(unsafe_code)]

use crate::ffi::{self, CheckReply, Reply};

pub(crate) fn check(table: &[u8], columns: usize) -> CheckReply {
    // SAFETY: pointer and length are those of a slice.
    unsafe { ffi::fnb_check(table.as_ptr(), table.len(), columns) }
}

pub(crate) fn compare(
    table: &[u8],
    columns: usize,
    term: usize,
    first: &[i32],
    second: &[i32],
) -> Reply {
    // SAFETY: each pointer and length are those of a slice.
    unsafe {
        ffi::fnb_compare(
            table.as_ptr(),
            table.len(),
            columns,
            term,
            first.as_ptr(),
            first.len(),
            second.as_ptr(),
            second.len(),
        )
    }
}

pub(crate) fn perfect(table: &[u8], columns: usize, term: usize, row: &[i32]) -> Reply {
    // SAFETY: each pointer and length are those of a slice.
    unsafe {
        ffi::fnb_perfect(
            table.as_ptr(),
            table.len(),
            columns,
            term,
            row.as_ptr(),
            row.len(),
        )
    }
}

pub(crate) fn query_direct(
    table: &[u8],
    columns: usize,
    rows: &[i32],
    term: usize,
    group: u8,
    answers: &mut [u16],
) -> Reply {
    // SAFETY: each pointer and length are those of a slice, and `answers` is borrowed alone.
    unsafe {
        ffi::fnb_query_direct(
            table.as_ptr(),
            table.len(),
            columns,
            rows.as_ptr(),
            rows.len(),
            term,
            group,
            answers.as_mut_ptr(),
            answers.len(),
        )
    }
}

pub(crate) fn query_by_parts(
    table: &[u8],
    columns: usize,
    rows: &[i32],
    term: usize,
    group: u8,
    answers: &mut [u16],
) -> Reply {
    // SAFETY: each pointer and length are those of a slice, and `answers` is borrowed alone.
    unsafe {
        ffi::fnb_query_by_parts(
            table.as_ptr(),
            table.len(),
            columns,
            rows.as_ptr(),
            rows.len(),
            term,
            group,
            answers.as_mut_ptr(),
            answers.len(),
        )
    }
}
