//! The library's replies, over memory lent between guard pages.

use crate::input::{Asks, Call, Input};
use crate::memory::{Flush, Lent};
use finialbasil::ffi;

/// What a call gives: as the C interface has it, and the answer buffer afterwards.
#[derive(Clone, Debug, PartialEq, Eq)]
pub struct Reply {
    pub refusal: u32,
    pub place: u32,
    /// The check: records, top, columns and their number. The others: one value, then zeros.
    pub values: [u32; 4],
    pub answers: Vec<u16>,
    /// Entries outside the buffer that were written.
    pub strayed: usize,
}

impl Reply {
    fn of(reply: ffi::Reply) -> Reply {
        let ffi::Reply {
            refusal,
            place,
            value,
        } = reply;
        Reply {
            refusal,
            place,
            values: [value, 0, 0, 0],
            answers: vec![],
            strayed: 0,
        }
    }

    pub fn accepted(&self) -> bool {
        self.refusal == 0
    }
}

/// How one piece is lent.
#[derive(Clone, Copy, PartialEq, Eq, Debug)]
pub struct Lending {
    pub flush: Flush,
    /// NULL if its length is 0.
    pub null: bool,
}

/// The pieces that a call is lent.
#[derive(Clone, Copy)]
pub struct Placing {
    pub table: Lending,
    pub first: Lending,
    pub second: Lending,
    pub rows: Lending,
    pub answers: Lending,
    /// Compare's two rows are one piece, if they are equal.
    pub one_row: bool,
}

impl Placing {
    /// The engine by parts gets the other side of each piece.
    pub fn of(input: &Input, call: Call) -> Placing {
        let bits = if call == Call::ByParts {
            !input.placing
        } else {
            input.placing
        };
        let lending = |at: u32| Lending {
            flush: if bits >> at & 1 == 0 {
                Flush::End
            } else {
                Flush::Start
            },
            null: bits >> (at + 1) & 1 == 0,
        };
        let mut table = lending(0);
        // A table is bytes and may lie at any of them.
        if bits >> 20 & 7 == 0 {
            table.flush = Flush::Inside(1 + (bits >> 24 & 7) as usize);
        }
        Placing {
            table,
            first: lending(2),
            second: lending(4),
            rows: lending(6),
            answers: lending(8),
            one_row: bits >> 10 & 1 == 0,
        }
    }
}

/// Memory for every piece.
pub struct Room {
    table: Lent,
    first: Lent,
    second: Lent,
    rows: Lent,
    answers: Lent,
}

/// What stands around the answer buffer.
const OUTSIDE: u16 = 0xb5e7;

impl Room {
    pub fn new() -> Room {
        Room {
            table: Lent::read_only(18),
            first: Lent::read_only(1),
            second: Lent::read_only(1),
            rows: Lent::read_only(66),
            answers: Lent::writable(2),
        }
    }

    pub fn call(&mut self, input: &Input, call: Call) -> Reply {
        let placing = Placing::of(input, call);
        let table = self.table.place(&input.table, placing.table.flush);
        let table = lent(table, input.table.len(), placing.table);
        match input.asks {
            Asks::Check => self.check(input, table),
            Asks::Compare => self.compare(input, table, &placing),
            Asks::Perfect => self.perfect(input, table, &placing),
            Asks::Query => self.query(input, call, table, &placing),
        }
    }

    fn check(&mut self, input: &Input, table: *const u8) -> Reply {
        // SAFETY: `table` is lent with its length.
        let reply = unsafe { ffi::fnb_check(table, input.table.len(), input.columns) };
        Reply {
            refusal: reply.refusal,
            place: reply.place,
            values: [reply.records, reply.top, reply.columns, reply.column_count],
            answers: vec![],
            strayed: 0,
        }
    }

    fn compare(&mut self, input: &Input, table: *const u8, placing: &Placing) -> Reply {
        let (first, second) = (&input.first, &input.second);
        let one = self.first.place_numbers(first, placing.first.flush);
        let one = lent(one.cast_mut(), first.len(), placing.first);
        let two = if placing.one_row && first == second {
            one
        } else {
            let two = self.second.place_numbers(second, placing.second.flush);
            lent(two.cast_mut(), second.len(), placing.second)
        };
        let (bytes, columns, term) = (input.table.len(), input.columns, input.term);
        // SAFETY: each pointer is lent with its length.
        Reply::of(unsafe {
            ffi::fnb_compare(
                table,
                bytes,
                columns,
                term,
                one,
                first.len(),
                two,
                second.len(),
            )
        })
    }

    fn perfect(&mut self, input: &Input, table: *const u8, placing: &Placing) -> Reply {
        let row = self.first.place_numbers(&input.first, placing.first.flush);
        let row = lent(row.cast_mut(), input.first.len(), placing.first);
        let (bytes, columns, term) = (input.table.len(), input.columns, input.term);
        // SAFETY: each pointer is lent with its length.
        Reply::of(unsafe { ffi::fnb_perfect(table, bytes, columns, term, row, input.first.len()) })
    }

    fn query(&mut self, input: &Input, call: Call, table: *const u8, placing: &Placing) -> Reply {
        let rows = self.rows.place_numbers(&input.rows, placing.rows.flush);
        let rows = lent(rows.cast_mut(), input.rows.len(), placing.rows);
        let flush = placing.answers.flush;
        let answers = self
            .answers
            .place_entries(&input.patterned(), OUTSIDE, flush);
        let answers = lent(answers, input.answers, placing.answers);
        let engine = match call {
            Call::Direct => ffi::fnb_query_direct,
            _ => ffi::fnb_query_by_parts,
        };
        let (bytes, columns, term, group) =
            (input.table.len(), input.columns, input.term, input.group);
        // SAFETY: each pointer is lent with its length, and `answers` lies in pages of its own.
        let reply = unsafe {
            engine(
                table,
                bytes,
                columns,
                rows,
                input.rows.len(),
                term,
                group,
                answers,
                input.answers,
            )
        };
        let (answers, strayed) = self.answers.entries(input.answers, OUTSIDE, flush);
        Reply {
            answers,
            strayed,
            ..Reply::of(reply)
        }
    }
}

fn lent<T>(at: *mut T, length: usize, lending: Lending) -> *mut T {
    if length == 0 && lending.null {
        std::ptr::null_mut()
    } else {
        at
    }
}

/// The layout that `finialbasil.h` states; `tests/replay` asserts the same in C.
const _: () = {
    use std::mem::{offset_of, size_of};
    assert!(size_of::<ffi::CheckReply>() == 24);
    assert!(offset_of!(ffi::CheckReply, refusal) == 0);
    assert!(offset_of!(ffi::CheckReply, place) == 4);
    assert!(offset_of!(ffi::CheckReply, records) == 8);
    assert!(offset_of!(ffi::CheckReply, top) == 12);
    assert!(offset_of!(ffi::CheckReply, columns) == 16);
    assert!(offset_of!(ffi::CheckReply, column_count) == 20);
    assert!(size_of::<ffi::Reply>() == 12);
    assert!(offset_of!(ffi::Reply, refusal) == 0);
    assert!(offset_of!(ffi::Reply, place) == 4);
    assert!(offset_of!(ffi::Reply, value) == 8);
    assert!(size_of::<usize>() == 8);
};
