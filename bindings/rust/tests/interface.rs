//! The declarations beside the header: layout of the replies, limits, and null pointers with length 0.
use finialbasil::ffi::{self, CheckReply, Reply, NO_PLACE};
use std::mem::{align_of, offset_of, size_of};
use std::ptr::{null, null_mut};

#[test]
fn the_replies_lie_as_in_c() {
    assert_eq!((size_of::<CheckReply>(), align_of::<CheckReply>()), (24, 4));
    assert_eq!(offset_of!(CheckReply, refusal), 0);
    assert_eq!(offset_of!(CheckReply, place), 4);
    assert_eq!(offset_of!(CheckReply, records), 8);
    assert_eq!(offset_of!(CheckReply, top), 12);
    assert_eq!(offset_of!(CheckReply, columns), 16);
    assert_eq!(offset_of!(CheckReply, column_count), 20);

    assert_eq!((size_of::<Reply>(), align_of::<Reply>()), (12, 4));
    assert_eq!(offset_of!(Reply, refusal), 0);
    assert_eq!(offset_of!(Reply, place), 4);
    assert_eq!(offset_of!(Reply, value), 8);
}

#[test]
fn the_limits_are_those_of_the_header() {
    assert_eq!(finialbasil::RECORD_BYTES, 12);
    assert_eq!(finialbasil::MOST_RECORDS, 128);
    assert_eq!(finialbasil::MOST_TABLE_BYTES, 1536);
    assert_eq!(finialbasil::MOST_COLUMNS, 8);
    assert_eq!(finialbasil::MOST_VALUES, 16);
    assert_eq!(finialbasil::MOST_ROWS, 1024);
    assert_eq!(NO_PLACE, 0xffff_ffff);
}

#[test]
fn null_with_length_0_is_an_empty_slice() {
    // SAFETY: the only pointer is null, with length 0.
    let checked = unsafe { ffi::fnb_check(null(), 0, 1) };
    assert_eq!((checked.refusal, checked.place), (2, NO_PLACE));

    let lowest = [1u8, 0, 0, 0, 0, 0, 0, 0, 0, 0, 0, 0];
    let accepted = Reply {
        refusal: 0,
        place: NO_PLACE,
        value: 0,
    };
    for call in [ffi::fnb_query_direct, ffi::fnb_query_by_parts] {
        // SAFETY: the table is an array with its length; the other pointers are null, with length 0.
        let reply = unsafe { call(lowest.as_ptr(), 12, 1, null(), 0, 0, 0, null_mut(), 0) };
        assert_eq!(reply, accepted);
    }
}

/// The safe function takes the column count from the row, so that only here the two can differ.
#[test]
fn a_single_row_not_of_the_count() {
    let lowest = [1u8, 0, 0, 0, 0, 0, 0, 0, 0, 0, 0, 0];
    // SAFETY: table and row are arrays with their lengths.
    let reply = unsafe { ffi::fnb_perfect(lowest.as_ptr(), 12, 2, 0, [1].as_ptr(), 1) };
    assert_eq!((reply.refusal, reply.place, reply.value), (15, NO_PLACE, 0));
}

#[test]
fn everything_may_go_to_other_threads() {
    fn shared<T: Send + Sync + 'static>() {}
    shared::<finialbasil::Table>();
    shared::<finialbasil::Term>();
    shared::<finialbasil::Answers>();
    shared::<finialbasil::Refusal>();
    shared::<finialbasil::Columns>();
    shared::<finialbasil::Query<'static>>();
    shared::<finialbasil::Rows<'static>>();
}
