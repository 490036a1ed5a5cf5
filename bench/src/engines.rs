//! What is measured: the direct engine, the engine by parts and the peer behind one shape, and the check.
use crate::clock::{self, Pace};
use crate::loads::Load;
use crate::rows::COLUMNS;
use finialbasil::ffi;
use std::hint::black_box;

pub const NAMES: [&str; 3] = ["direct", "by parts", "peer"];

/// Answers the load's first rows and gives how many were kept.
pub type Engine = fn(&Load, usize, &mut [u16]) -> Result<usize, String>;

pub const ENGINES: [Engine; 3] = [direct, by_parts, peer];

pub fn direct(load: &Load, count: usize, answers: &mut [u16]) -> Result<usize, String> {
    called(ffi::fnb_query_direct, load, count, answers)
}

pub fn by_parts(load: &Load, count: usize, answers: &mut [u16]) -> Result<usize, String> {
    called(ffi::fnb_query_by_parts, load, count, answers)
}

pub fn peer(load: &Load, count: usize, answers: &mut [u16]) -> Result<usize, String> {
    let asked = peer::Query {
        table: &load.table,
        columns: COLUMNS,
        rows: &load.rows[..count * COLUMNS],
        term: load.term,
        group: load.group,
    };
    Ok(peer::query(asked, answers))
}

type Call = unsafe extern "C" fn(
    *const u8,
    usize,
    usize,
    *const i32,
    usize,
    usize,
    u8,
    *mut u16,
    usize,
) -> ffi::Reply;

fn called(call: Call, load: &Load, count: usize, answers: &mut [u16]) -> Result<usize, String> {
    let rows = &load.rows[..count * COLUMNS];
    // SAFETY: each pointer comes with the length of the slice that it is taken from.
    let reply = unsafe {
        call(
            load.table.as_ptr(),
            load.table.len(),
            COLUMNS,
            rows.as_ptr(),
            rows.len(),
            load.term,
            load.group,
            answers.as_mut_ptr(),
            answers.len(),
        )
    };
    match reply.refusal {
        0 => Ok(reply.value as usize),
        number => Err(format!("{}: refused {number}", load.name)),
    }
}

pub fn check(table: &[u8]) -> ffi::CheckReply {
    // SAFETY: pointer and length of one slice.
    unsafe { ffi::fnb_check(table.as_ptr(), table.len(), COLUMNS) }
}

/// The outcome's number for two rows, or the refusal.
pub fn compare(load: &Load, first: &[i32], second: &[i32]) -> Result<u32, String> {
    // SAFETY: each pointer comes with the length of the slice that it is taken from.
    let reply = unsafe {
        ffi::fnb_compare(
            load.table.as_ptr(),
            load.table.len(),
            COLUMNS,
            load.term,
            first.as_ptr(),
            first.len(),
            second.as_ptr(),
            second.len(),
        )
    };
    match reply.refusal {
        0 => Ok(reply.value),
        number => Err(format!("{}: refused {number}", load.name)),
    }
}

/// How many rows are kept, if all three give the same entries for the first rows.
pub fn agreed(load: &Load, count: usize) -> Result<usize, String> {
    let mut given = Vec::new();
    for engine in ENGINES {
        let mut answers = vec![u16::MAX; count];
        let kept = engine(load, count, &mut answers)?;
        given.push((kept, answers));
    }
    for (name, other) in NAMES.iter().zip(&given).skip(1) {
        if *other != given[0] {
            return Err(format!(
                "{}, {count} rows: direct and {name} differ",
                load.name
            ));
        }
    }
    Ok(given[0].0)
}

/// Microseconds of a query over the first rows by each of the three, the same buffers in every round.
pub fn timed(pace: Pace, load: &Load, count: usize) -> Vec<f64> {
    with_calls(load, count, |calls| clock::medians(pace, calls))
}

/// The same, round by round.
pub fn timed_rounds(pace: Pace, load: &Load, count: usize) -> Vec<Vec<f64>> {
    with_calls(load, count, |calls| clock::rounds(pace, calls))
}

/// The same, each call with cold buffers.
pub fn timed_cold(rounds: usize, load: &Load, count: usize) -> Vec<Vec<f64>> {
    with_calls(load, count, |calls| clock::cold_rounds(rounds, calls))
}

fn with_calls<R>(load: &Load, count: usize, run: impl Fn(&mut [&mut dyn FnMut()]) -> R) -> R {
    let mut answers = [vec![0; count], vec![0; count], vec![0; count]];
    let [a, b, c] = &mut answers;
    run(&mut [
        &mut || drop(black_box(direct(black_box(load), count, a))),
        &mut || drop(black_box(by_parts(black_box(load), count, b))),
        &mut || drop(black_box(peer(black_box(load), count, c))),
    ])
}
