//! What a fault inside a call leaves behind: the number of the input, so that it can be shown and run again.

use std::ffi::c_int;
use std::sync::atomic::{AtomicU64, Ordering};

extern "C" {
    fn sigaction(number: c_int, action: *const Action, before: *mut Action) -> c_int;
    fn write(file: c_int, bytes: *const u8, count: usize) -> isize;
    fn _exit(status: c_int) -> !;
}

/// `struct sigaction` of the C library on x86-64 Linux.
#[repr(C)]
struct Action {
    handler: extern "C" fn(c_int),
    mask: [u64; 16],
    flags: c_int,
    restorer: usize,
}

/// The handler runs on a stack of its own, so that a stack run full is told as well.
const ON_STACK: c_int = 0x0800_0000;
const FAULTS: [c_int; 4] = [4, 7, 8, 11];
/// The number for the worst inputs, which are none of the numbered ones.
pub const WORST: u64 = u64::MAX;
static INPUT: AtomicU64 = AtomicU64::new(WORST);
static SEED: AtomicU64 = AtomicU64::new(0);

/// From here on a fault prints the input that `at` named last, and ends the program.
pub fn watch(seed: u64) {
    SEED.store(seed, Ordering::Relaxed);
    let action = Action {
        handler: ended,
        mask: [0; 16],
        flags: ON_STACK,
        restorer: 0,
    };
    for number in FAULTS {
        // SAFETY: the handler calls only `write` and `_exit`.
        let set = unsafe { sigaction(number, &action, std::ptr::null_mut()) };
        assert!(set == 0, "no handler for faults");
    }
}

pub fn at(input: u64) {
    INPUT.store(input, Ordering::Relaxed);
}

extern "C" fn ended(number: c_int) {
    say(b"FAILED: a fault inside a call, signal ");
    say_number(number as u64);
    match INPUT.load(Ordering::Relaxed) {
        WORST => say(b", on a worst input"),
        input => {
            say(b", input ");
            say_number(input);
        }
    }
    say(b", seed ");
    say_number(SEED.load(Ordering::Relaxed));
    say(b"; `agree --show NUMBER` prints an input\n");
    // SAFETY: ends the program at once.
    unsafe { _exit(3) }
}

fn say(bytes: &[u8]) {
    // SAFETY: the bytes are there.
    unsafe { write(2, bytes.as_ptr(), bytes.len()) };
}

fn say_number(mut number: u64) {
    let mut digits = [0; 20];
    let mut from = digits.len();
    while from == digits.len() || number > 0 {
        from -= 1;
        digits[from] = b'0' + (number % 10) as u8;
        number /= 10;
    }
    say(&digits[from..]);
}
