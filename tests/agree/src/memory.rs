//! Memory to lend: pages between guard pages, so that a byte read or written outside them faults. What a call may only
//! read is mapped read-only for it, and filled through a second mapping of the same pages.

use std::ffi::{c_char, c_int, c_uint, c_void};

extern "C" {
    fn mmap(
        at: *mut c_void,
        length: usize,
        allowed: c_int,
        flags: c_int,
        file: c_int,
        offset: i64,
    ) -> *mut c_void;
    fn memfd_create(name: *const c_char, flags: c_uint) -> c_int;
    fn ftruncate(file: c_int, length: i64) -> c_int;
    fn close(file: c_int) -> c_int;
}

const NONE: c_int = 0;
const READ: c_int = 1;
const READ_WRITE: c_int = 3;
const SHARED: c_int = 1;
const PRIVATE: c_int = 2;
const FIXED: c_int = 16;
const ANONYMOUS: c_int = 32;
pub const PAGE: usize = 4_096;

/// Where a lent piece lies: its end at the guard page behind, its start at the one before, or some bytes from the
/// start.
#[derive(Clone, Copy, Debug, PartialEq, Eq)]
pub enum Flush {
    End,
    Start,
    Inside(usize),
}

/// Pages with a guard page on either side.
pub struct Lent {
    /// What a call sees.
    view: *mut u8,
    /// The same pages, for the tests.
    own: *mut u8,
    size: usize,
}

impl Lent {
    pub fn read_only(pages: usize) -> Lent {
        Lent::mapped(pages * PAGE, READ)
    }

    pub fn writable(pages: usize) -> Lent {
        Lent::mapped(pages * PAGE, READ_WRITE)
    }

    fn mapped(size: usize, allowed: c_int) -> Lent {
        // SAFETY: the frame is a mapping of its own, and the view lies inside it; both stay mapped until the program
        // ends.
        unsafe {
            let file = memfd_create(c"lent".as_ptr(), 0);
            assert!(
                file >= 0 && ftruncate(file, size as i64) == 0,
                "no memory to lend"
            );
            let none = std::ptr::null_mut();
            let frame = mapping(mmap(
                none,
                size + 2 * PAGE,
                NONE,
                PRIVATE | ANONYMOUS,
                -1,
                0,
            ));
            let view = mapping(mmap(
                frame.add(PAGE).cast(),
                size,
                allowed,
                SHARED | FIXED,
                file,
                0,
            ));
            let own = mapping(mmap(none, size, READ_WRITE, SHARED, file, 0));
            close(file);
            Lent { view, own, size }
        }
    }

    /// Copies the bytes to their place and gives where a call sees them.
    pub fn place(&mut self, bytes: &[u8], flush: Flush) -> *mut u8 {
        let offset = self.offset(bytes.len(), flush);
        // SAFETY: `offset` and the bytes behind it are inside the mapping, which is `size` bytes long.
        unsafe {
            self.own
                .add(offset)
                .copy_from_nonoverlapping(bytes.as_ptr(), bytes.len());
            self.view.add(offset)
        }
    }

    pub fn place_numbers(&mut self, numbers: &[i32], flush: Flush) -> *const i32 {
        // SAFETY: the same memory, read as bytes.
        let bytes = unsafe {
            std::slice::from_raw_parts(numbers.as_ptr().cast(), std::mem::size_of_val(numbers))
        };
        self.place(bytes, flush) as *const i32
    }

    /// Fills all pages with `outside`, then places the entries.
    pub fn place_entries(&mut self, entries: &[u16], outside: u16, flush: Flush) -> *mut u16 {
        self.numbers_mut().fill(outside);
        let offset = self.offset(2 * entries.len(), flush) / 2;
        self.numbers_mut()[offset..offset + entries.len()].copy_from_slice(entries);
        // SAFETY: `offset` is inside the mapping.
        unsafe { (self.view as *mut u16).add(offset) }
    }

    /// The entries as they stand, and how many others are no longer `outside`.
    pub fn entries(&mut self, count: usize, outside: u16, flush: Flush) -> (Vec<u16>, usize) {
        let offset = self.offset(2 * count, flush) / 2;
        let all = self.numbers_mut();
        let others = all[..offset].iter().chain(&all[offset + count..]);
        let strayed = others.filter(|entry| **entry != outside).count();
        (all[offset..offset + count].to_vec(), strayed)
    }

    fn offset(&self, length: usize, flush: Flush) -> usize {
        let offset = match flush {
            Flush::End => self.size - length,
            Flush::Start => 0,
            Flush::Inside(from) => from,
        };
        assert!(offset + length <= self.size, "more than there is to lend");
        offset
    }

    fn numbers_mut(&mut self) -> &mut [u16] {
        // SAFETY: pages are aligned for u16, mapped for reading and writing, and no call runs while this is borrowed.
        unsafe { std::slice::from_raw_parts_mut(self.own.cast(), self.size / 2) }
    }

    /// The byte before the first page and the one behind the last, for the self-check that both fault.
    pub fn guards(&self) -> [*mut u8; 2] {
        [self.view.wrapping_sub(1), self.view.wrapping_add(self.size)]
    }
}

fn mapping(at: *mut c_void) -> *mut u8 {
    assert!(at as isize != -1, "no memory to lend");
    at.cast()
}
