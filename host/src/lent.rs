//! Memory to lend: read-only or to be written to, between pages that can't be touched.

use std::ffi::{c_char, c_void};
use std::{ptr, slice};

const PAGE: usize = 4_096;
const PROT_NONE: i32 = 0;
const PROT_READ: i32 = 1;
const PROT_WRITE: i32 = 2;
const MAP_SHARED: i32 = 0x01;
const MAP_PRIVATE: i32 = 0x02;
const MAP_FIXED: i32 = 0x10;
const MAP_ANONYMOUS: i32 = 0x20;

extern "C" {
    fn memfd_create(name: *const c_char, flags: u32) -> i32;
    fn ftruncate(file: i32, length: i64) -> i32;
    fn mmap(
        place: *mut c_void,
        length: usize,
        protection: i32,
        flags: i32,
        file: i32,
        from: i64,
    ) -> *mut c_void;
}

/// Where the lent words or bytes stand in the memory.
#[derive(Clone, Copy, Debug)]
pub enum Side {
    Start,
    End,
}

/// The same pages twice: to write to, and to lend.
pub struct Memory {
    writable: *mut u8,
    lent: *const u8,
    length: usize,
}

/// Maps pages; the place is null, or in pages that nothing else knows.
unsafe fn map(place: *mut u8, length: usize, protection: i32, flags: i32, file: i32) -> *mut u8 {
    let mapped = mmap(place as *mut c_void, length, protection, flags, file, 0);
    assert_ne!(mapped as isize, -1, "no memory");
    mapped as *mut u8
}

/// A place for so many bytes of whole pages, with a closed page before and after it; closed itself so far.
unsafe fn place(length: usize) -> *mut u8 {
    map(ptr::null_mut(), length + 2 * PAGE, PROT_NONE, MAP_PRIVATE | MAP_ANONYMOUS, -1).add(PAGE)
}

impl Memory {
    /// At least so many bytes.
    pub fn new(bytes: usize) -> Memory {
        let length = bytes.div_ceil(PAGE) * PAGE;
        // SAFETY: new pages, which nothing else knows; those before and after the lent ones stay closed.
        unsafe {
            let file = memfd_create(c"lent".as_ptr(), 0);
            assert!(file >= 0 && ftruncate(file, length as i64) == 0, "no memory");
            let writable = map(ptr::null_mut(), length, PROT_READ | PROT_WRITE, MAP_SHARED, file);
            let lent = map(place(length), length, PROT_READ, MAP_SHARED | MAP_FIXED, file);
            Memory { writable, lent, length }
        }
    }

    /// Puts the data at one side of the memory and the fill beside it; gives where to read the data.
    pub fn lend<T: Copy>(&mut self, data: &[T], side: Side, fill: u8) -> *const T {
        let bytes = std::mem::size_of_val(data);
        assert!(bytes <= self.length, "too long to lend");
        let near = (self.length - bytes).min(PAGE);
        let (at, beside) = match side {
            Side::Start => (0, bytes),
            Side::End => (self.length - bytes, self.length - bytes - near),
        };
        // SAFETY: both ranges lie in the pages, and both sides are aligned for T.
        unsafe {
            ptr::write_bytes(self.writable.add(beside), fill, near);
            ptr::copy_nonoverlapping(data.as_ptr(), self.writable.add(at) as *mut T, data.len());
            self.lent.add(at) as *const T
        }
    }

    /// The same, borrowed.
    pub fn lend_slice<T: Copy>(&mut self, data: &[T], side: Side, fill: u8) -> &[T] {
        // SAFETY: so many stand there, and nothing changes them while the memory is borrowed.
        unsafe { slice::from_raw_parts(self.lend(data, side, fill), data.len()) }
    }
}

/// Words to lend and to be written to.
pub struct Words {
    words: &'static mut [u32],
}

impl Words {
    /// How many words before the lent ones are held too.
    const BEFORE: usize = PAGE / 4;

    /// At most so many words can be lent.
    pub fn new(most: usize) -> Words {
        let length = (4 * (most + Words::BEFORE)).div_ceil(PAGE) * PAGE;
        // SAFETY: new pages, which nothing else knows and which stay mapped.
        let words = unsafe {
            let pages = PROT_READ | PROT_WRITE;
            let start = map(place(length), length, pages, MAP_PRIVATE | MAP_ANONYMOUS | MAP_FIXED, -1);
            slice::from_raw_parts_mut(start as *mut u32, length / 4)
        };
        Words { words }
    }

    /// The words before those that are lent and the lent words, so many, at the end of the memory; all hold this.
    pub fn hold(&mut self, lent: usize, held: u32) -> (&mut [u32], &mut [u32]) {
        let from = self.words.len() - lent - Words::BEFORE;
        let words = &mut self.words[from..];
        words.fill(held);
        words.split_at_mut(Words::BEFORE)
    }
}
