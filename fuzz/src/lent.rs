//! Lent buffers that tell when a call reaches past them: behind each is memory that faults, and before it are bytes that
//! must keep their value, as must the buffer itself where nothing is written.

use std::ffi::{c_int, c_void};
use std::ptr;

/// The room of a buffer and of the memory that faults; a multiple of every page size.
const ROOM: usize = 1 << 16;
const GUARD: usize = 64;
const FILL: u8 = 0xa5;

extern "C" {
    fn mmap(at: *mut c_void, length: usize, access: c_int, flags: c_int, file: c_int, offset: i64) -> *mut c_void;
    fn mprotect(at: *mut c_void, length: usize, access: c_int) -> c_int;
}

const NO_ACCESS: c_int = 0;
const READ_AND_WRITE: c_int = 3;
const PRIVATE_AND_ANONYMOUS: c_int = 0x22;

/// A buffer of bytes that ends where the memory that faults begins.
pub struct Lent {
    room: *mut u8,
}

impl Lent {
    pub fn new() -> Self {
        // SAFETY: new memory, of which the second half is shut.
        unsafe {
            let at = mmap(ptr::null_mut(), 2 * ROOM, READ_AND_WRITE, PRIVATE_AND_ANONYMOUS, -1, 0);
            assert!(at as isize != -1, "no memory");
            assert!(mprotect(at.add(ROOM), ROOM, NO_ACCESS) == 0, "no memory that faults");
            Self { room: at.cast() }
        }
    }

    /// Where a buffer of that many bytes starts.
    pub fn start(&self, length: usize) -> *mut u8 {
        assert!(length <= ROOM - GUARD, "a lent buffer is too long");
        // SAFETY: inside the room.
        unsafe { self.room.add(ROOM - length) }
    }

    /// Fills the guard and the buffer, and then the buffer's first bytes.
    pub fn fill(&mut self, length: usize, first: &[u8]) {
        self.whole(length).fill(FILL);
        self.buffer(length)[..first.len()].copy_from_slice(first);
    }

    pub fn buffer(&mut self, length: usize) -> &mut [u8] {
        &mut self.whole(length)[GUARD..]
    }

    /// Says that the buffer is these bytes, then as it was filled, and that the guard before it is as it was.
    pub fn holds(&mut self, length: usize, first: &[u8]) -> bool {
        let (guard, buffer) = self.whole(length).split_at(GUARD);
        let (start, rest) = buffer.split_at(first.len());
        start == first && guard.iter().chain(rest).all(|byte| *byte == FILL)
    }

    fn whole(&mut self, length: usize) -> &mut [u8] {
        let start = self.start(length);
        // SAFETY: the guard and the buffer are inside the room, and lent together with `self`.
        unsafe { std::slice::from_raw_parts_mut(start.sub(GUARD), GUARD + length) }
    }
}
