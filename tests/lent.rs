//! Memory to lend to a service, made so that a read or a write beside it shows.

use std::ffi::c_void;

/// How many guard bytes stand on each side, and what an aligned start is a multiple of.
const GUARD: usize = 64;

/// Bytes between guard bytes. A write to either shows afterwards, and a read of a guard may change the answer.
pub struct Guarded {
    memory: Vec<u8>,
    start: usize,
    end: usize,
    guard: u8,
}

impl Guarded {
    /// Room for `most` bytes.
    pub fn new(most: usize) -> Guarded {
        Guarded { memory: vec![0; 4 * GUARD + most], start: GUARD, end: GUARD, guard: 0 }
    }

    /// Copies bytes to a place that is `shift` bytes, below 64, after an aligned one, between guards of one value.
    pub fn place(&mut self, bytes: &[u8], shift: usize, guard: u8) {
        let aligned = 2 * GUARD - self.memory.as_ptr() as usize % GUARD;
        self.start = aligned + shift;
        self.end = self.start + bytes.len();
        self.guard = guard;
        self.memory[self.start - GUARD..self.start].fill(guard);
        self.memory[self.start..self.end].copy_from_slice(bytes);
        self.memory[self.end..self.end + GUARD].fill(guard);
    }

    pub fn bytes(&self) -> &[u8] {
        &self.memory[self.start..self.end]
    }

    pub fn bytes_mut(&mut self) -> &mut [u8] {
        &mut self.memory[self.start..self.end]
    }

    /// Whether the bytes are these, and their guards as they were placed.
    pub fn is_unchanged(&self, bytes: &[u8]) -> bool {
        let guard = [self.guard; GUARD];
        let before = &self.memory[self.start - GUARD..self.start];
        let after = &self.memory[self.end..self.end + GUARD];
        self.bytes() == bytes && before == guard && after == guard
    }
}

extern "C" {
    fn mmap(address: *mut c_void, length: usize, protection: i32, flags: i32, file: i32, offset: i64) -> *mut c_void;
    fn mprotect(address: *mut c_void, length: usize, protection: i32) -> i32;
}

const NO_ACCESS: i32 = 0;
const READ_AND_WRITE: i32 = 1 | 2;
const PRIVATE_AND_ANONYMOUS: i32 = 0x02 | 0x20;
const PAGE: usize = 4096;

/// Bytes between two pages that nobody may touch: a read or a write beside them ends the program.
pub struct Fenced {
    inside: &'static mut [u8],
}

impl Fenced {
    /// Room for `most` bytes.
    pub fn new(most: usize) -> Fenced {
        let length = most.next_multiple_of(PAGE);
        // SAFETY: the mapping is new, nothing else knows its address, and it is never unmapped. The pages between the first and the
        // last are made accessible before a slice is made of them.
        unsafe {
            let base = mmap(std::ptr::null_mut(), length + 2 * PAGE, NO_ACCESS, PRIVATE_AND_ANONYMOUS, -1, 0);
            assert!(base as isize != -1, "mmap failed");
            let inside = base.cast::<u8>().add(PAGE);
            assert!(mprotect(inside.cast(), length, READ_AND_WRITE) == 0, "mprotect failed");
            Fenced { inside: std::slice::from_raw_parts_mut(inside, length) }
        }
    }

    /// Copies bytes to the first place, just after a fence.
    pub fn place_first(&mut self, bytes: &[u8]) -> &mut [u8] {
        let place = &mut self.inside[..bytes.len()];
        place.copy_from_slice(bytes);
        place
    }

    /// Copies bytes to the last place, just before a fence.
    pub fn place_last(&mut self, bytes: &[u8]) -> &mut [u8] {
        let start = self.inside.len() - bytes.len();
        let place = &mut self.inside[start..];
        place.copy_from_slice(bytes);
        place
    }
}
