//! What a guest has of a block: another mapping of its file, or the block's own bytes.
#![allow(dead_code)]

use std::ffi::c_int;
use std::os::fd::{AsFd, AsRawFd};
use std::ptr::{copy, null_mut};
use std::sync::atomic::Ordering::Relaxed;
use std::sync::atomic::{AtomicU16, AtomicU64};

// Of the C library, as Linux on x86-64 has it.
unsafe extern "C" {
    fn mmap(at: *mut u8, size: usize, access: c_int, flags: c_int, fd: c_int, offset: i64) -> *mut u8;
    fn munmap(at: *mut u8, size: usize) -> c_int;
    fn sched_getaffinity(thread: c_int, size: usize, processors: *mut u64) -> c_int;
    fn sched_setaffinity(thread: c_int, size: usize, processors: *const u64) -> c_int;
}

pub struct Guest {
    at: *mut u8,
    len: usize,
    is_mapping: bool,
}

impl Guest {
    /// A mapping of the first bytes of a file.
    pub fn of_file(file: impl AsFd, len: usize) -> Guest {
        // SAFETY: the declaration fits the function. The system takes addresses that nothing has.
        let at = unsafe { mmap(null_mut(), len, 3, 1, file.as_fd().as_raw_fd(), 0) };
        assert_ne!(at as isize, -1);
        let is_mapping = true;
        Guest { at, len, is_mapping }
    }

    /// The bytes of a block, whose machine has to be there.
    pub fn of_block(block: &vm_memory_proved::SharedBlock) -> Guest {
        let (at, len, is_mapping) = (block.as_ptr(), block.len(), false);
        Guest { at, len, is_mapping }
    }

    /// Where the bytes lie.
    pub fn at(&self) -> *mut u8 {
        self.at
    }

    pub fn read(&self, from: usize, len: usize) -> Vec<u8> {
        assert!(from + len <= self.len);
        let mut bytes = vec![0; len];
        // SAFETY: both have these bytes, and no call of the machine runs.
        unsafe { copy(self.at.add(from), bytes.as_mut_ptr(), len) };
        bytes
    }

    pub fn write(&self, from: usize, bytes: &[u8]) {
        assert!(from + bytes.len() <= self.len);
        // SAFETY: both have these bytes, and no call of the machine runs.
        unsafe { copy(bytes.as_ptr(), self.at.add(from), bytes.len()) };
    }
}

/// A guest that reads and writes while calls run, from a thread of its own.
pub struct BusyGuest(pub Guest);

// SAFETY: its bytes are read and changed by atomic loads and stores alone.
unsafe impl Sync for BusyGuest {}

// SAFETY: a mapping is tied to no thread.
unsafe impl Send for BusyGuest {}

impl BusyGuest {
    /// The number at a multiple of eight bytes.
    pub fn number(&self, from: usize) -> &AtomicU64 {
        assert!(from % 8 == 0 && from + 8 <= self.0.len);
        // SAFETY: the mapping has these bytes, and it is aligned to pages.
        unsafe { AtomicU64::from_ptr(self.0.at.add(from).cast()) }
    }

    /// The number of 16 bits at a multiple of two bytes.
    pub fn word(&self, from: usize) -> &AtomicU16 {
        assert!(from % 2 == 0 && from + 2 <= self.0.len);
        // SAFETY: as above.
        unsafe { AtomicU16::from_ptr(self.0.at.add(from).cast()) }
    }

    /// Stores a value at a multiple of eight bytes, also while a call of the machine runs.
    pub fn store(&self, from: usize, value: u64) {
        self.number(from).store(value, Relaxed);
    }
}

/// Keeps this thread on the processor of this place among those that it may run on, if there are so many.
pub fn stay_on(place: usize) {
    const WORDS: usize = 16;
    let mut processors = [0_u64; WORDS];
    // SAFETY: the declaration fits the function, which is lent so many bytes.
    if unsafe { sched_getaffinity(0, 8 * WORDS, processors.as_mut_ptr()) } < 0 {
        return;
    }
    let mut all = (0..64 * WORDS).filter(|i| processors[i / 64] >> (i % 64) & 1 == 1);
    if let Some(one) = all.nth(place) {
        let mut chosen = [0_u64; WORDS];
        chosen[one / 64] = 1 << (one % 64);
        // SAFETY: as above.
        unsafe { sched_setaffinity(0, 8 * WORDS, chosen.as_ptr()) };
    }
}

impl Drop for Guest {
    fn drop(&mut self) {
        if self.is_mapping {
            // SAFETY: this mapping is its own.
            unsafe { munmap(self.at, self.len) };
        }
    }
}
