//! The allocator that the library calls: memory of each size.

use std::slice;
use std::thread;
use vm_memory_proved::Machine;

// From such a size on the C library maps memory.
const LARGE: usize = 2 << 20;

#[repr(C)]
struct Tried {
    ok: bool,
    at: *mut u8,
}

unsafe extern "C" {
    fn rattle_alloc(size: usize, align: usize) -> Tried;
    fn rattle_realloc(at: *mut u8, kept: usize, size: usize, align: usize) -> Tried;
    fn rattle_dealloc(at: *mut u8);
}

// Memory whose bytes are all one number.
struct Memory {
    at: *mut u8,
    size: usize,
    byte: u8,
}

impl Memory {
    fn new(tried: Tried, size: usize, byte: u8) -> Memory {
        assert!(tried.ok);
        assert_eq!(tried.at as usize % 16, 0, "{size}");
        // SAFETY: the memory has that many bytes, and is this one's alone.
        unsafe { tried.at.write_bytes(byte, size) };
        let at = tried.at;
        Memory { at, size, byte }
    }

    fn has(&self, count: usize) -> bool {
        // SAFETY: the memory has these bytes, and they are written.
        let bytes = unsafe { slice::from_raw_parts(self.at, count) };
        bytes
            .iter()
            .step_by(61)
            .chain(bytes.last())
            .all(|byte| *byte == self.byte)
    }

    fn resize(&mut self, size: usize, byte: u8) {
        let kept = self.size.min(size);
        // SAFETY: the memory is of the allocator, with these bytes.
        let tried = unsafe { rattle_realloc(self.at, kept, size, 1) };
        self.at = tried.at;
        assert!(self.has(kept));
        *self = Memory::new(tried, size, byte);
    }

    fn end(self) {
        assert!(self.has(self.size));
        // SAFETY: the memory is of the allocator, and this is its last use.
        unsafe { rattle_dealloc(self.at) };
    }
}

const SIZES: [usize; 9] = [0, 1, 24, 4096, 200_000, LARGE - 1, LARGE, LARGE + 1, 3 * LARGE];

// Many of each size at a time, each kept, made longer or shorter, and freed, in two threads.
#[test]
fn memory_of_each_size_is_kept_and_freed() {
    // The crate has the allocator.
    drop(Machine::new().unwrap());
    let run = |first: usize| {
        let mut all = Vec::new();
        for i in 0..3_000 {
            let size = if i % 50 == 0 {
                SIZES[i / 50 % 9]
            } else {
                8 + i * 37 % 5_000
            };
            // SAFETY: the declaration fits the function.
            all.push(Memory::new(unsafe { rattle_alloc(size, 1) }, size, (first + i) as u8));
            if i % 7 == 0 {
                let place = i * 31 % all.len();
                all[place].resize(
                    if i % 49 == 0 { SIZES[i / 49 % 9] } else { i % 700 },
                    (first + i + 1) as u8,
                );
            }
            if i % 2 == 0 {
                let place = i * 17 % all.len();
                all.swap_remove(place).end();
            }
        }
        all.into_iter().for_each(Memory::end);
    };
    thread::scope(|scope| {
        scope.spawn(|| run(0));
        scope.spawn(|| run(100));
    });
}

// From each size to each other.
#[test]
fn memory_of_each_size_becomes_any_other() {
    drop(Machine::new().unwrap());
    for from in SIZES {
        for to in SIZES {
            // SAFETY: the declaration fits the function.
            let mut memory = Memory::new(unsafe { rattle_alloc(from, 1) }, from, 3);
            memory.resize(to, 5);
            memory.end();
        }
    }
}

// Memory that cannot be made longer stays.
#[test]
fn a_failure_is_answered() {
    drop(Machine::new().unwrap());
    for size in [1 << 62, (1 << 63) - 1] {
        // SAFETY: the declaration fits the function.
        let tried = unsafe { rattle_alloc(size, 1) };
        assert!(!tried.ok && !tried.at.is_null());
        for from in [24, LARGE] {
            // SAFETY: the declarations fit the functions.
            let memory = Memory::new(unsafe { rattle_alloc(from, 8) }, from, 7);
            let tried = unsafe { rattle_realloc(memory.at, from, size, 8) };
            assert!(!tried.ok && !tried.at.is_null());
            // The memory is as it was.
            memory.end();
        }
    }
}
