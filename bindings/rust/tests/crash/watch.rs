//! Stops before each store to some memory, and keeps what this has then. The memory can only be read meanwhile, so that
//! a store has the system raise a signal. Its handler keeps the bytes, lets one instruction through, and then the
//! memory can only be read again.

use super::{KEPT, REGION};
use crate::guest::Guest;
use std::ffi::c_int;
use std::ptr::{copy_nonoverlapping, null_mut};
use std::sync::atomic::{AtomicBool, AtomicPtr, AtomicUsize, Ordering::SeqCst};

// Of the C library, as Linux on x86-64 has it.
unsafe extern "C" {
    fn sigaction(signal: c_int, action: *const Action, before: *mut Action) -> c_int;
    fn mprotect(at: *mut u8, len: usize, access: c_int) -> c_int;
}

const SIGTRAP: c_int = 5;
const SIGSEGV: c_int = 11;
const SA_SIGINFO: c_int = 4;
const ONLY_READ: c_int = 1;
const READ_AND_WRITE: c_int = 3;
// The flags of the processor in what a handler gets of its registers, and the one that stops it after an instruction.
const FLAGS: usize = 40 + 17 * 8;
const TRAP: u64 = 0x100;

#[repr(C)]
struct Action {
    handler: usize,
    mask: [u64; 16],
    flags: c_int,
    restorer: usize,
}

// What the system tells the handler of an access.
#[repr(C)]
struct Failure {
    numbers: [c_int; 4],
    place: usize,
}

/// How many bytes are kept for each store.
pub const IMAGE: usize = KEPT + REGION;

// So many stores have room.
const ROOM: usize = 4096;

// What is watched: where its bytes begin for the back end, and for who copies them.
static AT: [AtomicUsize; 2] = [const { AtomicUsize::new(0) }; 2];
static COPIED: [AtomicPtr<u8>; 2] = [const { AtomicPtr::new(null_mut()) }; 2];
const LENS: [usize; 2] = [KEPT, REGION];
static IS_ARMED: AtomicBool = AtomicBool::new(false);
static IMAGES: AtomicPtr<u8> = AtomicPtr::new(null_mut());
static COUNT: AtomicUsize = AtomicUsize::new(0);

fn protect(access: c_int) {
    for (at, len) in AT.iter().zip(LENS) {
        // SAFETY: the declaration fits the function. The mappings are there as long as they are watched, and may be
        // read and written otherwise.
        let done = unsafe { mprotect(at.load(SeqCst) as *mut u8, len, access) };
        assert_eq!(done, 0);
    }
}

fn keep() {
    let count = COUNT.fetch_add(1, SeqCst);
    if count >= ROOM {
        return;
    }
    let mut to = count * IMAGE;
    for (from, len) in COPIED.iter().zip(LENS) {
        // SAFETY: both have so many bytes, and nothing else has these of the images.
        unsafe { copy_nonoverlapping(from.load(SeqCst), IMAGES.load(SeqCst).add(to), len) };
        to += len;
    }
}

extern "C" fn stores(_signal: c_int, about: *const Failure, context: *mut u8) {
    // SAFETY: the system gives the handler of this signal what it knows of it.
    let place = unsafe { (*about).place };
    let is_watched = AT
        .iter()
        .zip(LENS)
        .any(|(at, len)| place.wrapping_sub(at.load(SeqCst)) < len);
    if !is_watched || !IS_ARMED.load(SeqCst) {
        // The access is made again, and ends the process.
        set(SIGSEGV, 0, 0);
        return;
    }
    keep();
    protect(READ_AND_WRITE);
    // SAFETY: these are the flags of the thread that goes on after the handler.
    unsafe { *context.add(FLAGS).cast::<u64>() |= TRAP };
}

extern "C" fn stored(_signal: c_int, _about: *const Failure, context: *mut u8) {
    protect(ONLY_READ);
    // SAFETY: as in `stores`.
    unsafe { *context.add(FLAGS).cast::<u64>() &= !TRAP };
}

fn set(signal: c_int, handler: usize, flags: c_int) {
    let action = Action {
        handler,
        mask: [0; 16],
        flags,
        restorer: 0,
    };
    // SAFETY: the declaration fits the function, and each handler has the signature that its flags ask for.
    assert_eq!(unsafe { sigaction(signal, &action, null_mut()) }, 0);
}

/// What watches: one in a process, whose other threads do not touch what is watched.
pub struct Watch {
    images: Vec<u8>,
}

impl Watch {
    pub fn new() -> Watch {
        let mut images = vec![0; ROOM * IMAGE];
        IMAGES.store(images.as_mut_ptr(), SeqCst);
        type Handler = extern "C" fn(c_int, *const Failure, *mut u8);
        for (signal, handler) in [(SIGSEGV, stores as Handler), (SIGTRAP, stored)] {
            set(signal, handler as usize, SA_SIGINFO);
        }
        Watch { images }
    }

    /// Runs something that stores to mappings at these addresses, whose bytes others have there, too. Returns what was
    /// there before each store.
    pub fn during(&mut self, at: [usize; 2], shown: [&Guest; 2], run: impl FnOnce()) -> Vec<Vec<u8>> {
        for i in 0..2 {
            AT[i].store(at[i], SeqCst);
            COPIED[i].store(shown[i].at(), SeqCst);
        }
        COUNT.store(0, SeqCst);
        IS_ARMED.store(true, SeqCst);
        protect(ONLY_READ);
        run();
        protect(READ_AND_WRITE);
        IS_ARMED.store(false, SeqCst);
        let count = COUNT.load(SeqCst);
        assert!(count <= ROOM, "{count} stores have no room");
        self.images[..count * IMAGE]
            .chunks_exact(IMAGE)
            .map(<[u8]>::to_vec)
            .collect()
    }
}
