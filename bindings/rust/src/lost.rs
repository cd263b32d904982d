//! Memory of another process that goes away while it is mapped here: its file shrinks.

use crate::system;
use std::ffi::c_int;
use std::io;
use std::ptr::null_mut;
use std::sync::atomic::{AtomicBool, AtomicUsize, Ordering::SeqCst};

// A mapping: where it begins, how many bytes it has, and whether its memory went away. Without bytes the place is free;
// with 1 it is about to be taken.
struct Place {
    at: AtomicUsize,
    len: AtomicUsize,
    is_lost: AtomicBool,
}

// So many mappings are guarded in a process.
const PLACES: usize = 1024;
// The handler reads them.
static GUARDED: [Place; PLACES] = [const {
    Place {
        at: AtomicUsize::new(0),
        len: AtomicUsize::new(0),
        is_lost: AtomicBool::new(false),
    }
}; PLACES];
// Something was lost since the process began.
static ANY: AtomicBool = AtomicBool::new(false);

// Called by the system on the thread that touched memory which its file has no more.
extern "C" fn failed(_signal: c_int, about: *const system::Failure, _context: *mut u8) {
    // SAFETY: the system gives the handler of this signal what it knows of it. An access that failed has an address.
    let (code, place) = unsafe { ((*about).code, (*about).place) };
    if code <= 0 {
        // A process sent it: no access failed.
        return;
    }
    for it in &GUARDED {
        let (at, len) = (it.at.load(SeqCst), it.len.load(SeqCst));
        if place.wrapping_sub(at) < len {
            let access = system::PROT_READ | system::PROT_WRITE;
            let flags = system::MAP_PRIVATE | system::MAP_ANONYMOUS | system::MAP_FIXED | system::MAP_NORESERVE;
            // SAFETY: these are the bytes of a mapping to which nothing has a reference, and which are read and written
            // as memory that another process changes. It may be replaced by one of the same length. The call may be
            // made in a handler: it is one call of the system, and takes no lock of this process.
            let new = unsafe { system::mmap(at as *mut u8, len, access, flags, -1, 0) };
            if new as isize != -1 {
                it.is_lost.store(true, SeqCst);
                ANY.store(true, SeqCst);
                return;
            }
        }
    }
    // It is none of these: the access is made again, and ends the process as if there were no handler.
    let usual = system::Action::new(0, 0);
    // SAFETY: the declaration fits the function, which may be called in a handler.
    unsafe { system::sigaction(system::SIGBUS, &usual, null_mut()) };
}

/// Has the process live on if memory of a front end goes away that a [`BackEnd`](crate::back_end::BackEnd) has mapped.
/// Then zeros are mapped there, and [`BackEnd::is_lost`](crate::back_end::BackEnd::is_lost) says so. It takes the
/// process's handler of SIGBUS.
pub fn survive_lost_memory() -> io::Result<()> {
    let handler = failed as extern "C" fn(c_int, *const system::Failure, *mut u8);
    let action = system::Action::new(handler as usize, system::SA_SIGINFO);
    // SAFETY: the declaration fits the function. The handler has the signature that SA_SIGINFO asks for, and calls
    // nothing that a handler may not.
    match unsafe { system::sigaction(system::SIGBUS, &action, null_mut()) } {
        0 => Ok(()),
        _ => Err(io::Error::last_os_error()),
    }
}

/// A mapping that the handler knows, as long as this is there.
pub(crate) struct Guard(&'static Place);

impl Guard {
    /// Guards whole pages. Nothing is guarded past the most of a process.
    pub(crate) fn new((at, len): (usize, usize)) -> io::Result<Guard> {
        let place = GUARDED
            .iter()
            .find(|it| it.len.compare_exchange(0, 1, SeqCst, SeqCst).is_ok());
        let place = place.ok_or(io::Error::other("too many regions are mapped"))?;
        place.is_lost.store(false, SeqCst);
        place.at.store(at, SeqCst);
        place.len.store(len, SeqCst);
        Ok(Guard(place))
    }

    /// Whether the memory went away. What was read of it since then are zeros.
    #[inline]
    pub(crate) fn is_lost(&self) -> bool {
        ANY.load(SeqCst) && self.0.is_lost.load(SeqCst)
    }
}

impl Drop for Guard {
    fn drop(&mut self) {
        self.0.len.store(0, SeqCst);
    }
}
