//! The allocator that the static library calls: that of the C library.

use crate::ffi;
use std::sync::atomic::AtomicU8;

// Whether there is memory, and where. A failure points to a byte that is here for it.
#[repr(C)]
struct Tried {
    ok: bool,
    at: *mut u8,
}

static NOTHING: AtomicU8 = AtomicU8::new(0);

fn tried(at: *mut u8) -> Tried {
    Tried {
        ok: !at.is_null(),
        at: if at.is_null() { NOTHING.as_ptr() } else { at },
    }
}

// SAFETY: no other library has a function of this name beside the allocator of Rattle, in whose place this one is.
#[unsafe(no_mangle)]
extern "C" fn rattle_alloc(size: usize, align: usize) -> Tried {
    // SAFETY: the declaration fits the function, which may be asked for any size.
    tried(unsafe { ffi::malloc(if size == 0 { align } else { size }) })
}

// SAFETY: as above. The library gives what it got of this allocator, frees it once, and has the bytes that it keeps.
#[unsafe(no_mangle)]
unsafe extern "C" fn rattle_realloc(at: *mut u8, _kept: usize, size: usize, align: usize) -> Tried {
    // SAFETY: the declaration fits the function, and all memory of the library is of `malloc`.
    tried(unsafe { ffi::realloc(at, if size == 0 { align } else { size }) })
}

// SAFETY: as above.
#[unsafe(no_mangle)]
unsafe extern "C" fn rattle_dealloc(at: *mut u8) {
    // SAFETY: as above.
    unsafe { ffi::free(at) }
}
