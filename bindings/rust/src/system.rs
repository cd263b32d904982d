//! The calls of the system, with their numbers, as Linux on x86-64 and the C library have them.

use std::ffi::{c_char, c_int, c_long, c_uint};
use std::ptr::null_mut;

unsafe extern "C" {
    pub(crate) fn mmap(at: *mut u8, size: usize, access: c_int, flags: c_int, fd: c_int, offset: i64) -> *mut u8;

    pub(crate) fn munmap(at: *mut u8, size: usize) -> c_int;

    pub(crate) fn fstatfs(fd: c_int, about: *mut FileSystem) -> c_int;

    pub(crate) fn memfd_create(name: *const c_char, flags: c_uint) -> c_int;

    pub(crate) fn fcntl(fd: c_int, command: c_int, ...) -> c_int;

    pub(crate) fn sysconf(name: c_int) -> c_long;

    pub(crate) fn recvmsg(fd: c_int, message: *mut Message, flags: c_int) -> isize;

    pub(crate) fn sendmsg(fd: c_int, message: *const Message, flags: c_int) -> isize;

    pub(crate) fn pread64(fd: c_int, bytes: *mut u8, size: usize, place: i64) -> isize;

    pub(crate) fn pwrite64(fd: c_int, bytes: *const u8, size: usize, place: i64) -> isize;

    pub(crate) fn preadv(fd: c_int, vectors: *const Vector, count: c_int, place: i64) -> isize;

    pub(crate) fn pwritev(fd: c_int, vectors: *const Vector, count: c_int, place: i64) -> isize;

    pub(crate) fn preadv2(fd: c_int, vectors: *const Vector, count: c_int, place: i64, flags: c_int) -> isize;

    pub(crate) fn splice(from: c_int, at: *mut i64, to: c_int, place: *mut i64, most: usize, flags: c_uint) -> isize;

    pub(crate) fn gettid() -> c_int;

    pub(crate) fn tgkill(process: c_int, thread: c_int, signal: c_int) -> c_int;

    pub(crate) fn sigaction(signal: c_int, action: *const Action, before: *mut Action) -> c_int;
}

pub(crate) const PROT_READ: c_int = 1;
pub(crate) const PROT_WRITE: c_int = 2;
pub(crate) const MAP_SHARED: c_int = 1;
pub(crate) const MAP_PRIVATE: c_int = 2;
pub(crate) const MAP_FIXED: c_int = 0x10;
pub(crate) const MAP_ANONYMOUS: c_int = 0x20;
pub(crate) const MAP_NORESERVE: c_int = 0x4000;
pub(crate) const MFD_CLOEXEC: c_uint = 1;
pub(crate) const MFD_ALLOW_SEALING: c_uint = 2;
pub(crate) const F_ADD_SEALS: c_int = 1033;
pub(crate) const F_SEAL_SHRINK: c_int = 2;
pub(crate) const SC_PAGESIZE: c_int = 30;
pub(crate) const HUGETLBFS: i64 = 0x9584_58f6;
pub(crate) const SOL_SOCKET: c_int = 1;
pub(crate) const SCM_RIGHTS: c_int = 1;
pub(crate) const MSG_CTRUNC: c_int = 8;
pub(crate) const MSG_DONTWAIT: c_int = 0x40;
pub(crate) const MSG_NOSIGNAL: c_int = 0x4000;
pub(crate) const MSG_CMSG_CLOEXEC: c_int = 0x4000_0000;
pub(crate) const EFAULT: c_int = 14;
pub(crate) const SIGBUS: c_int = 7;
pub(crate) const SIGALRM: c_int = 14;
pub(crate) const SA_SIGINFO: c_int = 4;
pub(crate) const F_GETFL: c_int = 3;
pub(crate) const F_SETFL: c_int = 4;
pub(crate) const O_NONBLOCK: c_int = 0x800;
pub(crate) const SPLICE_F_NONBLOCK: c_uint = 2;
pub(crate) const RWF_NOWAIT: c_int = 8;

/// What the system says of a file system.
#[repr(C)]
pub(crate) struct FileSystem {
    pub(crate) kind: i64,
    pub(crate) block_size: i64,
    rest: [u64; 13],
}

/// Some bytes, as the system takes them: an `iovec`.
#[repr(C)]
#[derive(Clone, Copy, Debug)]
pub struct Vector {
    /// Where the first one lies.
    pub at: *mut u8,
    /// How many there are.
    pub len: usize,
}

/// A message on a socket: its bytes, and what comes beside them.
#[repr(C)]
pub(crate) struct Message {
    name: *mut u8,
    name_len: c_uint,
    pub(crate) vectors: *mut Vector,
    pub(crate) count: usize,
    pub(crate) control: *mut u8,
    pub(crate) control_len: usize,
    pub(crate) flags: c_int,
}

impl Message {
    /// One part, and what goes beside it or room for what comes there.
    pub(crate) fn new(part: &mut Vector, control: &mut [u64]) -> Message {
        Message {
            name: null_mut(),
            name_len: 0,
            vectors: part,
            count: 1,
            control: control.as_mut_ptr().cast(),
            control_len: size_of_val(control),
            flags: 0,
        }
    }
}

/// What a signal does.
#[repr(C)]
pub(crate) struct Action {
    handler: usize,
    mask: [u64; 16],
    flags: c_int,
    restorer: usize,
}

impl Action {
    /// The handler 0 is what the system does by itself.
    pub(crate) fn new(handler: usize, flags: c_int) -> Action {
        Action {
            handler,
            mask: [0; 16],
            flags,
            restorer: 0,
        }
    }
}

/// What the system tells the handler of an access that failed.
#[repr(C)]
pub(crate) struct Failure {
    pub(crate) numbers: [c_int; 2],
    /// Above 0 if no process sent the signal.
    pub(crate) code: c_int,
    /// The address.
    pub(crate) place: usize,
}
