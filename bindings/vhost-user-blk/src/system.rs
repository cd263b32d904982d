//! The calls of the system that the standard library lacks. All `unsafe` of this program lies here and in uring.rs.

use crate::engine::{Job, What};
use libc::c_int;
use std::fs::File;
use std::io;
use std::mem::{size_of, MaybeUninit};
use std::os::fd::{AsFd, AsRawFd, BorrowedFd, FromRawFd, OwnedFd, RawFd};
use std::ptr::{addr_of_mut, null_mut};
use std::time::Duration;
use vm_memory_proved::{Pieces, Vector, Vectors};

// The result of a call that is -1 if it failed.
fn checked(result: c_int) -> io::Result<c_int> {
    match result {
        -1 => Err(io::Error::last_os_error()),
        result => Ok(result),
    }
}

// The result of a call that opens a descriptor.
fn opened(result: c_int) -> io::Result<OwnedFd> {
    // SAFETY: the system has just opened it, and nothing else has it.
    checked(result).map(|it| unsafe { OwnedFd::from_raw_fd(it) })
}

// ---- waiting

/// A descriptor is ready as long as there is something to read.
pub const LEVEL: c_int = libc::EPOLLIN;

/// It is ready once after each write to it, and need not be read.
pub const EDGE: c_int = libc::EPOLLIN | libc::EPOLLET;

/// What the system watches for this program. Each descriptor has a number.
pub struct Epoll(OwnedFd);

impl Epoll {
    pub fn new() -> io::Result<Epoll> {
        // SAFETY: it takes a number.
        opened(unsafe { libc::epoll_create1(libc::EPOLL_CLOEXEC) }).map(Epoll)
    }

    /// Watches whether a descriptor can be read. Of a file on a disk nothing can be watched: it is refused.
    pub fn watch(&self, descriptor: BorrowedFd<'_>, number: u64, how: c_int) -> io::Result<()> {
        self.control(libc::EPOLL_CTL_ADD, descriptor, number, how)
    }

    /// Watches a descriptor no more.
    pub fn unwatch(&self, descriptor: BorrowedFd<'_>) {
        // It is there.
        let _ = self.control(libc::EPOLL_CTL_DEL, descriptor, 0, 0);
    }

    fn control(&self, what: c_int, descriptor: BorrowedFd<'_>, number: u64, how: c_int) -> io::Result<()> {
        let (events, u64) = (how as u32, number);
        let mut event = libc::epoll_event { events, u64 };
        // SAFETY: the event is read while the call runs.
        checked(unsafe { libc::epoll_ctl(self.0.as_raw_fd(), what, descriptor.as_raw_fd(), &mut event) }).map(drop)
    }

    /// Waits, and puts the numbers of what is ready into `ready`, ascending. `None` waits as long as it takes.
    pub fn wait(&self, time: Option<Duration>, ready: &mut Vec<u64>) -> io::Result<()> {
        const ROOM: usize = 16;
        let mut events = [libc::epoll_event { events: 0, u64: 0 }; ROOM];
        // SAFETY: there is room for `ROOM` events.
        let count = unsafe { libc::epoll_wait(self.0.as_raw_fd(), events.as_mut_ptr(), ROOM as c_int, millis(time)) };
        ready.clear();
        match checked(count) {
            Err(error) if error.kind() != io::ErrorKind::Interrupted => return Err(error),
            count => ready.extend(events.iter().take(count.unwrap_or(0) as usize).map(|it| it.u64)),
        }
        ready.sort_unstable();
        Ok(())
    }
}

/// Waits until one of two descriptors can be read, for a time at most.
pub fn wait_for(descriptors: [BorrowedFd<'_>; 2], time: Option<Duration>) -> io::Result<()> {
    let mut asked = descriptors.map(|it| libc::pollfd {
        fd: it.as_raw_fd(),
        events: libc::POLLIN,
        revents: 0,
    });
    // SAFETY: the pointer and the number are those of the entries.
    match checked(unsafe { libc::poll(asked.as_mut_ptr(), 2, millis(time)) }) {
        Err(error) if error.kind() != io::ErrorKind::Interrupted => Err(error),
        _ => Ok(()),
    }
}

// Of a part of a millisecond it takes a whole one, and -1 for as long as it takes.
fn millis(time: Option<Duration>) -> c_int {
    time.map_or(-1, |time| time.as_nanos().div_ceil(1_000_000).min(1 << 30) as c_int)
}

/// What can be read while it counts something.
pub struct Counter(OwnedFd);

impl Counter {
    pub fn new() -> io::Result<Counter> {
        // SAFETY: it takes numbers.
        opened(unsafe { libc::eventfd(0, libc::EFD_CLOEXEC | libc::EFD_NONBLOCK) }).map(Counter)
    }

    pub fn descriptor(&self) -> BorrowedFd<'_> {
        self.0.as_fd()
    }

    /// Counts one more.
    pub fn count(&self) {
        let one = 1_u64.to_ne_bytes();
        // SAFETY: the pointer and the length are those of the bytes. It fails only if it counted nearly 2^64.
        unsafe { libc::write(self.0.as_raw_fd(), one.as_ptr().cast(), one.len()) };
    }

    /// Begins at 0 again.
    pub fn clear(&self) {
        let mut count = [0; 8];
        // SAFETY: the pointer and the length are those of the bytes. It fails if it is 0.
        unsafe { libc::read(self.0.as_raw_fd(), count.as_mut_ptr().cast(), count.len()) };
    }
}

// ---- guest memory, and the disk

/// Leaves pieces of guest memory in `room`, for a part that is under way.
pub fn keep(pieces: Pieces<'_>, room: &mut Vectors) {
    // SAFETY: what reads and writes them is a job of an engine, which tells the end of the part after it has ended, and
    // device.rs drops a connection only after its engine has nothing under way.
    unsafe { pieces.keep(room) }
}

/// Bytes of this process that stay, of each vector so many, which are 7. Each begins this far after a page.
#[cfg(test)]
pub fn vectors_after(lens: &[usize], offset: usize) -> Vectors {
    let of = |len: &usize| {
        let bytes = Box::leak(vec![7; len + offset + 4096].into_boxed_slice());
        let from = bytes.as_ptr().align_offset(4096) + offset;
        let at = bytes[from..].as_mut_ptr();
        Vector { at, len: *len }
    };
    // SAFETY: they are leaked, and nothing else uses them.
    unsafe { Vectors::new(lens.iter().map(of).collect()) }
}

/// The same, anywhere.
#[cfg(test)]
pub fn vectors_of(lens: &[usize]) -> Vectors {
    vectors_after(lens, 3)
}

/// What these bytes are.
#[cfg(test)]
pub fn bytes_of(vectors: &Vectors) -> Vec<u8> {
    // SAFETY: they are those of `vectors_after` or of a buffer, of which nothing was passed, and nothing is under way.
    let of = |it: &Vector| unsafe { std::slice::from_raw_parts(it.at, it.len) }.to_vec();
    vectors.all().iter().flat_map(of).collect()
}

/// Other vectors of the same bytes.
#[cfg(test)]
pub fn again(vectors: &Vectors) -> Vectors {
    // SAFETY: as for `bytes_of`: they stay.
    unsafe { Vectors::new(vectors.all().to_vec()) }
}

/// Fills them.
#[cfg(test)]
pub fn fill(vectors: &Vectors, mut bytes: &[u8]) {
    for it in vectors.all() {
        let (here, rest) = bytes.split_at(it.len);
        // SAFETY: as for `bytes_of`.
        unsafe { std::ptr::copy_nonoverlapping(here.as_ptr(), it.at, it.len) };
        bytes = rest;
    }
}

// How many bytes a call moved.
fn moved(result: isize) -> io::Result<usize> {
    usize::try_from(result).map_err(|_| io::Error::last_os_error())
}

fn parts_of(vectors: &[Vector]) -> (*const libc::iovec, c_int) {
    (vectors.as_ptr().cast(), vectors.len() as c_int)
}

/// Reads some bytes of a file from a place on into vectors from one on. Of memory that went away it fails by EFAULT.
pub fn read(file: &File, vectors: &Vectors, from: usize, place: u64) -> io::Result<usize> {
    let (file, left, place) = (file.as_raw_fd(), vectors.from(from), place as i64);
    // SAFETY: each vector is bytes of guest memory, which is mapped as `keep` says, and of which this process has no
    // reference. A `Vector` is an `iovec`, and there are as many of them.
    moved(unsafe {
        match left {
            // The call for one takes the system less.
            [it] => libc::pread64(file, it.at.cast(), it.len, place),
            all => {
                let (first, count) = parts_of(all);
                libc::preadv(file, first, count, place)
            }
        }
    })
}

/// Writes some bytes of vectors from one on to a file from a place on.
pub fn write(file: &File, vectors: &Vectors, from: usize, place: u64) -> io::Result<usize> {
    let (file, left, place) = (file.as_raw_fd(), vectors.from(from), place as i64);
    // SAFETY: as for `read`.
    moved(unsafe {
        match left {
            [it] => libc::pwrite64(file, it.at.cast(), it.len, place),
            all => {
                let (first, count) = parts_of(all);
                libc::pwritev(file, first, count, place)
            }
        }
    })
}

/// Reads or writes what needs no wait, and fails by EAGAIN if that is nothing.
pub fn now(file: &File, job: &Job) -> io::Result<usize> {
    let (first, count) = parts_of(job.vectors.from(job.from));
    let (file, place, how) = (file.as_raw_fd(), job.place as i64, libc::RWF_NOWAIT);
    // SAFETY: as for `read`.
    moved(unsafe {
        match job.what {
            What::Read => libc::preadv2(file, first, count, place, how),
            _ => libc::pwritev2(file, first, count, place, how),
        }
    })
}

/// Buffers of one length, in memory that files are read into and written from, too.
pub struct Buffers {
    memory: File,
    at: *mut u8,
    count: usize,
    len: usize,
}

impl Buffers {
    /// So many, each of whole pages.
    pub fn new(count: usize, len: usize) -> io::Result<Buffers> {
        let len = len.next_multiple_of(4096);
        let memory = File::from(vm_memory_proved::memfd((count * len) as u64)?);
        let (access, fd) = (libc::PROT_READ | libc::PROT_WRITE, memory.as_raw_fd());
        // SAFETY: without MAP_FIXED the system takes addresses that nothing has.
        let at = unsafe { libc::mmap(null_mut(), count * len, access, libc::MAP_SHARED, fd, 0) };
        match at {
            libc::MAP_FAILED => Err(io::Error::last_os_error()),
            at => Ok(Buffers {
                memory,
                at: at.cast(),
                count,
                len,
            }),
        }
    }

    /// The first bytes of a buffer.
    pub fn vectors(&self, number: usize, len: usize) -> Vectors {
        assert!(number < self.count && len <= self.len);
        let at = self.at.wrapping_add(number * self.len);
        // SAFETY: the bytes lie in the mapping, which is there until its engine is dropped, which has nothing under way
        // then, or is never dropped. This process has no reference to them.
        unsafe { Vectors::new(vec![Vector { at, len }]) }
    }

    /// Writes guest memory to a buffer from a byte on. Of memory that went away it fails by EFAULT.
    pub fn take(&self, number: usize, from: u64, mut guest: Vectors) -> io::Result<()> {
        let (mut place, mut at) = (self.place(number, from), 0);
        while at < guest.len() {
            let count = write(&self.memory, &guest, at, place)?;
            place += count as u64;
            at = guest.passed(at, count);
        }
        Ok(())
    }

    /// Reads a buffer from a byte on to guest memory.
    pub fn give(&self, number: usize, from: u64, mut guest: Vectors) -> io::Result<()> {
        let (mut place, mut at) = (self.place(number, from), 0);
        while at < guest.len() {
            let count = read(&self.memory, &guest, at, place)?;
            place += count as u64;
            at = guest.passed(at, count);
        }
        Ok(())
    }

    /// Reads the first bytes of a file into a buffer.
    pub fn read_first(&self, file: &File, len: usize) -> io::Result<usize> {
        read(file, &self.vectors(0, len), 0, 0)
    }

    fn place(&self, number: usize, from: u64) -> u64 {
        (number * self.len) as u64 + from
    }
}

impl Drop for Buffers {
    fn drop(&mut self) {
        // SAFETY: the mapping is this one's, and nothing under way has bytes of it.
        unsafe { libc::munmap(self.at.cast(), self.count * self.len) };
    }
}

/// How places and memory have to lie for a file that is opened by O_DIRECT, if the system says so: 0 if it has none.
pub fn blocks_of(file: &File) -> Option<(u64, u64)> {
    const DIOALIGN: u32 = 0x2000;
    // `struct statx`, of which the first word says what is filled in.
    let mut about = [0_u32; 64];
    let (file, at) = (file.as_raw_fd(), about.as_mut_ptr());
    // SAFETY: the name is a text that ends with 0, and there is room for the 256 bytes of the answer.
    let done = unsafe { libc::syscall(libc::SYS_statx, file, c"".as_ptr(), libc::AT_EMPTY_PATH, DIOALIGN, at) };
    (done == 0 && about[0] & DIOALIGN != 0).then_some((about[38].into(), about[39].into()))
}

// ---- locks, and descriptors that are inherited

/// Locks a file, alone or with others that only read, as long as it is open: by this process, or by the system, which
/// still reads or writes it for a process that was killed. `WouldBlock` if a lock of another opening forbids it.
pub fn lock(file: &File, is_alone: bool) -> io::Result<()> {
    let kind = if is_alone { libc::LOCK_EX } else { libc::LOCK_SH };
    // SAFETY: it takes numbers.
    checked(unsafe { libc::flock(file.as_raw_fd(), kind | libc::LOCK_NB) }).map(drop)
}

/// Takes a descriptor that this process was started with, before the process opened any.
pub fn inherited(number: RawFd) -> io::Result<OwnedFd> {
    // SAFETY: it takes numbers. It fails if nothing has this one.
    checked(unsafe { libc::fcntl(number, libc::F_SETFD, libc::FD_CLOEXEC) })?;
    // SAFETY: it is open, the process has opened nothing that could have this number, and it is taken once.
    Ok(unsafe { OwnedFd::from_raw_fd(number) })
}

/// A property of a socket that is a number.
pub fn socket_option(socket: &OwnedFd, option: c_int) -> io::Result<c_int> {
    let (mut value, mut len) = (0 as c_int, size_of::<c_int>() as libc::socklen_t);
    let (fd, at) = (socket.as_raw_fd(), addr_of_mut!(value).cast());
    // SAFETY: there is room for the number and for its length.
    checked(unsafe { libc::getsockopt(fd, libc::SOL_SOCKET, option, at, &mut len) }).map(|_| value)
}

// ---- signals

/// What signals are read from, which do nothing else from now on, in this thread and in those that begin later: those
/// that end the process, SIGHUP, and that of a write past the longest file.
pub fn signals() -> io::Result<File> {
    let mut set = MaybeUninit::uninit();
    // SAFETY: the first call fills the set in, the others read and write it.
    unsafe {
        checked(libc::sigemptyset(set.as_mut_ptr()))?;
        for number in [libc::SIGTERM, libc::SIGINT, libc::SIGHUP, libc::SIGXFSZ] {
            checked(libc::sigaddset(set.as_mut_ptr(), number))?;
        }
        checked(libc::sigprocmask(libc::SIG_BLOCK, set.as_ptr(), null_mut()))?;
        let flags = libc::SFD_CLOEXEC | libc::SFD_NONBLOCK;
        opened(libc::signalfd(-1, set.as_ptr(), flags)).map(File::from)
    }
}
