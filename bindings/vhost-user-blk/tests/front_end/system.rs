//! The calls of the system that a front end makes.

use super::LONG;
use std::fs::File;
use std::io::{Error, ErrorKind, Read, Write};
use std::mem::{size_of_val, zeroed};
use std::os::fd::{AsRawFd, FromRawFd, OwnedFd, RawFd};
use std::os::unix::net::UnixStream;
use std::ptr::{copy, null_mut};
use std::sync::atomic::{AtomicU16, AtomicU64};
use std::time::Duration;

/// What a clock says, in nanoseconds.
pub fn time_of(clock: libc::clockid_t) -> u64 {
    let mut time = libc::timespec { tv_sec: 0, tv_nsec: 0 };
    // SAFETY: it writes a time, and the pointer is that of one.
    assert_eq!(unsafe { libc::clock_gettime(clock, &mut time) }, 0);
    time.tv_sec as u64 * 1_000_000_000 + time.tv_nsec as u64
}

/// A counter that wakes whoever waits for it.
pub fn eventfd() -> OwnedFd {
    // SAFETY: it takes numbers.
    let fd = unsafe { libc::eventfd(0, libc::EFD_CLOEXEC | libc::EFD_NONBLOCK) };
    assert!(fd >= 0);
    // SAFETY: the system has just opened it.
    unsafe { OwnedFd::from_raw_fd(fd) }
}

/// Has reads and writes of an open file wait, or not.
pub fn set_waiting(fd: &impl AsRawFd, waits: bool) {
    let flags = if waits { 0 } else { libc::O_NONBLOCK };
    // SAFETY: it takes numbers.
    assert_eq!(unsafe { libc::fcntl(fd.as_raw_fd(), libc::F_SETFL, flags) }, 0);
}

/// Fills a counter, so that the next write to it would wait. Who writes to it between the two steps has it taken again.
pub fn fill(counter: &OwnedFd) {
    loop {
        take(counter);
        match File::from(again(counter)).write(&(u64::MAX - 1).to_ne_bytes()) {
            Ok(8) => return,
            Err(error) if error.kind() == ErrorKind::WouldBlock => (),
            other => panic!("{other:?}"),
        }
    }
}

/// The end of a pipe that is read, and the one that is written.
pub fn pipe() -> [OwnedFd; 2] {
    let mut ends = [0; 2];
    // SAFETY: it fills in both.
    assert_eq!(unsafe { libc::pipe2(ends.as_mut_ptr(), libc::O_CLOEXEC) }, 0);
    // SAFETY: the system has just opened them.
    ends.map(|end| unsafe { OwnedFd::from_raw_fd(end) })
}

/// Whether a descriptor can be read within a time.
pub fn can_read(fd: &impl AsRawFd, time: Duration) -> bool {
    wait(&[fd.as_raw_fd()], time)
}

/// Waits until one of these can be read, for a time at most.
pub fn wait(descriptors: &[RawFd], time: Duration) -> bool {
    wait_for(descriptors, libc::POLLIN, time)
}

fn wait_for(descriptors: &[RawFd], events: i16, time: Duration) -> bool {
    let of = |&fd: &RawFd| libc::pollfd { fd, events, revents: 0 };
    let mut asked: Vec<_> = descriptors.iter().map(of).collect();
    // SAFETY: the pointer and the number are those of the entries.
    unsafe { libc::poll(asked.as_mut_ptr(), asked.len() as u64, time.as_millis() as i32) > 0 }
}

/// Another descriptor of the same open file.
pub fn again(fd: &OwnedFd) -> OwnedFd {
    fd.try_clone().unwrap()
}

pub fn write_one(fd: &OwnedFd) {
    File::from(again(fd)).write_all(&1_u64.to_ne_bytes()).unwrap();
}

/// What a counter has, which is 0 then. One whose reads wait is not waited for.
pub fn take(fd: &OwnedFd) -> u64 {
    let mut bytes = [0; 8];
    if !can_read(fd, Duration::ZERO) {
        return 0;
    }
    match File::from(again(fd)).read(&mut bytes) {
        Ok(8) => u64::from_ne_bytes(bytes),
        _ => 0,
    }
}

/// Sends bytes with descriptors, and waits for room if the socket does not. False if the other end is gone.
pub fn send(socket: &UnixStream, bytes: &[u8], descriptors: &[RawFd]) -> bool {
    let mut part = libc::iovec {
        iov_base: bytes.as_ptr().cast_mut().cast(),
        iov_len: bytes.len(),
    };
    let mut control = [0_u64; 64];
    // SAFETY: numbers and pointers may be 0.
    let mut message: libc::msghdr = unsafe { zeroed() };
    message.msg_iov = &mut part;
    message.msg_iovlen = 1;
    if !descriptors.is_empty() {
        let size = size_of_val(descriptors) as u32;
        message.msg_control = control.as_mut_ptr().cast();
        // SAFETY: the control has room for the descriptors, of which the header and the data are filled in.
        unsafe {
            message.msg_controllen = libc::CMSG_SPACE(size) as _;
            assert!(message.msg_controllen as usize <= size_of_val(&control));
            let header = libc::CMSG_FIRSTHDR(&message);
            (*header).cmsg_level = libc::SOL_SOCKET;
            (*header).cmsg_type = libc::SCM_RIGHTS;
            (*header).cmsg_len = libc::CMSG_LEN(size) as _;
            copy(descriptors.as_ptr(), libc::CMSG_DATA(header).cast(), descriptors.len());
        }
    }
    loop {
        // SAFETY: the message is whole.
        let sent = unsafe { libc::sendmsg(socket.as_raw_fd(), &message, libc::MSG_NOSIGNAL) };
        if sent >= 0 || Error::last_os_error().kind() != ErrorKind::WouldBlock {
            return sent == bytes.len() as isize;
        }
        let has_room = wait_for(&[socket.as_raw_fd()], libc::POLLOUT, LONG);
        assert!(has_room, "the back end reads nothing");
    }
}

/// Receives as many bytes, and a descriptor if one comes with them.
pub fn receive(socket: &UnixStream, bytes: &mut [u8]) -> Option<OwnedFd> {
    let mut part = libc::iovec {
        iov_base: bytes.as_mut_ptr().cast(),
        iov_len: bytes.len(),
    };
    let mut control = [0_u64; 8];
    // SAFETY: numbers and pointers may be 0.
    let mut message: libc::msghdr = unsafe { zeroed() };
    message.msg_iov = &mut part;
    message.msg_iovlen = 1;
    message.msg_control = control.as_mut_ptr().cast();
    message.msg_controllen = size_of_val(&control) as _;
    // SAFETY: the message is whole, and its parts have as many bytes as it says.
    let count = unsafe { libc::recvmsg(socket.as_raw_fd(), &mut message, libc::MSG_CMSG_CLOEXEC) };
    assert_eq!((count, message.msg_flags & libc::MSG_CTRUNC), (bytes.len() as isize, 0));
    // SAFETY: the system has filled the control in, and what it opened is nobody else's.
    unsafe {
        let header = libc::CMSG_FIRSTHDR(&message);
        if header.is_null() {
            return None;
        }
        assert_eq!((*header).cmsg_len as usize, libc::CMSG_LEN(4) as usize);
        Some(OwnedFd::from_raw_fd(
            libc::CMSG_DATA(header).cast::<RawFd>().read_unaligned(),
        ))
    }
}

/// Leaves a socket room for a few parts of what is sent.
pub fn narrow(socket: &UnixStream) {
    let size = 1_i32;
    // SAFETY: the pointer and the length are those of the number.
    let done = unsafe {
        libc::setsockopt(
            socket.as_raw_fd(),
            libc::SOL_SOCKET,
            libc::SO_SNDBUF,
            (&raw const size).cast(),
            size_of_val(&size) as u32,
        )
    };
    assert_eq!(done, 0);
}

/// A memfd that may shrink, sparse, of which nothing was written.
pub fn memfd(size: usize) -> OwnedFd {
    // SAFETY: the name is a text that ends with 0.
    let fd = unsafe { libc::memfd_create(c"ram".as_ptr(), libc::MFD_CLOEXEC) };
    assert!(fd >= 0);
    // SAFETY: the system has just opened it.
    let fd = unsafe { OwnedFd::from_raw_fd(fd) };
    File::from(again(&fd)).set_len(size as u64).unwrap();
    fd
}

/// Bytes of a file that another process has, too.
pub struct Map {
    at: *mut u8,
    len: usize,
}

impl Map {
    pub fn new(file: &OwnedFd, offset: u64, len: usize) -> Map {
        let access = libc::PROT_READ | libc::PROT_WRITE;
        let place = offset as libc::off_t;
        // SAFETY: the system takes addresses that nothing has.
        let at = unsafe { libc::mmap(null_mut(), len, access, libc::MAP_SHARED, file.as_raw_fd(), place) };
        assert_ne!(at, libc::MAP_FAILED);
        Map { at: at.cast(), len }
    }

    pub fn len(&self) -> usize {
        self.len
    }

    pub fn read(&self, from: usize, bytes: &mut [u8]) {
        assert!(from + bytes.len() <= self.len);
        // SAFETY: both have these bytes.
        unsafe { copy(self.at.add(from), bytes.as_mut_ptr(), bytes.len()) };
    }

    pub fn write(&self, from: usize, bytes: &[u8]) {
        assert!(from + bytes.len() <= self.len);
        // SAFETY: both have these bytes.
        unsafe { copy(bytes.as_ptr(), self.at.add(from), bytes.len()) };
    }

    /// Whether all bytes are these.
    pub fn is(&self, bytes: &[u8]) -> bool {
        assert_eq!(self.len, bytes.len());
        // SAFETY: both have as many bytes.
        unsafe { libc::memcmp(self.at.cast(), bytes.as_ptr().cast(), self.len) == 0 }
    }

    pub fn half(&self, from: usize) -> &AtomicU16 {
        assert!(from % 2 == 0 && from + 2 <= self.len);
        // SAFETY: a mapping is aligned to pages, and has these bytes as long as `self` is there.
        unsafe { AtomicU16::from_ptr(self.at.add(from).cast()) }
    }

    pub fn word(&self, from: usize) -> &AtomicU64 {
        assert!(from % 8 == 0 && from + 8 <= self.len);
        // SAFETY: as above.
        unsafe { AtomicU64::from_ptr(self.at.add(from).cast()) }
    }
}

// SAFETY: a mapping is tied to no thread.
unsafe impl Send for Map {}

impl Drop for Map {
    fn drop(&mut self) {
        // SAFETY: this mapping is its own, and nothing points there.
        unsafe { libc::munmap(self.at.cast(), self.len) };
    }
}
