//! The kernel's rings of requests, io_uring, by its calls of the system and the memory that it shares.
//!
//! Requests are written to a ring of entries. One call has the kernel take all of them, and it writes what came of each
//! to a second ring, in the order in which they end. All `unsafe` of the program that is not here is in system.rs.

use crate::engine::{Done, Job, System, What};
use crate::system;
use libc::{c_int, c_void};
use std::fs::File;
use std::io;
use std::os::fd::{AsFd, AsRawFd, BorrowedFd, FromRawFd, OwnedFd};
use std::ptr::{null_mut, NonNull};
use std::sync::atomic::{AtomicU32, Ordering::Acquire, Ordering::Relaxed, Ordering::Release};
use std::sync::Arc;

// From linux/io_uring.h.
const SETUP_CLAMP: u32 = 1 << 4;
const SETUP_COOP_TASKRUN: u32 = 1 << 8;
const SETUP_SINGLE_ISSUER: u32 = 1 << 12;
const FEAT_SINGLE_MMAP: u32 = 1;
const FEAT_NODROP: u32 = 1 << 1;
const FEAT_SUBMIT_STABLE: u32 = 1 << 2;
const FEAT_RW_CUR_POS: u32 = 1 << 3;
const ENTER_GETEVENTS: u32 = 1;
const OFF_SQ_RING: i64 = 0;
const OFF_SQES: i64 = 0x1000_0000;
const OP_NOP: u8 = 0;
const OP_READV: u8 = 1;
const OP_WRITEV: u8 = 2;
const OP_FSYNC: u8 = 3;
const OP_READ: u8 = 22;
const OP_WRITE: u8 = 23;
const FSYNC_DATASYNC: u32 = 1;
// The kernel does not try at once, but has a thread of its own serve it.
const SQE_ASYNC: u8 = 1 << 4;

// All entries of the second ring are there, vectors are read as they are submitted, and reads have a place: Linux 5.6.
const NEEDED: u32 = FEAT_SINGLE_MMAP | FEAT_NODROP | FEAT_SUBMIT_STABLE | FEAT_RW_CUR_POS;

// How many entries the first ring has at most. The second one has twice as many.
const MOST: usize = 4096;

// Where the parts of the first ring lie in the memory that is shared.
#[repr(C)]
#[derive(Default)]
struct SubmissionOffsets {
    head: u32,
    tail: u32,
    ring_mask: u32,
    ring_entries: u32,
    flags: u32,
    dropped: u32,
    array: u32,
    reserved: u32,
    user_addr: u64,
}

// The same of the second ring.
#[repr(C)]
#[derive(Default)]
struct CompletionOffsets {
    head: u32,
    tail: u32,
    ring_mask: u32,
    ring_entries: u32,
    overflow: u32,
    cqes: u32,
    flags: u32,
    reserved: u32,
    user_addr: u64,
}

// `io_uring_params`.
#[repr(C)]
#[derive(Default)]
struct Parameters {
    sq_entries: u32,
    cq_entries: u32,
    flags: u32,
    sq_thread_cpu: u32,
    sq_thread_idle: u32,
    features: u32,
    wq_fd: u32,
    reserved: [u32; 3],
    sq_off: SubmissionOffsets,
    cq_off: CompletionOffsets,
}

// `io_uring_sqe`.
#[repr(C)]
#[derive(Clone, Copy, Default)]
struct Submission {
    opcode: u8,
    flags: u8,
    priority: u16,
    fd: i32,
    offset: u64,
    address: u64,
    len: u32,
    how: u32,
    user_data: u64,
    reserved: [u64; 3],
}

// `io_uring_cqe`.
#[repr(C)]
#[derive(Clone, Copy)]
struct Completion {
    user_data: u64,
    result: i32,
    _flags: u32,
}

const _: () = assert!(size_of::<Parameters>() == 120 && size_of::<Submission>() == 64 && size_of::<Completion>() == 16);

// Memory that the kernel shares. It is unmapped when this is dropped.
struct Shared {
    at: NonNull<u8>,
    len: usize,
}

impl Shared {
    fn new(ring: &OwnedFd, len: usize, offset: i64) -> io::Result<Shared> {
        let access = libc::PROT_READ | libc::PROT_WRITE;
        let flags = libc::MAP_SHARED | libc::MAP_POPULATE;
        // SAFETY: without MAP_FIXED the system takes addresses that nothing has.
        let at = unsafe { libc::mmap(null_mut(), len, access, flags, ring.as_raw_fd(), offset) };
        match NonNull::new(at.cast::<u8>()) {
            Some(it) if at != libc::MAP_FAILED => Ok(Shared { at: it, len }),
            _ => Err(io::Error::last_os_error()),
        }
    }

    // A number that the kernel reads or writes, too.
    fn word(&self, offset: u32) -> &AtomicU32 {
        assert!(offset % 4 == 0 && offset as usize + 4 <= self.len);
        // SAFETY: it lies in the mapping, which is aligned to pages and there as long as `self` is. Both sides read and
        // write it as a whole.
        unsafe { AtomicU32::from_ptr(self.at.as_ptr().add(offset as usize).cast()) }
    }

    // Entries of a ring.
    fn entries<T>(&self, offset: u32, count: u32) -> *mut T {
        let len = count as usize * size_of::<T>();
        assert!(offset as usize % align_of::<T>() == 0 && offset as usize + len <= self.len);
        // SAFETY: they lie in the mapping.
        unsafe { self.at.as_ptr().add(offset as usize).cast() }
    }
}

impl Drop for Shared {
    fn drop(&mut self) {
        // SAFETY: the mapping is this one's, and what points there goes with it. The kernel keeps its own.
        unsafe { libc::munmap(self.at.as_ptr().cast(), self.len) };
    }
}

/// Both rings, for one file.
pub struct Uring {
    file: Arc<File>,
    ring: OwnedFd,
    shared: Shared,
    // The entries of the first ring, each at its own place.
    _entries: Shared,
    submissions: *mut Submission,
    completions: *const Completion,
    parameters: Parameters,
    // What was written to the first ring, and how much of it the kernel was not told.
    tail: u32,
    new: u32,
    // What the kernel has under way, by its number, and the sync.
    jobs: Vec<Option<Job>>,
    sync: Option<Job>,
}

impl Uring {
    /// Has the kernel make rings for so many requests, if it allows that, and tries them.
    pub fn new(file: Arc<File>, count: usize) -> io::Result<Uring> {
        let (ring, parameters) = made(count.clamp(8, MOST) as u32)?;
        let (sq, cq) = (&parameters.sq_off, &parameters.cq_off);
        let ends = [
            sq.array as usize + 4 * parameters.sq_entries as usize,
            cq.cqes as usize + size_of::<Completion>() * parameters.cq_entries as usize,
        ];
        let shared = Shared::new(&ring, ends[0].max(ends[1]), OFF_SQ_RING)?;
        let len = size_of::<Submission>() * parameters.sq_entries as usize;
        let entries = Shared::new(&ring, len, OFF_SQES)?;
        // Each place of the ring has the entry of its number, for good.
        for place in 0..parameters.sq_entries {
            shared.word(sq.array + 4 * place).store(place, Relaxed);
        }
        let (submissions, completions) = (
            entries.entries(0, parameters.sq_entries),
            shared.entries(cq.cqes, parameters.cq_entries),
        );
        let tail = shared.word(sq.tail).load(Relaxed);
        let mut rings = Uring {
            file,
            ring,
            shared,
            _entries: entries,
            submissions,
            completions,
            parameters,
            tail,
            new: 0,
            jobs: Vec::new(),
            sync: None,
        };
        rings.try_one()?;
        Ok(rings)
    }

    // Has the kernel do nothing, once: what makes rings may be allowed, and what serves them not.
    fn try_one(&mut self) -> io::Result<()> {
        self.put(Submission {
            opcode: OP_NOP,
            ..Submission::default()
        });
        self.enter(1)?;
        self.next().map(|_| ()).ok_or(io::ErrorKind::TimedOut.into())
    }

    // Writes an entry.
    fn put(&mut self, entry: Submission) {
        assert!(self.new < self.parameters.sq_entries, "there is room");
        let place = self.tail & (self.parameters.sq_entries - 1);
        // SAFETY: the place is below the number of entries, which is a power of two. The kernel has taken what was
        // there, and reads this one after the tail was stored.
        unsafe { self.submissions.add(place as usize).write(entry) };
        self.tail = self.tail.wrapping_add(1);
        self.new += 1;
    }

    // Has the kernel take what is new, and waits until as many have ended. Returns whether it took all.
    fn enter(&mut self, ends: u32) -> io::Result<bool> {
        let tail = self.shared.word(self.parameters.sq_off.tail);
        tail.store(self.tail, Release);
        while self.new > 0 {
            let flags = if ends > 0 { ENTER_GETEVENTS } else { 0 };
            let (ring, none) = (self.ring.as_raw_fd(), null_mut::<c_void>());
            // SAFETY: the ring is open, and there is no mask of signals. What the kernel takes are entries that `put`
            // wrote: of guest memory, which is mapped as long as it has it under way (`keep` in system.rs), and of
            // vectors, which it reads before it returns.
            let took = unsafe { libc::syscall(libc::SYS_io_uring_enter, ring, self.new, ends, flags, none, 0_usize) };
            match u32::try_from(took) {
                Ok(took) => self.new -= took.min(self.new),
                Err(_) => {
                    let error = io::Error::last_os_error();
                    match error.raw_os_error() {
                        Some(libc::EINTR) => (),
                        // It lacks memory, or has ends that were not taken.
                        Some(libc::EAGAIN | libc::EBUSY) => return Ok(false),
                        _ => return Err(error),
                    }
                }
            }
        }
        Ok(true)
    }

    // The number of what ended next, and how.
    fn next(&mut self) -> Option<(u64, i32)> {
        let offsets = &self.parameters.cq_off;
        let (head, tail) = (self.shared.word(offsets.head), self.shared.word(offsets.tail));
        let first = head.load(Relaxed);
        if first == tail.load(Acquire) {
            return None;
        }
        let place = first & (self.parameters.cq_entries - 1);
        // SAFETY: the place is below the number of entries, which is a power of two. The kernel wrote this one before
        // it stored the tail, and writes it again after the head was stored.
        let it = unsafe { self.completions.add(place as usize).read() };
        head.store(first.wrapping_add(1), Release);
        Some((it.user_data, it.result))
    }

    fn entry_of(&self, number: usize, job: &Job) -> Submission {
        let vectors = job.vectors.from(job.from);
        let (one, many) = match job.what {
            What::Read => (OP_READ, OP_READV),
            _ => (OP_WRITE, OP_WRITEV),
        };
        let (opcode, address, len) = match vectors {
            _ if job.what == What::Sync => (OP_FSYNC, 0, 0),
            [it] => (one, it.at as u64, it.len as u32),
            all => (many, all.as_ptr() as u64, all.len() as u32),
        };
        Submission {
            opcode,
            flags: if job.is_again { SQE_ASYNC } else { 0 },
            fd: self.file.as_raw_fd(),
            offset: job.place,
            address,
            len,
            how: if job.what == What::Sync { FSYNC_DATASYNC } else { 0 },
            user_data: number as u64,
            ..Submission::default()
        }
    }
}

// Has the kernel make rings that it serves as cheaply as it can.
fn made(entries: u32) -> io::Result<(OwnedFd, Parameters)> {
    let cheap = SETUP_CLAMP | SETUP_COOP_TASKRUN | SETUP_SINGLE_ISSUER;
    let rings = set_up(entries, cheap).or_else(|error| match error.raw_os_error() {
        // An older kernel knows fewer flags.
        Some(libc::EINVAL) => set_up(entries, SETUP_CLAMP),
        _ => Err(error),
    })?;
    match rings.1.features & NEEDED {
        NEEDED => Ok(rings),
        _ => Err(io::Error::other("the kernel is older than Linux 5.6")),
    }
}

// Has the kernel make rings, and says what they are.
fn set_up(entries: u32, flags: u32) -> io::Result<(OwnedFd, Parameters)> {
    let mut parameters = Parameters {
        flags,
        ..Parameters::default()
    };
    // SAFETY: it reads and writes the parameters.
    let ring = unsafe { libc::syscall(libc::SYS_io_uring_setup, entries, &mut parameters) } as c_int;
    if ring < 0 {
        return Err(io::Error::last_os_error());
    }
    // SAFETY: the system has just opened it, and nothing else has it.
    Ok((unsafe { OwnedFd::from_raw_fd(ring) }, parameters))
}

impl System for Uring {
    fn now(&self, job: &Job) -> io::Result<usize> {
        system::now(&self.file, job)
    }

    fn begin(&mut self, number: usize, job: Job) {
        self.put(self.entry_of(number, &job));
        if job.what == What::Sync {
            self.sync = Some(job);
            return;
        }
        if self.jobs.len() <= number {
            self.jobs.resize_with(number + 1, || None);
        }
        self.jobs[number] = Some(job);
    }

    fn submit(&mut self) -> io::Result<bool> {
        self.enter(0)
    }

    fn take(&mut self) -> Option<Done> {
        let (number, result) = self.next()?;
        let number = number as usize;
        let job = match self.jobs.get_mut(number) {
            Some(job) => job.take(),
            None => self.sync.take(),
        };
        let done = usize::try_from(result).map_err(|_| io::Error::from_raw_os_error(-result));
        Some((number, job.expect("it is under way"), done))
    }

    fn room(&self) -> usize {
        // What the kernel did not take has room in the first ring, and so has a sync.
        self.parameters.sq_entries as usize - 1
    }

    fn descriptor(&self) -> BorrowedFd<'_> {
        self.ring.as_fd()
    }
}
