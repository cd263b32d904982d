//! How a driver notifies, and how the front end is notified: by eventfds and pipes that it holds, too.
//!
//! The front end can fill one and have writes wait, at any time. No call of the system writes to an eventfd without
//! such a wait, and what is asked before the write may change before it. So a second thread looks now and then whether
//! the same write is still under way, and interrupts it. The usual write costs two stores.

use crate::descriptor::Kind;
use crate::system;
use std::ffi::c_int;
use std::fs::{File, OpenOptions};
use std::io::{self, Write};
use std::marker::PhantomData;
use std::os::fd::{AsFd, AsRawFd, BorrowedFd, OwnedFd};
use std::process;
use std::ptr::null_mut;
use std::sync::atomic::{AtomicBool, AtomicU64, Ordering::Relaxed, Ordering::Release, Ordering::SeqCst};
use std::sync::Arc;
use std::thread::{self, Thread};
use std::time::Duration;

// A write that waits is interrupted after one to three of these.
const TICK: Duration = Duration::from_millis(10);

// After so many ticks without a write the thread sleeps until the next one.
const QUIET: u32 = 20;

const KINDS: [Kind; 2] = [Kind::Eventfd, Kind::Pipe];

/// What a driver notifies by. Once this is gone nothing is left there for whoever has the other end.
pub(crate) struct Kick {
    descriptor: OwnedFd,
    // It takes what is in a pipe.
    sink: Option<File>,
}

impl Kick {
    /// Takes an eventfd or a pipe.
    pub(crate) fn new(descriptor: OwnedFd) -> io::Result<Kick> {
        let is_pipe = Kind::expect(&descriptor, &KINDS)? == Kind::Pipe;
        let sink = is_pipe.then(|| OpenOptions::new().write(true).open("/dev/null"));
        let sink = sink.transpose()?;
        Ok(Kick { descriptor, sink })
    }

    /// Takes a notification, and never waits, whatever the flags of the pipe are. It is emptied, so that there is room
    /// for the next one. An eventfd stays as it is.
    pub(crate) fn take(&self) {
        if let Some(sink) = &self.sink {
            let (from, to, most) = (self.descriptor.as_raw_fd(), sink.as_raw_fd(), 1 << 20);
            // SAFETY: the declaration fits the function, which takes numbers, and no place in a file.
            unsafe { system::splice(from, null_mut(), to, null_mut(), most, system::SPLICE_F_NONBLOCK) };
        }
    }

    // Takes what an eventfd has counted, and never waits, whatever its flags are. A system before Linux 5.8 leaves it.
    fn empty_counter(&self) {
        let mut count = [0; 8];
        let part = system::Vector {
            at: count.as_mut_ptr(),
            len: count.len(),
        };
        // SAFETY: the declaration fits the function. There is one part, which has the 8 bytes that it says.
        unsafe { system::preadv2(self.descriptor.as_raw_fd(), &part, 1, -1, system::RWF_NOWAIT) };
    }
}

impl Drop for Kick {
    fn drop(&mut self) {
        match self.sink {
            Some(_) => self.take(),
            None => self.empty_counter(),
        }
    }
}

impl AsFd for Kick {
    fn as_fd(&self) -> BorrowedFd<'_> {
        self.descriptor.as_fd()
    }
}

/// What the front end is notified by: an eventfd or a pipe. A write that would wait fails, as long as the front end
/// does not take this back.
pub(crate) fn signal(descriptor: OwnedFd) -> io::Result<File> {
    Kind::expect(&descriptor, &KINDS)?;
    let fd = descriptor.as_raw_fd();
    // SAFETY: the declaration fits the function, and both commands take numbers.
    let done = unsafe {
        let flags = system::fcntl(fd, system::F_GETFL);
        flags != -1 && system::fcntl(fd, system::F_SETFL, flags | system::O_NONBLOCK) != -1
    };
    match done {
        true => Ok(File::from(descriptor)),
        false => Err(io::Error::last_os_error()),
    }
}

// What both threads know.
#[derive(Default)]
struct Shared {
    // How many times a write began or ended: odd while one is under way.
    changes: AtomicU64,
    // The thread sleeps, and has to be woken.
    sleeps: AtomicBool,
    ends: AtomicBool,
}

/// What interrupts notifications that wait, by SIGALRM.
pub struct Watchdog {
    shared: Arc<Shared>,
    thread: Thread,
    // It is for writes of one thread.
    _is_of_a_thread: PhantomData<*const ()>,
}

extern "C" fn nothing(_signal: c_int) {}

impl Watchdog {
    /// Starts it for connections of this thread, and takes the process's handler of SIGALRM.
    pub fn start() -> io::Result<Watchdog> {
        // Without SA_RESTART a call that waits fails.
        let action = system::Action::new(nothing as extern "C" fn(c_int) as usize, 0);
        // SAFETY: the declaration fits the function. The handler has the signature that these flags ask for, and calls
        // nothing.
        if unsafe { system::sigaction(system::SIGALRM, &action, null_mut()) } != 0 {
            return Err(io::Error::last_os_error());
        }
        // SAFETY: the declaration fits the function, which takes nothing.
        let writer = unsafe { system::gettid() };
        let shared = Arc::<Shared>::default();
        let watched = Arc::clone(&shared);
        let builder = thread::Builder::new().name("watchdog".into());
        let thread = builder.spawn(move || watched.watch(writer))?.thread().clone();
        Ok(Watchdog {
            shared,
            thread,
            _is_of_a_thread: PhantomData,
        })
    }

    /// Notifies, and returns whether that had to wait. A counter or a pipe that is full has been notified.
    #[inline]
    pub(crate) fn notify(&self, mut signal: &File) -> bool {
        let begun = self.shared.changes.load(Relaxed) + 1;
        self.shared.changes.store(begun, SeqCst);
        // The other thread says that it sleeps, and then looks again whether something changed.
        if self.shared.sleeps.load(SeqCst) {
            self.thread.unpark();
        }
        let done = signal.write(&1_u64.to_ne_bytes());
        self.shared.changes.store(begun + 1, Release);
        done.is_err_and(|error| error.kind() == io::ErrorKind::Interrupted)
    }
}

impl Drop for Watchdog {
    fn drop(&mut self) {
        self.shared.ends.store(true, SeqCst);
        self.thread.unpark();
    }
}

impl Shared {
    fn watch(&self, writer: c_int) {
        let (mut seen, mut quiet) = (0, 0);
        while !self.ends.load(SeqCst) {
            let now = self.changes.load(SeqCst);
            let (is_same, is_under_way) = (now == seen, now % 2 == 1);
            seen = now;
            if is_same && is_under_way {
                // It may come just before the write waits: the next one comes after a tick.
                // SAFETY: the declaration fits the function, which takes numbers. No other process gets it.
                unsafe { system::tgkill(process::id() as c_int, writer, system::SIGALRM) };
            }
            quiet = if is_same && !is_under_way { quiet + 1 } else { 0 };
            if quiet < QUIET {
                thread::sleep(TICK);
                continue;
            }
            quiet = 0;
            self.sleeps.store(true, SeqCst);
            if self.changes.load(SeqCst) == seen && !self.ends.load(SeqCst) {
                thread::park();
            }
            self.sleeps.store(false, SeqCst);
        }
    }
}
