//! Reads and writes of the disk that are under way at once.
//!
//! What makes them is a [`System`]: the kernel's rings, or threads. Here is what both have in common: how many of a
//! ring are under way, what goes on after a short transfer, and which flush is served by which sync.

use crate::direct::Direct;
use crate::disk::Syncs;
use crate::system;
use std::collections::VecDeque;
use std::io::{self, ErrorKind};
use std::mem;
use std::os::fd::BorrowedFd;
use std::rc::Rc;
use vm_memory_proved::back_end::{Part, Way};
use vm_memory_proved::connection::{Begun, Ticket};
use vm_memory_proved::{Pieces, Vectors};

/// What a [`System`] is asked for.
#[derive(Clone, Copy, Debug, PartialEq, Eq)]
pub enum What {
    Read,
    Write,
    Sync,
}

/// A read or a write of guest memory, or a sync.
#[derive(Debug)]
pub struct Job {
    pub what: What,
    /// Guest memory, of which those before `from` were moved.
    pub vectors: Vectors,
    pub from: usize,
    pub place: u64,
    /// The system was asked for it before, and had it try again.
    pub is_again: bool,
}

impl Job {
    fn sync() -> Job {
        Job {
            what: What::Sync,
            vectors: Vectors::default(),
            from: 0,
            place: 0,
            is_again: false,
        }
    }

    // Takes note of bytes that were moved, and returns whether these were the last.
    fn passes(&mut self, count: usize) -> bool {
        self.place += count as u64;
        self.from = self.vectors.passed(self.from, count);
        self.from >= self.vectors.len()
    }
}

/// The number of a job that the caller chose, the job, and how many bytes were moved.
pub type Done = (usize, Job, io::Result<usize>);

/// What serves jobs. It ends each once, in any order.
pub trait System {
    /// Tries to read or write at once, and moves what it can.
    fn now(&self, job: &Job) -> io::Result<usize>;

    /// Takes a job.
    fn begin(&mut self, number: usize, job: Job);

    /// Has the jobs begin that it took. If it returns false, some could not, and it is to be called again.
    fn submit(&mut self) -> io::Result<bool>;

    /// A job that ended.
    fn take(&mut self) -> Option<Done>;

    /// How many may be under way.
    fn room(&self) -> usize;

    /// It can be read if jobs have ended.
    fn descriptor(&self) -> BorrowedFd<'_>;
}

/// The number of the sync: at most one is under way. Other jobs have the numbers of their slots.
const SYNC: usize = u32::MAX as usize;

// Room for more vectors is given back.
const KEPT: usize = 128;

// The parts of a ring.
#[derive(Default)]
struct Line {
    under_way: usize,
    waiting: VecDeque<(Ticket, Job)>,
}

/// The parts that are under way, and those that wait.
pub struct Engine {
    system: Box<dyn System>,
    syncs: Rc<Syncs>,
    // What jobs go through that are past the page cache.
    direct: Option<Direct>,
    // Of each ring so many are under way.
    depth: usize,
    lines: Vec<Line>,
    // The ring that is next if there is room for one part.
    next_line: usize,
    waiting: usize,
    under_way: usize,
    // What is under way, by its number, and the numbers that are free.
    tickets: Vec<Option<Ticket>>,
    free: Vec<usize>,
    spare: Vec<Vectors>,
    // Whether reads and writes are tried at once.
    reads_now: bool,
    writes_now: bool,
    // Flushes that a sync serves, and those that came after it began.
    flushing: Vec<Ticket>,
    flushes: Vec<Ticket>,
    ends: VecDeque<(Ticket, io::Result<()>)>,
    // Something goes on since the system began what it was asked for.
    goes_on: bool,
    is_stopped: bool,
}

impl Engine {
    /// Nothing is under way. Each ring may have `depth` reads and writes.
    pub fn new(system: Box<dyn System>, syncs: Rc<Syncs>, direct: Option<Direct>, depth: usize) -> Engine {
        // Past the page cache nothing is to be had at once.
        let tries_now = direct.is_none();
        Engine {
            system,
            syncs,
            direct,
            depth,
            lines: Vec::new(),
            next_line: 0,
            waiting: 0,
            under_way: 0,
            tickets: Vec::new(),
            free: Vec::new(),
            spare: Vec::new(),
            reads_now: tries_now,
            writes_now: tries_now,
            flushing: Vec::new(),
            flushes: Vec::new(),
            ends: VecDeque::new(),
            goes_on: false,
            is_stopped: false,
        }
    }

    /// It can be read if something ended.
    pub fn descriptor(&self) -> BorrowedFd<'_> {
        self.system.descriptor()
    }

    /// How many parts are under way or wait.
    pub fn load(&self) -> usize {
        self.under_way + self.waiting + self.flushing.len() + self.flushes.len()
    }

    /// Whether the system has something to do or to tell.
    pub fn is_busy(&self) -> bool {
        self.under_way > 0 || !self.flushing.is_empty()
    }

    /// Begins a read, a write or a flush.
    pub fn begin(&mut self, part: &Part<'_>, pieces: Pieces<'_>, ticket: Ticket) -> Begun {
        let what = match part.way {
            Way::Read => What::Read,
            Way::Write => What::Write,
            _ => return self.flush(ticket),
        };
        let mut vectors = self.spare.pop().unwrap_or_default();
        system::keep(pieces, &mut vectors);
        self.begin_job(
            ticket,
            Job {
                what,
                vectors,
                from: 0,
                place: part.place,
                is_again: false,
            },
        )
    }

    fn flush(&mut self, ticket: Ticket) -> Begun {
        if !self.is_stopped {
            self.flushes.push(ticket);
        }
        Begun::UnderWay
    }

    fn begin_job(&mut self, ticket: Ticket, mut job: Job) -> Begun {
        if self.is_stopped {
            return Begun::UnderWay;
        }
        if job.vectors.is_empty() || self.is_done_now(&mut job) {
            self.put_away(job.vectors);
            return Begun::Ended(ticket, Ok(()));
        }
        let ring = ticket.ring() as usize;
        if self.lines.len() <= ring {
            self.lines.resize_with(ring + 1, Line::default);
        }
        let line = &mut self.lines[ring];
        if line.waiting.is_empty() && line.under_way < self.depth && self.under_way < self.system.room() {
            self.put_under_way(ticket, job);
        } else {
            line.waiting.push_back((ticket, job));
            self.waiting += 1;
        }
        Begun::UnderWay
    }

    // Moves what is to be had without a wait, and returns whether that was all. Whatever else comes of it, the system
    // is asked for it once more.
    fn is_done_now(&mut self, job: &mut Job) -> bool {
        let tries = match job.what {
            What::Read => &mut self.reads_now,
            _ => &mut self.writes_now,
        };
        if !*tries {
            return false;
        }
        match self.system.now(job) {
            Ok(count) => job.passes(count),
            Err(error) => {
                *tries = error.raw_os_error() != Some(libc::EOPNOTSUPP);
                false
            }
        }
    }

    fn put_under_way(&mut self, ticket: Ticket, job: Job) {
        self.lines[ticket.ring() as usize].under_way += 1;
        self.under_way += 1;
        let number = self.free.pop().unwrap_or_else(|| {
            self.tickets.push(None);
            self.tickets.len() - 1
        });
        self.tickets[number] = Some(ticket);
        let begun = match &mut self.direct {
            Some(direct) => direct.begin(number, job),
            None => Ok(Some(job)),
        };
        match begun {
            Ok(Some(job)) => self.system.begin(number, job),
            // It waits for others.
            Ok(None) => (),
            Err(error) => self.end(number, Err(error)),
        }
    }

    fn end(&mut self, number: usize, done: io::Result<()>) {
        let ticket = self.tickets[number].take().expect("it is under way");
        self.free.push(number);
        self.lines[ticket.ring() as usize].under_way -= 1;
        self.under_way -= 1;
        self.ends.push_back((ticket, done));
        if let Some(direct) = &mut self.direct {
            direct.forget(number);
        }
    }

    // Begins what waited for others that have ended.
    fn begin_next(&mut self) {
        while let Some((number, begun)) = self.direct.as_mut().and_then(Direct::next) {
            match begun {
                Ok(job) => {
                    self.goes_on = true;
                    self.system.begin(number, job);
                }
                Err(error) => self.end(number, Err(error)),
            }
        }
    }

    fn put_away(&mut self, vectors: Vectors) {
        if vectors.room() <= KEPT {
            self.spare.push(vectors);
        }
    }

    /// Has all begin that may. If it returns false, the system lacks something, and this is to be called again.
    pub fn submit(&mut self) -> io::Result<bool> {
        while self.waiting > 0 && self.under_way < self.system.room() {
            let Some(ring) = self.next_ring() else {
                break;
            };
            self.next_line = ring + 1;
            let (ticket, job) = self.lines[ring].waiting.pop_front().expect("one waits");
            self.waiting -= 1;
            self.put_under_way(ticket, job);
        }
        self.begin_sync();
        self.goes_on = false;
        self.system.submit()
    }

    /// Whether [`submit`](Engine::submit) is due for what goes on after a part of it ended.
    pub fn goes_on(&self) -> bool {
        self.goes_on
    }

    // The ring whose part is next.
    fn next_ring(&self) -> Option<usize> {
        let count = self.lines.len();
        let mut rings = (0..count).map(|step| (self.next_line + step) % count);
        rings.find(|ring| {
            let line = &self.lines[*ring];
            !line.waiting.is_empty() && line.under_way < self.depth
        })
    }

    // What was completed before a flush came is stable after a sync that begins later. The system tells of a failure
    // once: so one sync is under way, and all flushes that it serves have its end.
    fn begin_sync(&mut self) {
        if self.flushes.is_empty() || !self.flushing.is_empty() {
            return;
        }
        mem::swap(&mut self.flushing, &mut self.flushes);
        match self.syncs.expect_good() {
            Ok(()) => self.system.begin(SYNC, Job::sync()),
            Err(_) => self.end_flushes(false),
        }
    }

    fn end_flushes(&mut self, is_stable: bool) {
        for ticket in self.flushing.drain(..) {
            let done = if is_stable {
                Ok(())
            } else {
                Err(ErrorKind::Other.into())
            };
            self.ends.push_back((ticket, done));
        }
    }

    /// What ended next.
    pub fn next_end(&mut self) -> Option<(Ticket, io::Result<()>)> {
        loop {
            if let Some(end) = self.ends.pop_front() {
                return Some(end);
            }
            let (number, job, done) = self.system.take()?;
            if let Some(done) = self.result_of(number, job, done) {
                if number == SYNC {
                    let is_stable = self.syncs.ended(done).is_ok();
                    self.end_flushes(is_stable);
                } else {
                    self.end(number, done);
                    self.begin_next();
                }
            }
        }
    }

    // What came of a job, unless it goes on.
    fn result_of(&mut self, number: usize, mut job: Job, done: io::Result<usize>) -> Option<io::Result<()>> {
        job.is_again = false;
        let result = match done {
            Err(error) if matches!(error.kind(), ErrorKind::Interrupted | ErrorKind::WouldBlock) => {
                job.is_again = true;
                None
            }
            Err(error) => Some(Err(error)),
            Ok(_) if job.what == What::Sync => Some(Ok(())),
            Ok(0) => Some(Err(ErrorKind::UnexpectedEof.into())),
            Ok(count) if !job.passes(count) => None,
            Ok(_) => match self.direct.as_mut().map_or(Ok(None), |direct| direct.ended(number)) {
                Ok(None) => Some(Ok(())),
                Ok(Some(next)) => {
                    job = next;
                    None
                }
                Err(error) => Some(Err(error)),
            },
        };
        match result {
            None => {
                self.goes_on = true;
                self.system.begin(number, job);
            }
            Some(_) => self.put_away(job.vectors),
        }
        result
    }

    /// What waits is dropped, and so is what begins from now on.
    pub fn stop(&mut self) {
        self.is_stopped = true;
        self.flushes.clear();
        self.lines.iter_mut().for_each(|line| line.waiting.clear());
        self.waiting = 0;
    }

    /// Nothing is under way, and parts begin again.
    pub fn restart(&mut self) {
        assert!(!self.is_busy());
        self.ends.clear();
        self.is_stopped = false;
    }
}

#[cfg(test)]
mod blocks;
#[cfg(test)]
mod systems;
#[cfg(test)]
mod tests;
