//! Reads and writes past the page cache: O_DIRECT.
//!
//! The system takes places, lengths and memory of whole blocks alone. What is not so goes through a buffer. A write of
//! a part of a block reads the block, changes and writes it, and no other write of the block is under way meanwhile.

use crate::engine::{Job, What};
use crate::system::Buffers;
use std::collections::VecDeque;
use std::io;
use std::mem;
use std::ops::Range;
use vm_memory_proved::Vectors;

/// What O_DIRECT asks for, in bytes: powers of two.
#[derive(Clone, Copy, Debug, PartialEq, Eq)]
pub struct Blocks {
    /// A piece of memory begins at a multiple of this.
    pub memory: u64,
    /// A place and a length on the disk are multiples of this, and so is the length of a piece.
    pub disk: u64,
}

// So many buffers, each for a part of a request and a block before and after it.
const BUFFERS: usize = 16;
const PART: u64 = 1 << 20;

// What a job does next that has a buffer.
#[derive(Clone, Copy, PartialEq, Eq)]
enum Step {
    // What was read goes to guest memory.
    Give,
    // What was read is changed, and written.
    Change,
    // Nothing: it was written.
    End,
}

// A job that goes through a buffer.
struct Through {
    buffer: usize,
    // What of the disk the buffer has.
    blocks: Range<u64>,
    // Where it goes from, or to.
    guest: Vectors,
    place: u64,
    step: Step,
}

// A write that is under way: its blocks, and whether it has them alone.
#[derive(Clone)]
struct Write {
    blocks: Range<u64>,
    is_alone: bool,
}

/// The jobs that are under way past the page cache, and those that wait for others.
pub struct Direct {
    blocks: Blocks,
    buffers: Buffers,
    free: Vec<usize>,
    // By the numbers of jobs.
    through: Vec<Option<Through>>,
    writes: Vec<Option<Write>>,
    waiting: VecDeque<(usize, Job)>,
    // How many writes want their blocks alone, of those that are under way and those that wait.
    alone: usize,
}

fn len_of(vectors: &Vectors) -> u64 {
    vectors.all().iter().map(|it| it.len as u64).sum()
}

impl Direct {
    /// Nothing is under way.
    pub fn new(blocks: Blocks) -> io::Result<Direct> {
        Ok(Direct {
            blocks,
            buffers: Buffers::new(BUFFERS, (PART + 2 * blocks.disk) as usize)?,
            free: (0..BUFFERS).collect(),
            through: Vec::new(),
            writes: Vec::new(),
            waiting: VecDeque::new(),
            alone: 0,
        })
    }

    // The blocks that a job has bytes of.
    fn blocks_of(&self, job: &Job) -> Range<u64> {
        let block = self.blocks.disk;
        let end = job.place + len_of(&job.vectors);
        job.place / block * block..end.next_multiple_of(block)
    }

    fn is_whole(&self, job: &Job) -> bool {
        let blocks = self.blocks_of(job);
        blocks.start == job.place && blocks.end == job.place + len_of(&job.vectors)
    }

    // The system takes it as it is.
    fn fits(&self, job: &Job) -> bool {
        let fits = |at: u64, len: u64| at % self.blocks.memory == 0 && len % self.blocks.disk == 0;
        self.is_whole(job) && job.vectors.all().iter().all(|it| fits(it.at as u64, it.len as u64))
    }

    // Whether no write that is under way, or that waits before a place in the line, is to end before a job begins.
    fn may_begin(&self, job: &Job, before: usize) -> bool {
        if job.what != What::Write || self.alone == 0 {
            return true;
        }
        let (blocks, is_alone) = (self.blocks_of(job), !self.is_whole(job));
        let is_apart = |other: &Range<u64>, has_alone: bool| {
            !(is_alone || has_alone) || other.end <= blocks.start || blocks.end <= other.start
        };
        let mut waiting = self.waiting.iter().take(before).filter(|it| it.1.what == What::Write);
        let mut writes = self.writes.iter().flatten();
        writes.all(|it| is_apart(&it.blocks, it.is_alone))
            && waiting.all(|(_, it)| is_apart(&self.blocks_of(it), !self.is_whole(it)))
    }

    /// Takes a job, and returns what the system is asked for now, if that is anything. It fails if guest memory does.
    pub fn begin(&mut self, number: usize, job: Job) -> io::Result<Option<Job>> {
        self.alone += usize::from(job.what == What::Write && !self.is_whole(&job));
        if self.has_room(&job) && self.may_begin(&job, usize::MAX) {
            return self.start(number, job).map(Some);
        }
        self.waiting.push_back((number, job));
        Ok(None)
    }

    /// A job that waited, and begins now.
    pub fn next(&mut self) -> Option<(usize, io::Result<Job>)> {
        let mut waiting = self.waiting.iter().enumerate();
        let (at, _) = waiting.find(|(at, (_, job))| self.has_room(job) && self.may_begin(job, *at))?;
        let (number, job) = self.waiting.remove(at)?;
        Some((number, self.start(number, job)))
    }

    fn has_room(&self, job: &Job) -> bool {
        !self.free.is_empty() || self.fits(job)
    }

    fn start(&mut self, number: usize, job: Job) -> io::Result<Job> {
        if self.writes.len() <= number {
            self.writes.resize(number + 1, None);
            self.through.resize_with(number + 1, || None);
        }
        if job.what == What::Write {
            self.writes[number] = Some(Write {
                blocks: self.blocks_of(&job),
                is_alone: !self.is_whole(&job),
            });
        }
        if self.fits(&job) {
            return Ok(job);
        }
        let step = match job.what {
            What::Read => Step::Give,
            // Blocks that are written as a whole are not read.
            _ if self.is_whole(&job) => Step::End,
            _ => Step::Change,
        };
        self.through[number] = Some(Through {
            buffer: self.free.pop().expect("one is free"),
            blocks: self.blocks_of(&job),
            guest: job.vectors,
            place: job.place,
            step,
        });
        self.take_step(number)
    }

    // What the system is asked for by the step of a job.
    fn take_step(&mut self, number: usize) -> io::Result<Job> {
        let through = self.through[number].as_mut().expect("it goes through a buffer");
        let (blocks, buffer) = (&through.blocks, through.buffer);
        let what = if through.step == Step::End {
            What::Write
        } else {
            What::Read
        };
        let job = Job {
            what,
            vectors: self.buffers.vectors(buffer, (blocks.end - blocks.start) as usize),
            from: 0,
            place: blocks.start,
            is_again: false,
        };
        if what == What::Write {
            let guest = mem::take(&mut through.guest);
            let taken = self.buffers.take(buffer, through.place - blocks.start, guest);
            taken.inspect_err(|_| self.forget(number))?;
        }
        Ok(job)
    }

    /// What the system was asked for is done as a whole. Returns what it is asked for next, if that is anything.
    pub fn ended(&mut self, number: usize) -> io::Result<Option<Job>> {
        let through = self.through.get_mut(number).and_then(Option::as_mut);
        if let Some(it) = through {
            match it.step {
                Step::Change => {
                    it.step = Step::End;
                    return self.take_step(number).map(Some);
                }
                Step::Give => {
                    let guest = mem::take(&mut it.guest);
                    let given = self.buffers.give(it.buffer, it.place - it.blocks.start, guest);
                    given.inspect_err(|_| self.forget(number))?;
                }
                Step::End => (),
            }
        }
        self.forget(number);
        Ok(None)
    }

    /// A job has ended.
    pub fn forget(&mut self, number: usize) {
        if let Some(it) = self.writes.get_mut(number).and_then(Option::take) {
            self.alone -= usize::from(it.is_alone);
        }
        if let Some(it) = self.through.get_mut(number).and_then(Option::take) {
            self.free.push(it.buffer);
        }
    }
}
