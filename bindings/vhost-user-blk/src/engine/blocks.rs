//! An engine past the page cache, over a disk that takes whole blocks alone and ends jobs in any order.

use super::*;
use crate::direct::Blocks;
use std::cell::RefCell;
use std::fs::File;
use std::os::fd::AsFd;

const BLOCK: usize = 4096;
const SECTORS: usize = 256;
const BLOCKS: Blocks = Blocks {
    memory: 512,
    disk: BLOCK as u64,
};

struct State {
    bytes: Vec<u8>,
    under_way: Vec<(usize, Job)>,
    ended: VecDeque<Done>,
    jobs: Vec<What>,
}

struct Disk {
    state: Rc<RefCell<State>>,
    descriptor: File,
}

impl System for Disk {
    fn now(&self, _job: &Job) -> io::Result<usize> {
        panic!("past the page cache nothing is to be had at once")
    }

    fn begin(&mut self, number: usize, job: Job) {
        let mut state = self.state.borrow_mut();
        state.jobs.push(job.what);
        state.under_way.push((number, job));
    }

    fn submit(&mut self) -> io::Result<bool> {
        Ok(true)
    }

    fn take(&mut self) -> Option<Done> {
        self.state.borrow_mut().ended.pop_front()
    }

    fn room(&self) -> usize {
        1000
    }

    fn descriptor(&self) -> BorrowedFd<'_> {
        self.descriptor.as_fd()
    }
}

impl State {
    // Does what is under way at a place in the list, as a whole.
    fn end(&mut self, at: usize) {
        let (number, job) = self.under_way.swap_remove(at);
        let (all, place) = (job.vectors.all(), job.place as usize);
        let fits = |at: usize, to: u64| at as u64 % to == 0;
        let len: usize = all.iter().map(|it| it.len).sum();
        let is_whole = all
            .iter()
            .all(|it| fits(it.at as usize, BLOCKS.memory) && fits(it.len, BLOCKS.disk));
        assert!(
            is_whole && fits(place, BLOCKS.disk),
            "the disk refuses {place} and {len}"
        );
        let bytes = &mut self.bytes[place..place + len];
        match job.what {
            What::Read => system::fill(&job.vectors, bytes),
            _ => bytes.copy_from_slice(&system::bytes_of(&job.vectors)),
        }
        self.ended.push_back((number, job, Ok(len)));
    }
}

struct Trial {
    engine: Engine,
    state: Rc<RefCell<State>>,
}

fn byte_at(at: usize) -> u8 {
    (at / 512 * 3 + at % 512 / 100) as u8
}

impl Trial {
    fn new() -> Trial {
        let state = Rc::new(RefCell::new(State {
            bytes: (0..512 * SECTORS).map(byte_at).collect(),
            under_way: Vec::new(),
            ended: VecDeque::new(),
            jobs: Vec::new(),
        }));
        let disk = Disk {
            state: Rc::clone(&state),
            descriptor: File::open("/dev/null").unwrap(),
        };
        let direct = Some(Direct::new(BLOCKS).unwrap());
        let engine = Engine::new(Box::new(disk), Rc::default(), direct, 1000);
        Trial { engine, state }
    }

    // Begins a request of sectors. The ticket has its number.
    fn begin(&mut self, id: u32, what: What, sector: usize, vectors: Vectors) {
        let part = Part {
            ring: 0,
            id,
            way: if what == What::Read { Way::Read } else { Way::Write },
            place: 512 * sector as u64,
            len: u64::from(id),
            pieces: &[],
            goes_on: false,
            left: 0,
        };
        let job = Job {
            what,
            vectors,
            from: 0,
            place: part.place,
            is_again: false,
        };
        assert!(matches!(self.engine.begin_job(Ticket::of(&part), job), Begun::UnderWay));
    }

    // One of those that are under way ends, and the ids of what ended by that are returned.
    fn end(&mut self, choose: impl Fn(usize) -> usize) -> Vec<u64> {
        let count = self.state.borrow().under_way.len();
        self.state.borrow_mut().end(choose(count));
        let mut all = Vec::new();
        while let Some((ticket, done)) = self.engine.next_end() {
            done.unwrap();
            all.push(ticket.len());
        }
        all
    }

    fn end_all(&mut self) {
        while !self.state.borrow().under_way.is_empty() {
            self.end(|_| 0);
        }
        assert_eq!(self.engine.load(), 0);
    }

    fn jobs(&self) -> Vec<What> {
        mem::take(&mut self.state.borrow_mut().jobs)
    }
}

#[test]
fn what_fits_goes_straight_and_nothing_else() {
    use What::{Read, Write};
    for (what, sector, lens, offset, wanted) in [
        (Read, 8, &[BLOCK, BLOCK][..], 512, vec![Read]),
        (Write, 8, &[BLOCK, BLOCK], 1024, vec![Write]),
        // Memory that does not lie right, and pieces that are no blocks.
        (Read, 8, &[BLOCK], 256, vec![Read]),
        (Write, 8, &[BLOCK], 511, vec![Write]),
        (Write, 8, &[512, BLOCK - 512], 0, vec![Write]),
        // Places and lengths that do not.
        (Read, 9, &[512], 0, vec![Read]),
        (Write, 9, &[512], 0, vec![Read, Write]),
        (Write, 8, &[BLOCK - 512], 0, vec![Read, Write]),
        (Write, 15, &[1024], 0, vec![Read, Write]),
        (Write, 15, &[3, 509, BLOCK, 512], 0, vec![Read, Write]),
    ] {
        let mut trial = Trial::new();
        let vectors = system::vectors_after(lens, offset);
        let (place, len) = (512 * sector, lens.iter().sum::<usize>());
        let mut disk: Vec<u8> = (0..512 * SECTORS).map(byte_at).collect();
        let wrote: Vec<u8> = (0..len).map(|at| (at % 200) as u8 ^ 0x5a).collect();
        system::fill(&vectors, &wrote);
        let seen = system::again(&vectors);
        trial.begin(1, what, sector, vectors);
        trial.end_all();
        assert_eq!(trial.jobs(), wanted, "{what:?} {sector} {lens:?} {offset}");
        if what == Write {
            disk[place..place + len].copy_from_slice(&wrote);
        }
        assert!(system::bytes_of(&seen) == disk[place..place + len]);
        assert!(
            trial.state.borrow().bytes == disk,
            "{what:?} {sector} {lens:?} {offset}"
        );
    }
}

// Two sectors of a block, and the block as a whole, which is not read meanwhile.
#[test]
fn a_block_is_changed_by_one_write_at_once() {
    for kinds in [[512, 512], [512, BLOCK], [BLOCK, 512]] {
        let mut trial = Trial::new();
        let sectors = [1, if kinds[1] == BLOCK { 0 } else { 2 }];
        let sectors = if kinds[0] == BLOCK { [0, 2] } else { sectors };
        for (id, (len, sector)) in kinds.into_iter().zip(sectors).enumerate() {
            trial.begin(id as u32, What::Write, sector, system::vectors_after(&[len], 0));
            assert_eq!(trial.state.borrow().under_way.len(), 1);
        }
        // Another block waits for nothing, nor does a read.
        trial.begin(5, What::Write, 9, system::vectors_after(&[512], 0));
        trial.begin(6, What::Read, 1, system::vectors_after(&[512], 0));
        assert_eq!(trial.state.borrow().under_way.len(), 3);
        trial.end_all();
        let mut disk: Vec<u8> = (0..512 * SECTORS).map(byte_at).collect();
        for (len, sector) in kinds.into_iter().zip(sectors).chain([(512, 9)]) {
            disk[512 * sector..][..len].fill(7);
        }
        assert!(trial.state.borrow().bytes == disk, "{kinds:?}");
    }
    // A write that waits is not overtaken by those that would have it wait on.
    let mut trial = Trial::new();
    for (id, len) in [BLOCK, 512, BLOCK].into_iter().enumerate() {
        trial.begin(id as u32, What::Write, 0, system::vectors_after(&[len], 0));
        assert_eq!(trial.state.borrow().under_way.len(), 1);
    }
    trial.end_all();
    // Writes of whole blocks wait for none.
    let mut trial = Trial::new();
    for id in 0..5 {
        trial.begin(id, What::Write, 0, system::vectors_after(&[BLOCK], 0));
    }
    assert_eq!(trial.state.borrow().under_way.len(), 5);
}

// Random numbers, by a known recurrence.
struct Numbers(u64);

impl Numbers {
    fn below(&mut self, end: usize) -> usize {
        self.0 = self
            .0
            .wrapping_mul(6_364_136_223_846_793_005)
            .wrapping_add(1_442_695_040_888_963_407);
        (self.0 >> 33) as usize % end
    }
}

// Requests that are under way: what they are, their first sector, how many they have, and their memory.
type Asked = (What, usize, usize, Vectors);

// A request of random sectors, of which some byte is the first in memory.
fn asked(numbers: &mut Numbers) -> Asked {
    let count = 1 + numbers.below(10);
    let first = numbers.below(512 * count + 1);
    let lens = [first, 512 * count - first].into_iter().filter(|len| *len > 0);
    let vectors = system::vectors_after(&lens.collect::<Vec<_>>(), [0, 512, 77][numbers.below(3)]);
    let byte = numbers.below(256);
    let bytes: Vec<u8> = (0..512 * count).map(|at| (byte + at / 30) as u8).collect();
    system::fill(&vectors, &bytes);
    let what = [What::Read, What::Write][numbers.below(2)];
    (what, numbers.below(SECTORS - count), count, vectors)
}

// What a request that ended read, or wrote.
fn check((what, sector, count, vectors): Asked, disk: &mut [u8]) {
    let (bytes, here) = (system::bytes_of(&vectors), 512 * sector..512 * (sector + count));
    match what {
        What::Read => assert!(bytes == disk[here], "a read of {sector}"),
        _ => disk[here].copy_from_slice(&bytes),
    }
}

// No two of these have a sector at once, and many have blocks together.
#[test]
fn each_sector_has_what_was_written_to_it() {
    let mut numbers = Numbers(3);
    let mut trial = Trial::new();
    let mut disk: Vec<u8> = (0..512 * SECTORS).map(byte_at).collect();
    let mut out: Vec<Option<Asked>> = (0..40).map(|_| None).collect();
    let mut served = 0;
    for _ in 0..6000 {
        let (id, (what, sector, count, vectors)) = (numbers.below(out.len()), asked(&mut numbers));
        let mut all = out.iter().flatten();
        let is_free = all.all(|it| it.1 >= sector + count || it.1 + it.2 <= sector);
        if out[id].is_none() && is_free {
            out[id] = Some((what, sector, count, system::again(&vectors)));
            trial.begin(id as u32, what, sector, vectors);
        }
        if trial.state.borrow().under_way.is_empty() || numbers.below(3) == 0 {
            continue;
        }
        let place = numbers.below(1 << 20);
        for id in trial.end(|count| place % count) {
            check(out[id as usize].take().expect("it is under way"), &mut disk);
            served += 1;
        }
    }
    assert!(served > 1000, "{served}");
    trial.end_all();
    let left = out.into_iter().flatten();
    left.for_each(|it| check(it, &mut disk));
    assert!(trial.state.borrow().bytes == disk);
}

// More jobs than there are buffers.
#[test]
fn what_has_no_buffer_waits_for_one() {
    let mut trial = Trial::new();
    for id in 0..30 {
        trial.begin(id, What::Read, id as usize, system::vectors_after(&[512], 0));
    }
    assert!(trial.state.borrow().under_way.len() < 30);
    let mut ended = Vec::new();
    while !trial.state.borrow().under_way.is_empty() {
        ended.extend(trial.end(|count| count - 1));
    }
    ended.sort();
    assert_eq!(ended, (0..30).collect::<Vec<u64>>());
    assert_eq!(trial.engine.load(), 0);
}
