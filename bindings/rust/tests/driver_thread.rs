//! A driver in a thread of its own, over a block that it shares with the machine of the device. It publishes, and asks
//! for interrupts, by the rules of the VirtIO specification alone (version 1.2, 2.7.13 and 2.7.14), with its own
//! barriers. No request is lost, none comes twice, and neither side sleeps while the other has something for it.
//!
//! `REQUESTS` may ask for more or fewer than 1,000,000 in all. Each end waits at most a minute for the other.

mod guest;
mod ring;

use guest::{stay_on, BusyGuest, Guest};
use ring::{at, Numbers, INDIRECT, NEXT, WRITE};
use std::env;
use std::hint::{black_box, spin_loop};
use std::os::fd::AsFd;
use std::sync::atomic::Ordering::{Acquire, Relaxed, Release, SeqCst};
use std::sync::atomic::{fence, AtomicBool};
use std::sync::{Condvar, Mutex};
use std::thread;
use std::time::{Duration, Instant};
use vm_memory_proved::queue::{DescriptorChain, Queue, QueueError};
use vm_memory_proved::{memfd, GuestAddress, GuestMemory, Machine, MemoryId, QueueId};

const BASE: u64 = 0x4000_0000;
const LIMIT: Duration = Duration::from_secs(60);

// A request has 16 bytes, and its reply as many: a number and a check of it.
const LEN: u32 = 16;

// One run.
#[derive(Clone, Copy, Debug)]
struct Run {
    size: u16,
    // Notifications go by event indices, and not by flags.
    by_events: bool,
    // Each chain is one descriptor that leads to a table, and not two.
    by_tables: bool,
    // Where the indices begin.
    start: u16,
    requests: u64,
}

const RUNS: [Run; 16] = {
    const fn run(size: u16, by_events: bool, by_tables: bool, start: u16) -> Run {
        Run {
            size,
            by_events,
            by_tables,
            start,
            requests: 0,
        }
    }
    [
        run(1, false, true, 0),
        run(1, true, true, 65_535),
        run(2, false, false, 65_534),
        run(2, true, false, 0),
        run(2, false, true, 1),
        run(2, true, true, 40_000),
        run(4, false, false, 0),
        run(4, true, false, 65_530),
        run(16, false, true, 65_500),
        run(16, true, true, 0),
        run(64, false, false, 0),
        run(64, true, false, 32_767),
        run(256, false, true, 7),
        run(256, true, true, 65_535),
        run(1024, false, false, 65_000),
        run(1024, true, false, 0),
    ]
};

impl Run {
    // How many chains can be published at once.
    fn slots(&self) -> u16 {
        if self.by_tables {
            self.size
        } else {
            self.size / 2
        }
    }

    // Where the areas begin, in the block: the table, both rings, and what each chain has.
    fn avail_ring(&self) -> usize {
        16 * usize::from(self.size)
    }

    fn used_ring(&self) -> usize {
        (self.avail_ring() + 6 + 2 * usize::from(self.size)).next_multiple_of(64)
    }

    // Of a chain: its table of two descriptors, its request, and its reply.
    fn data(&self, slot: u16) -> usize {
        let areas = (self.used_ring() + 6 + 8 * usize::from(self.size)).next_multiple_of(64);
        areas + 64 * usize::from(slot)
    }

    fn block_size(&self) -> usize {
        self.data(self.slots()).next_multiple_of(0x1000)
    }
}

// What belongs to a number, so that no other bytes are taken for it.
fn check(number: u64) -> u64 {
    let bits = (number ^ (number >> 30)).wrapping_mul(0xbf58_476d_1ce4_e5b9);
    bits ^ (bits >> 31)
}

// ---- how each end is woken, as by an eventfd

#[derive(Default)]
struct Bell {
    has_rung: AtomicBool,
    sleeper: Mutex<()>,
    rings: Condvar,
}

impl Bell {
    fn ring(&self) {
        self.has_rung.store(true, SeqCst);
        drop(self.sleeper.lock().unwrap());
        self.rings.notify_one();
    }

    // Whether it rings in time. At first it only looks, so that what the other end does next comes soon after.
    fn wait(&self) -> bool {
        for _ in 0..2_000 {
            if self.has_rung.swap(false, SeqCst) {
                return true;
            }
            spin_loop();
        }
        let sleeper = self.sleeper.lock().unwrap();
        let is_quiet = |_: &mut ()| !self.has_rung.load(SeqCst);
        drop(self.rings.wait_timeout_while(sleeper, LIMIT, is_quiet).unwrap());
        self.has_rung.swap(false, SeqCst)
    }
}

#[derive(Default)]
struct Bells {
    kick: Bell,
    interrupt: Bell,
    // The driver has all that it asked for, or one end failed.
    is_over: AtomicBool,
}

// Ends the other thread if this one fails.
struct EndsBoth<'a>(&'a Bells);

impl Drop for EndsBoth<'_> {
    fn drop(&mut self) {
        self.0.is_over.store(true, SeqCst);
        self.0.kick.ring();
        self.0.interrupt.ring();
    }
}

// ---- the driver

struct Driver<'a> {
    run: Run,
    guest: &'a BusyGuest,
    bells: &'a Bells,
    numbers: Numbers,
    next_avail: u16,
    next_used: u16,
    next_request: u64,
    // The slots without a request, and the request of each.
    free: Vec<u16>,
    requests: Vec<Option<u64>>,
    kicks: u64,
    waits: u64,
}

impl Driver<'_> {
    fn head(&self, slot: u16) -> u16 {
        if self.run.by_tables {
            slot
        } else {
            2 * slot
        }
    }

    fn put_descriptor(&self, place: usize, data: usize, flags: u16, next: u16) {
        self.guest.store(place, BASE + data as u64);
        let rest = u64::from(LEN) | u64::from(flags) << 32 | u64::from(next) << 48;
        self.guest.store(place + 8, rest);
    }

    // Writes the chain of a slot once: only the request changes.
    fn put_chain(&self, slot: u16) {
        let data = self.run.data(slot);
        let (table, first) = match self.run.by_tables {
            true => (data, 0),
            false => (0, 2 * slot),
        };
        if self.run.by_tables {
            let place = 16 * usize::from(slot);
            self.guest.store(place, BASE + data as u64);
            self.guest.store(place + 8, 32 | u64::from(INDIRECT) << 32);
        }
        let place = table + 16 * usize::from(first);
        self.put_descriptor(place, data + 32, NEXT, first + 1);
        self.put_descriptor(place + 16, data + 48, WRITE, 0);
    }

    // Publishes so many requests at once, and notifies the device if it asks for that.
    fn publish(&mut self, count: usize) {
        let old = self.next_avail;
        for _ in 0..count {
            let slot = self.free.pop().unwrap();
            let (number, data) = (self.next_request, self.run.data(slot));
            self.next_request += 1;
            self.requests[usize::from(slot)] = Some(number);
            self.guest.store(data + 32, number);
            self.guest.store(data + 40, check(number));
            self.guest.store(data + 48, 0);
            self.guest.store(data + 56, 0);
            let place = self.run.avail_ring() + 4 + 2 * usize::from(self.next_avail % self.run.size);
            self.guest.word(place).store(self.head(slot), Relaxed);
            self.next_avail = self.next_avail.wrapping_add(1);
        }
        // The device sees the chains and the heads before the index, and this end asks for its notifications after
        // that.
        self.guest
            .word(self.run.avail_ring() + 2)
            .store(self.next_avail, Release);
        fence(SeqCst);
        let is_asked = if self.run.by_events {
            let event = self.guest.word(self.avail_event()).load(Relaxed);
            let new = self.next_avail;
            new.wrapping_sub(event).wrapping_sub(1) < new.wrapping_sub(old)
        } else {
            self.guest.word(self.run.used_ring()).load(Relaxed) & 1 == 0
        };
        if is_asked {
            self.kicks += 1;
            self.bells.kick.ring();
        }
    }

    fn avail_event(&self) -> usize {
        self.run.used_ring() + 4 + 8 * usize::from(self.run.size)
    }

    fn used_event(&self) -> usize {
        self.run.avail_ring() + 4 + 2 * usize::from(self.run.size)
    }

    // How many entries the device has published that were not taken.
    fn returned(&self) -> u16 {
        let index = self.guest.word(self.run.used_ring() + 2).load(Acquire);
        index.wrapping_sub(self.next_used)
    }

    // Takes all entries that are there.
    fn take(&mut self) {
        let returned = self.returned();
        assert!(
            returned as usize + self.free.len() <= self.requests.len(),
            "more than was asked"
        );
        for _ in 0..returned {
            let place = self.run.used_ring() + 4 + 8 * usize::from(self.next_used % self.run.size);
            // An entry lies at a multiple of four bytes.
            let word = |i: usize| u64::from(self.guest.word(place + 2 * i).load(Relaxed)) << (16 * (i % 2));
            let (head, len) = (word(0) | word(1), word(2) | word(3));
            let slot = if self.run.by_tables { head } else { head / 2 };
            assert_eq!(u64::from(self.head(slot as u16)), head);
            let number = self.requests[slot as usize].take().expect("an entry for no request");
            let data = self.run.data(slot as u16) + 48;
            let reply = [data, data + 8].map(|place| self.guest.number(place).load(Relaxed));
            assert_eq!((len, reply), (u64::from(LEN), [!number, check(!number)]));
            self.free.push(slot as u16);
            self.next_used = self.next_used.wrapping_add(1);
        }
    }

    // Sleeps until the device has returned more than so many, of which it is told by an interrupt alone.
    fn wait_for(&mut self, most: u16) {
        loop {
            if self.run.by_events {
                let event = self.next_used.wrapping_add(most);
                self.guest.word(self.used_event()).store(event, Relaxed);
            } else {
                self.guest.word(self.run.avail_ring()).store(0, Relaxed);
            }
            fence(SeqCst);
            if self.returned() > most {
                break;
            }
            self.waits += 1;
            let has_rung = self.bells.interrupt.wait();
            assert!(has_rung, "no interrupt came: {} are returned", self.returned());
            assert!(!self.bells.is_over.load(SeqCst), "the device failed");
        }
        if !self.run.by_events {
            self.guest.word(self.run.avail_ring()).store(1, Relaxed);
        }
    }

    // Some nanoseconds, so that each end meets the other at any step.
    fn pause(&mut self) {
        let bound = 1 << self.numbers.below(12);
        for i in 0..self.numbers.below(bound) {
            black_box(i);
        }
    }

    fn work(&mut self) {
        (0..self.run.slots()).for_each(|slot| self.put_chain(slot));
        let all = self.requests.len();
        while self.next_request < self.run.requests || self.free.len() < all {
            let left = (self.run.requests - self.next_request).min(self.free.len() as u64);
            if left > 0 {
                let most = 1 << self.numbers.below(8);
                let burst = 1 + self.numbers.below(left.min(most));
                self.publish(burst as usize);
                self.pause();
            }
            let out = (all - self.free.len()) as u16;
            if left == 0 || self.numbers.one_in(3) {
                // For the first, for the last, or for one between them.
                let most = match self.numbers.below(3) {
                    0 => 0,
                    1 => out - 1,
                    _ => self.numbers.below(out.into()) as u16,
                };
                self.wait_for(if self.run.by_events { most } else { 0 });
            }
            self.take();
        }
    }
}

fn drive(run: Run, guest: &BusyGuest, bells: &Bells) -> (u64, u64) {
    stay_on(0);
    let _ends = EndsBoth(bells);
    let mut driver = Driver {
        run,
        guest,
        bells,
        numbers: Numbers(0xd1e5 + u64::from(run.size)),
        next_avail: run.start,
        next_used: run.start,
        next_request: 0,
        free: (0..run.slots()).collect(),
        requests: vec![None; run.slots().into()],
        kicks: 0,
        waits: 0,
    };
    driver.work();
    assert_eq!(driver.returned(), 0);
    (driver.kicks, driver.waits)
}

// ---- the device

struct Device<'a> {
    queue: Queue<'a>,
    memory: GuestMemory<'a>,
    bells: &'a Bells,
    numbers: Numbers,
    // The chains that are served and not yet returned.
    served: Vec<u16>,
    next_request: u64,
    interrupts: u64,
    sleeps: u64,
}

impl<'a> Device<'a> {
    // Serves a chain, which has to be of the next request.
    fn serve(&mut self, chain: &DescriptorChain<'a>) -> Result<(), QueueError> {
        let mut request = [0; LEN as usize];
        assert_eq!(chain.read_at(&self.memory, 0, &mut request)?, request.len());
        let number = u64::from_le_bytes(request[..8].try_into().unwrap());
        assert_eq!(number, self.next_request);
        assert_eq!(request[8..], check(number).to_le_bytes());
        self.next_request += 1;
        let mut reply = [0; LEN as usize];
        reply[..8].copy_from_slice(&(!number).to_le_bytes());
        reply[8..].copy_from_slice(&check(!number).to_le_bytes());
        assert_eq!(chain.write_at(&self.memory, 0, &reply)?, reply.len());
        self.served.push(chain.head_index());
        Ok(())
    }

    // Returns what was served, in any order, and interrupts the driver if it asks for that.
    fn give_back(&mut self) -> Result<(), QueueError> {
        while !self.served.is_empty() {
            let place = self.numbers.below(self.served.len() as u64) as usize;
            let head = self.served.swap_remove(place);
            self.queue.add_used(&self.memory, head, LEN)?;
        }
        if self.queue.needs_notification(&self.memory)? {
            self.interrupts += 1;
            self.bells.interrupt.ring();
        }
        Ok(())
    }

    fn work(&mut self) -> Result<(), QueueError> {
        loop {
            while let Some(chain) = self.queue.pop_descriptor_chain(&self.memory)? {
                self.serve(&chain)?;
                if self.numbers.one_in(3) {
                    self.give_back()?;
                }
            }
            if !self.served.is_empty() {
                self.give_back()?;
            }
            if self.queue.enable_notification(&self.memory)? {
                continue;
            }
            self.sleeps += 1;
            if !self.bells.kick.wait() {
                let published = self.queue.avail_idx(&self.memory)?;
                panic!(
                    "no kick came: {} popped, {published} published",
                    self.queue.next_avail()
                );
            }
            if self.bells.is_over.load(SeqCst) {
                return Ok(());
            }
            self.queue.disable_notification(&self.memory)?;
        }
    }
}

fn serve(run: Run, machine: &Machine, (id, queue): (MemoryId, QueueId), bells: &Bells) -> (u64, u64) {
    stay_on(1);
    let _ends = EndsBoth(bells);
    let mut device = Device {
        queue: machine.queue_by_id(queue).unwrap(),
        memory: machine.memory(id).unwrap(),
        bells,
        numbers: Numbers(0xde71ce + u64::from(run.size)),
        served: Vec::new(),
        next_request: 0,
        interrupts: 0,
        sleeps: 0,
    };
    device.work().unwrap();
    assert_eq!(device.next_request, run.requests, "the driver failed");
    (device.interrupts, device.sleeps)
}

// A machine with the queue of a run, and what the guest has of its memory.
fn machine_of(run: Run) -> (Machine, (MemoryId, QueueId), BusyGuest) {
    let size = run.block_size();
    let file = memfd(size as u64).unwrap();
    let guest = BusyGuest(Guest::of_file(&file, size));
    for place in [run.avail_ring(), run.used_ring()] {
        guest.word(place + 2).store(run.start, Relaxed);
    }
    let machine = Machine::new().unwrap();
    let block = machine.shared_block(size, 0x1000, Some((file.as_fd(), 0))).unwrap();
    let region = machine.region(block.id(), GuestAddress(BASE)).unwrap();
    let memory = machine.plain(machine.layout(&[region]).unwrap()).unwrap();
    let queue = machine.queue(run.size, 2 * usize::from(run.slots())).unwrap();
    queue.try_set_desc_table_address(at(BASE)).unwrap();
    let (avail, used) = (run.avail_ring() as u64, run.used_ring() as u64);
    queue.try_set_avail_ring_address(at(BASE + avail)).unwrap();
    queue.try_set_used_ring_address(at(BASE + used)).unwrap();
    queue.set_event_idx(run.by_events);
    queue.set_next_avail(run.start);
    queue.set_next_used(run.start);
    queue.set_ready(true);
    let ids = (memory, queue.id());
    (machine, ids, guest)
}

#[test]
fn a_driver_in_a_thread_of_its_own_is_served() {
    let all: u64 = env::var("REQUESTS").map_or(1_000_000, |all| all.parse().unwrap());
    for mut run in RUNS {
        run.requests = all.div_ceil(RUNS.len() as u64);
        let (machine, ids, guest) = machine_of(run);
        let (bells, begun) = (Bells::default(), Instant::now());
        let (driven, served) = thread::scope(|scope| {
            let bells = &bells;
            let device = scope.spawn(move || serve(run, &machine, ids, bells));
            let driver = scope.spawn(|| drive(run, &guest, bells));
            (driver.join().unwrap(), device.join().unwrap())
        });
        println!(
            "{run:?} in {:.1?}: {} kicks, the driver slept {} times; {} interrupts, the device slept {} times",
            begun.elapsed(),
            driven.0,
            driven.1,
            served.0,
            served.1
        );
    }
}
