//! A guest that writes into its rings, descriptors and segments all the time, while a device serves them. Whatever it
//! writes, each call returns, and a chain that was popped stays as it was popped.

mod guest;
mod ring;

use guest::{stay_on, BusyGuest, Guest};
use ring::{at, Driver, Numbers};
use std::os::fd::AsFd;
use std::sync::atomic::AtomicBool;
use std::sync::atomic::Ordering::{Relaxed, SeqCst};
use std::thread;
use std::time::{Duration, Instant};
use vm_memory_proved::queue::{DescriptorChain, Queue, QueueError};
use vm_memory_proved::{memfd, GuestMemory, Machine, MemoryId};

const BASE: u64 = 0x10_0000;
const SIZE: usize = 0x4000;
const ENTRIES: u16 = 8;
const MOST: usize = 40;

// How many chains and how many refusals there have to be, or as many as come in a minute.
const ENOUGH: u32 = 50_000;
const LIMIT: Duration = Duration::from_secs(60);

// Where segments and indirect tables mostly lie, in the block.
const DATA: u64 = 0x400;

// A descriptor as two numbers: mostly one that a driver might write.
fn descriptor(numbers: &mut Numbers) -> [u64; 2] {
    if numbers.one_in(40) {
        return [numbers.any(), numbers.any()];
    }
    let (addr, next) = (BASE + DATA + 16 * numbers.below(64), numbers.below(8));
    let flags = [0, 1, 2, 3, 4][numbers.below(5) as usize];
    let len = if flags == 4 {
        16 * (1 + numbers.below(4))
    } else {
        numbers.below(64)
    };
    [addr, len | flags << 32 | next << 48]
}

// Writes until it is over. The index goes on, so that there is something to pop.
fn write_all_the_time(guest: &BusyGuest, is_over: &AtomicBool) {
    stay_on(0);
    let numbers = &mut Numbers(0xbad);
    let avail = 16 * usize::from(ENTRIES);
    while !is_over.load(Relaxed) {
        for _ in 0..1000 {
            match numbers.below(8) {
                0..=3 => {
                    let place = match numbers.below(2) {
                        0 => 16 * numbers.below(ENTRIES.into()),
                        _ => DATA + 16 * numbers.below(64),
                    } as usize;
                    let [first, second] = descriptor(numbers);
                    guest.store(place, first);
                    guest.store(place + 8, second);
                }
                4 => {
                    let slot = avail + 4 + 2 * numbers.below(8) as usize;
                    guest.word(slot).store(numbers.below(9) as u16, Relaxed);
                }
                5 => {
                    let index = guest.word(avail + 2);
                    index.store(index.load(Relaxed).wrapping_add(1), Relaxed);
                }
                6 => {
                    // Near what the device has popped: its own index is in the used ring.
                    let used = guest.word((avail + 6 + 16).next_multiple_of(4) + 2).load(Relaxed);
                    guest
                        .word(avail + 2)
                        .store(used.wrapping_add(numbers.below(12) as u16), Relaxed);
                }
                _ => guest.store(8 * numbers.below(SIZE as u64 / 8) as usize, numbers.any()),
            }
        }
    }
}

// Ends the guest, also if the device fails.
struct EndsGuest<'a>(&'a AtomicBool);

impl Drop for EndsGuest<'_> {
    fn drop(&mut self) {
        self.0.store(true, SeqCst);
    }
}

struct Device<'a> {
    memory: GuestMemory<'a>,
    queue: Queue<'a>,
    in_flight: Vec<DescriptorChain<'a>>,
    numbers: Numbers,
    popped: u32,
    refused: u32,
}

impl<'a> Device<'a> {
    fn new(machine: &'a Machine, id: MemoryId) -> Device<'a> {
        let memory = machine.memory(id).unwrap();
        Device {
            memory,
            queue: Driver::new(memory, BASE, ENTRIES).queue(MOST),
            in_flight: Vec::new(),
            numbers: Numbers(0xde71),
            popped: 0,
            refused: 0,
        }
    }

    fn step(&mut self) {
        let next = self.queue.next_avail();
        match self.queue.pop_descriptor_chain(&self.memory) {
            Ok(Some(chain)) => {
                assert!(chain.head_index() < ENTRIES);
                assert!(self
                    .in_flight
                    .iter()
                    .all(|other| other.head_index() != chain.head_index()));
                assert_eq!(self.queue.next_avail(), next.wrapping_add(1));
                self.popped += 1;
                self.in_flight.push(chain);
            }
            Ok(None) => thread::yield_now(),
            Err(QueueError::Memory | QueueError::NotInFlight) => panic!("nothing lacks"),
            Err(error) => {
                assert_eq!(self.queue.next_avail(), next);
                assert!(!matches!(error, QueueError::InFlight) || !self.in_flight.is_empty());
                self.refused += 1;
                self.recover();
            }
        }
        if let Some(chain) = self.in_flight.last() {
            self.use_chain(&chain.clone());
        }
        if !self.in_flight.is_empty() && self.numbers.one_in(2) {
            self.give_back();
        }
        self.queue.needs_notification(&self.memory).unwrap();
        self.queue.enable_notification(&self.memory).unwrap();
    }

    // A chain has as many bytes as it had when it was popped, and none beyond.
    fn use_chain(&mut self, chain: &DescriptorChain<'a>) {
        let mut bytes = vec![0; self.numbers.below(300) as usize];
        for (len, is_read) in [(chain.readable_len(), true), (chain.writable_len(), false)] {
            let offset = self.numbers.below(len.min(300) as u64 + 2) as usize;
            let moved = match is_read {
                true => chain.read_at(&self.memory, offset, &mut bytes),
                false => chain.write_at(&self.memory, offset, &bytes),
            };
            let room = bytes.len().min(len.saturating_sub(offset));
            match moved {
                Ok(count) => assert!(count <= room && (count > 0 || room == 0)),
                Err(QueueError::GuestMemory(_)) => assert!(room > 0),
                Err(error) => panic!("{error}"),
            }
        }
    }

    fn give_back(&mut self) {
        let place = self.numbers.below(self.in_flight.len() as u64) as usize;
        let head = self.in_flight.swap_remove(place).head_index();
        if self.numbers.one_in(4) {
            self.queue.forget(head).unwrap();
        } else {
            self.queue.add_used(&self.memory, head, 1).unwrap();
        }
    }

    // Passes the head by, or returns all, or is reset.
    fn recover(&mut self) {
        match self.numbers.below(40) {
            0 => {
                Driver::new(self.memory, BASE, ENTRIES).set_up(&self.queue);
                self.queue.set_event_idx(self.numbers.one_in(2));
                for chain in self.in_flight.drain(..) {
                    let refused = chain.read_at(&self.memory, 0, &mut []);
                    assert!(matches!(refused, Err(QueueError::NotInFlight)));
                }
            }
            1..=3 => self
                .queue
                .set_next_avail(self.queue.avail_idx(&self.memory).unwrap().wrapping_sub(1)),
            4..=20 => self.queue.set_next_avail(self.queue.next_avail().wrapping_add(1)),
            _ => (0..self.in_flight.len()).for_each(|_| self.give_back()),
        }
    }
}

#[test]
fn a_guest_may_write_anything_while_a_device_serves() {
    let file = memfd(SIZE as u64).unwrap();
    let machine = Machine::new().unwrap();
    let block = machine.shared_block(SIZE, 0x1000, Some((file.as_fd(), 0))).unwrap();
    let region = machine.region(block.id(), at(BASE)).unwrap();
    let memory = machine.plain(machine.layout(&[region]).unwrap()).unwrap();
    let (guest, is_over) = (BusyGuest(Guest::of_file(&file, SIZE)), AtomicBool::new(false));
    thread::scope(|scope| {
        scope.spawn(|| write_all_the_time(&guest, &is_over));
        let is_over = EndsGuest(&is_over);
        stay_on(1);
        let mut device = Device::new(&machine, memory);
        let begun = Instant::now();
        while (device.popped < ENOUGH || device.refused < ENOUGH) && begun.elapsed() < LIMIT {
            device.step();
        }
        drop(is_over);
        println!(
            "{} chains, {} refusals in {:.1?}",
            device.popped,
            device.refused,
            begun.elapsed()
        );
        assert!(device.popped > 1_000 && device.refused > 1_000);
    });
}
