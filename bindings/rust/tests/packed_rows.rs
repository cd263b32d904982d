//! Packed queues, by rows of text: what a device pops and returns, who has to be notified, and where the device stands.

mod ring;
mod rows;

use ring::at;
use rows::{number, steps, try_rows};
use std::fmt::Debug;
use vm_memory_proved::queue::{Queue, QueueError, QueueState};
use vm_memory_proved::{GuestMemory, Machine, MemoryId, Permissions};

// Where memory begins, where its two regions touch, and where it ends.
const BEGIN: u64 = 0x1000;
const MIDDLE: u64 = 0x6000;
const END: u64 = 0x8000;

// More descriptors than any row has in flight.
const ANY_NUMBER: usize = 1000;

// The pages behind an IOMMU: each leads to another one.
const PAGE: u64 = 0x400;
const PAGES: u64 = (END - BEGIN) / PAGE;

// Memory of two regions, or the same behind an IOMMU whose pages lie apart.
fn memory_of(machine: &Machine, scattered: bool) -> MemoryId {
    let regions = [(BEGIN, MIDDLE), (MIDDLE, END)].map(|(begin, end)| {
        let block = machine.block((end - begin) as usize, 0x1000).unwrap();
        machine.region(block, at(begin)).unwrap()
    });
    let layout = machine.layout(&regions).unwrap();
    if !scattered {
        return machine.plain(layout).unwrap();
    }
    let table = machine.table(None).unwrap();
    for page in 0..PAGES {
        let from = at(BEGIN + page * PAGE);
        let to = at(BEGIN + (page * 5 + 3) % PAGES * PAGE);
        machine
            .set_mapping(table, from, to, PAGE as usize, Permissions::ReadWrite)
            .unwrap();
    }
    let space = machine.space(END as usize, 0x1000).unwrap();
    let translator = machine.translator(table).unwrap();
    machine.new_memory(layout, translator, space, true).unwrap()
}

fn flags_of(word: &str) -> u16 {
    let flags = word.chars().map(|letter| match letter {
        'n' => 1,
        'w' => 2,
        'i' => 4,
        'a' => 0x80,
        'u' => 0x8000,
        '-' => 0,
        other => panic!("{other} is no flag"),
    });
    flags.sum()
}

// A ring from an address on, with both areas after it.
struct Packed<'a> {
    memory: GuestMemory<'a>,
    queue: Queue<'a>,
    ring: u64,
    size: u64,
}

impl<'a> Packed<'a> {
    fn new(memory: GuestMemory<'a>, ring: u64, size: u16, base: Option<u64>) -> Packed<'a> {
        let queue = memory.machine().packed_queue(size, ANY_NUMBER).unwrap();
        queue.set_size(size).unwrap();
        queue.try_set_desc_table_address(at(ring)).unwrap();
        let areas = ring + 16 * u64::from(size);
        queue.try_set_avail_ring_address(at(areas)).unwrap();
        queue.try_set_used_ring_address(at(areas + 4)).unwrap();
        queue.set_ready(true);
        if let Some(base) = base {
            queue.set_vring_base(base as u32).unwrap();
        }
        let size = u64::from(size);
        Packed {
            memory,
            queue,
            ring,
            size,
        }
    }

    fn put(&self, addr: u64, value: u16) {
        self.memory.write_obj(value, at(addr)).unwrap();
    }

    fn word(&self, addr: u64) -> u16 {
        self.memory.read_obj(at(addr)).unwrap()
    }

    // Puts a descriptor at an address.
    fn describe(&self, place: u64, addr: u64, len: u64, id: u64, flags: u16) {
        self.memory.write_obj(addr, at(place)).unwrap();
        self.memory.write_obj(len as u32, at(place + 8)).unwrap();
        self.put(place + 12, id as u16);
        self.put(place + 14, flags);
    }

    fn driver_area(&self) -> u64 {
        self.ring + 16 * self.size
    }

    // Does a step, and returns the answer of a device's.
    fn step(&self, word: &str, words: &[&str]) -> Option<String> {
        let (queue, memory) = (&self.queue, &self.memory);
        let at_place = |place: usize| number(words[place]);
        Some(match word {
            "events" => {
                queue.set_event_idx(true);
                return None;
            }
            "desc" => {
                let place = self.ring + 16 * at_place(0);
                self.describe(place, at_place(1), at_place(2), at_place(3), flags_of(words[4]));
                return None;
            }
            "entry" => {
                self.describe(at_place(0), at_place(1), at_place(2), 0xffff, flags_of(words[3]));
                return None;
            }
            "event" => {
                self.put(self.driver_area(), at_place(0) as u16);
                self.put(self.driver_area() + 2, at_place(1) as u16);
                return None;
            }
            "pop" => match queue.pop_descriptor_chain(memory) {
                Ok(Some(chain)) => {
                    let mut buffer = [0; 8];
                    let count = chain.read_at(memory, 0, &mut buffer).unwrap();
                    let (readable, writable) = (chain.readable_len(), chain.writable_len());
                    format!("{} {:?} {readable} {writable}", chain.head_index(), &buffer[..count])
                }
                Ok(None) => "none".to_string(),
                Err(QueueError::GuestMemory(_)) => "GuestMemory".to_string(),
                Err(error) => format!("{error:?}"),
            },
            "return" => format!("{:?}", queue.add_used(memory, at_place(0) as u16, at_place(1) as u32)),
            "forget" => format!("{:?}", queue.forget(at_place(0) as u16)),
            "needs" => queue.needs_notification(memory).unwrap().to_string(),
            "enable" => queue.enable_notification(memory).unwrap().to_string(),
            "disable" => format!("{:?}", queue.disable_notification(memory)),
            "slot" => {
                let place = self.ring + 16 * at_place(0);
                let len: u32 = memory.read_obj(at(place + 8)).unwrap();
                format!("{len} {} {:#x}", self.word(place + 12), self.word(place + 14))
            }
            "device" => {
                let place = self.driver_area() + 4;
                format!("{:#x} {:#x}", self.word(place), self.word(place + 2))
            }
            "base" => format!("{:?}", queue.set_vring_base(at_place(0) as u32)),
            other => panic!("{other} is no step"),
        })
    }
}

// Where the ring begins, and whether pages lie apart: in one region, across pages, and across regions.
const PLACES: [(u64, bool); 4] = [
    (0x13c0, false),
    (0x13e0, true),
    (MIDDLE - 0x20, false),
    (MIDDLE - 0x20, true),
];

#[test]
fn packed_queues_do_what_their_rows_say() {
    try_rows("packed_queues.txt", |done| {
        let told = |(ring, scattered)| {
            let machine = Machine::new().unwrap();
            let memory = machine.memory(memory_of(&machine, scattered)).unwrap();
            let numbers: [u8; 16] = std::array::from_fn(|i| i as u8);
            memory.write_slice(&numbers, at(0x4000)).unwrap();
            let mut packed = None;
            let mut told = String::new();
            for (word, words) in steps(done) {
                if word == "queue" {
                    let base = words.get(1).map(|word| number(word));
                    packed = Some(Packed::new(memory, ring, number(words[0]) as u16, base));
                    continue;
                }
                let packed = packed.as_ref().expect("a row begins with its queue");
                if let Some(answer) = packed.step(word, &words) {
                    told += &format!("{answer}; ");
                }
            }
            let state = packed.expect("a row has a queue").queue.state();
            format!("{told}{:#x}", state.vring_base())
        };
        PLACES.map(told).to_vec()
    });
}

// An answer, or the name of its error.
fn text_of<T: Debug>(answer: Result<T, QueueError>) -> String {
    answer.map_or_else(|error| format!("{error:?}"), |value| format!("{value:?}"))
}

#[test]
fn packed_queues_are_set_up_by_parts() {
    let machine = Machine::new().unwrap();
    for size in [0, 0x8001] {
        assert_eq!(text_of(machine.packed_queue(size, 1)), "InvalidMaxSize");
    }
    let queue = machine.packed_queue(7, 1).unwrap();
    let first = QueueState {
        max_size: 7,
        next_avail: 0x8000,
        next_used: 0x8000,
        event_idx_enabled: false,
        size: 7,
        ready: false,
        desc_table: 0,
        avail_ring: 0,
        used_ring: 0,
    };
    assert_eq!(queue.state(), first);
    // The alignments, and what the queue does not have.
    let memory = machine.memory(memory_of(&machine, false)).unwrap();
    assert_eq!(text_of(queue.set_size(8)), "InvalidSize");
    assert_eq!(
        text_of(queue.try_set_desc_table_address(at(8))),
        "InvalidDescTableAlign"
    );
    assert_eq!(
        text_of(queue.try_set_avail_ring_address(at(2))),
        "InvalidAvailRingAlign"
    );
    assert_eq!(text_of(queue.try_set_used_ring_address(at(2))), "InvalidUsedRingAlign");
    assert_eq!(text_of(queue.avail_idx(&memory)), "OtherKind");
    assert_eq!(text_of(queue.used_idx(&memory)), "OtherKind");
    assert_eq!(text_of(queue.is_valid(&memory)), "QueueNotReady");
    let split = machine.queue(8, 1).unwrap();
    assert_eq!(text_of(split.set_vring_base(0)), "OtherKind");
    assert_eq!(queue.state(), first);
    // Its parts, where areas lie in memory and where they do not, and a reset.
    queue.set_size(5).unwrap();
    queue.try_set_desc_table_address(at(0x2000)).unwrap();
    queue.try_set_avail_ring_address(at(0x3004)).unwrap();
    queue.try_set_used_ring_address(at(0x7ffc)).unwrap();
    queue.set_event_idx(true);
    queue.set_ready(true);
    queue.set_vring_base(0x0003_0004).unwrap();
    assert_eq!(text_of(queue.is_valid(&memory)), "true");
    let made = QueueState {
        max_size: 7,
        next_avail: 4,
        next_used: 3,
        event_idx_enabled: true,
        size: 5,
        ready: true,
        desc_table: 0x2000,
        avail_ring: 0x3004,
        used_ring: 0x7ffc,
    };
    assert_eq!((queue.state(), queue.state().vring_base()), (made, 0x0003_0004));
    queue.try_set_used_ring_address(at(0x8000)).unwrap();
    assert_eq!(text_of(queue.is_valid(&memory)), "false");
    queue.reset();
    assert_eq!(queue.state(), first);
}
