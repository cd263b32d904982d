//! Queues, by rows of text: what a device pops and returns, where areas lie, and who has to be notified.

mod ring;
mod rows;

use ring::{at, Descriptor, Driver, INDIRECT, NEXT, WRITE};
use rows::{number, steps, try_rows};
use std::fmt::Debug;
use vm_memory_proved::queue::{Queue, QueueError};
use vm_memory_proved::{GuestMemory, Machine, MemoryId, Permissions};

// Where memory begins, where its two regions touch, and where it ends.
const BEGIN: u64 = 0x1000;
const MIDDLE: u64 = 0x6000;
const END: u64 = 0x8000;

// More descriptors than any row has in flight.
const ANY_NUMBER: usize = 0x10_0000;

// The pages behind an IOMMU: each leads to another one.
const PAGE: u64 = 0x400;
const PAGES: u64 = (END - BEGIN) / PAGE;

// Memory of two regions, or the same behind an IOMMU whose pages lie apart.
fn memory_of(machine: &Machine, scattered: bool) -> MemoryId {
    let regions = [(BEGIN, MIDDLE), (MIDDLE, END)].map(|(begin, end)| {
        let block = machine.block((end - begin) as usize, 0x1000).unwrap();
        machine.region(block, at(begin)).unwrap()
    });
    let layout = machine.layout(&regions).unwrap();
    if !scattered {
        return machine.plain(layout).unwrap();
    }
    let table = machine.table(None).unwrap();
    for page in 0..PAGES {
        let from = at(BEGIN + page * PAGE);
        let to = at(BEGIN + (page * 5 + 3) % PAGES * PAGE);
        machine
            .set_mapping(table, from, to, PAGE as usize, Permissions::ReadWrite)
            .unwrap();
    }
    let space = machine.space(END as usize, 0x1000).unwrap();
    let translator = machine.translator(table).unwrap();
    machine.new_memory(layout, translator, space, true).unwrap()
}

// All bytes of a memory.
fn bytes_of(memory: &GuestMemory<'_>) -> Vec<u8> {
    let mut bytes = vec![0; (END - BEGIN) as usize];
    memory.read_slice(&mut bytes, at(BEGIN)).unwrap();
    bytes
}

// How many bytes of a memory are not what they were.
fn changed(memory: &GuestMemory<'_>, before: &[u8]) -> usize {
    bytes_of(memory)
        .iter()
        .zip(before)
        .filter(|(now, then)| now != then)
        .count()
}

fn descriptor_of(words: &[&str]) -> Descriptor {
    let flags = words[2].chars().map(|letter| match letter {
        'n' => NEXT,
        'w' => WRITE,
        'i' => INDIRECT,
        '-' => 0,
        other => panic!("{other} is no flag"),
    });
    Descriptor {
        addr: number(words[0]),
        len: number(words[1]) as u32,
        flags: flags.sum(),
        next: number(words[3]) as u16,
    }
}

// A driver, who leaves out what lies in no memory.
struct Writer<'a>(Driver<'a>);

impl Writer<'_> {
    fn put(&self, place: u64, descriptor: Descriptor) {
        let _ = self.0.memory.write_slice(&descriptor.bytes(), at(place));
    }

    fn put_word(&self, addr: u64, value: u16) {
        let _ = self.0.memory.write_obj(value, at(addr));
    }

    fn set_index(&self, index: u16) {
        self.put_word(self.0.avail_ring.wrapping_add(2), index);
    }

    // Writes a head into the next slot, and counts it.
    fn publish(&mut self, head: u16) {
        let slot = 2 * u64::from(self.0.next_avail % self.0.size);
        self.put_word(self.0.avail_ring.wrapping_add(4 + slot), head);
        self.0.next_avail = self.0.next_avail.wrapping_add(1);
        self.set_index(self.0.next_avail);
    }

    // Descriptors of one byte each, which follow one another.
    fn put_long_table(&self, place: u64, count: u64) {
        for i in 0..count {
            let descriptor = Descriptor {
                addr: 0x4000 + i % 16,
                len: 1,
                flags: u16::from(i + 1 < count),
                next: (i + 1) as u16,
            };
            self.put(place + 16 * i, descriptor);
        }
    }
}

// ---- what is popped

// Does what a driver does, with areas from an address on, and returns the device's half.
fn queue_of<'a>(memory: GuestMemory<'a>, base: u64, done: &str) -> Queue<'a> {
    let mut writer = Writer(Driver::new(memory, base, 1));
    let mut begin = 0;
    for (word, words) in steps(done) {
        match word {
            "queue" => {
                writer.0 = Driver::new(memory, base, number(words[0]) as u16);
                begin = words.get(1).map_or(0, |word| number(word)) as u16;
                writer.0.next_avail = begin;
                writer.set_index(begin);
            }
            "areas" => {
                let driver = &mut writer.0;
                (driver.desc_table, driver.avail_ring) = (number(words[0]), number(words[1]));
                driver.used_ring = number(words[2]);
            }
            "desc" => {
                let place = writer.0.desc_table.wrapping_add(16 * number(words[0]));
                writer.put(place, descriptor_of(&words[1..]));
            }
            "entry" => writer.put(number(words[0]), descriptor_of(&words[1..])),
            "chain" => writer.put_long_table(number(words[0]), number(words[1])),
            "publish" => writer.publish(number(words[0]) as u16),
            "ahead" => writer.set_index(writer.0.next_avail.wrapping_add(number(words[0]) as u16)),
            other => panic!("{other} is no step"),
        }
    }
    let queue = writer.0.queue(ANY_NUMBER);
    queue.set_next_avail(begin);
    queue
}

// The error of a call of a queue. Those of guest memory are one.
fn error_text(error: &QueueError) -> String {
    match error {
        QueueError::GuestMemory(_) => "GuestMemory".to_string(),
        error => format!("{error:?}"),
    }
}

// Pops until there is no more, and tells where the queue is then. A chain that was looked at is forgotten, so that its
// head may come again.
fn pop_all(queue: &Queue<'_>, memory: &GuestMemory<'_>) -> String {
    let mut told = String::new();
    for _ in 0..8 {
        match queue.pop_descriptor_chain(memory) {
            Ok(Some(chain)) => {
                let (head, readable, writable) = (chain.head_index(), chain.readable_len(), chain.writable_len());
                let mut buffer = [0; 8];
                let count = chain.read_at(memory, 0, &mut buffer).unwrap();
                told += &format!("{head} {:?} {readable} {writable}; ", &buffer[..count]);
                queue.forget(head).unwrap();
            }
            Ok(None) => {
                told += "none";
                break;
            }
            Err(error) => {
                told += &error_text(&error);
                break;
            }
        }
    }
    format!("{told} {}", queue.next_avail())
}

// Where the areas of a queue begin, and whether pages lie apart: in one region, across pages, and across regions.
const PLACES: [(u64, bool); 4] = [
    (0x13c0, false),
    (0x13c0, true),
    (MIDDLE - 0x20, false),
    (MIDDLE - 0x30, true),
];

// Popping changes no byte of memory.
#[test]
fn chains_are_popped_or_refused() {
    try_rows("queue_pops.txt", |done| {
        let told = |(base, scattered)| {
            let machine = Machine::new().unwrap();
            let memory = machine.memory(memory_of(&machine, scattered)).unwrap();
            let numbers: [u8; 16] = std::array::from_fn(|i| i as u8);
            memory.write_slice(&numbers, at(0x4000)).unwrap();
            let queue = queue_of(memory, base, done);
            let before = bytes_of(&memory);
            let told = pop_all(&queue, &memory);
            assert_eq!(changed(&memory, &before), 0, "{done}");
            told
        };
        PLACES.map(told).to_vec()
    });
}

// ---- what is returned

// A driver whose table and available ring lie at fixed places, and its used ring anywhere.
fn driver_of(memory: GuestMemory<'_>, size: u16, used_ring: u64) -> Driver<'_> {
    let mut driver = Driver::new(memory, 0x2000, size);
    (driver.avail_ring, driver.used_ring) = (0x3000, used_ring);
    driver
}

// Publishes a head and pops its chain, which is in flight then.
fn pop(driver: &mut Driver<'_>, queue: &Queue<'_>, head: u16) {
    driver.publish(head);
    let chain = queue.pop_descriptor_chain(&driver.memory).unwrap();
    assert_eq!(chain.map(|chain| chain.head_index()), Some(head));
}

// Returns a head, and tells the answer and how many bytes changed.
fn give_back(driver: &mut Driver<'_>, queue: &Queue<'_>, head: u16, len: u32) -> String {
    pop(driver, queue, head);
    let before = bytes_of(&driver.memory);
    let answer = queue.add_used(&driver.memory, head, len);
    format!("{answer:?} {}; ", changed(&driver.memory, &before))
}

// Takes what the driver finds, as far as it can read it.
fn take_all(driver: &mut Driver<'_>) -> String {
    let mut told = String::new();
    let index = driver.used_ring.wrapping_add(2);
    for _ in 0..8 {
        if driver
            .memory
            .read_obj::<u16>(at(index))
            .ok()
            .is_none_or(|index| index == driver.next_used)
        {
            break;
        }
        let entry = driver.take().unwrap();
        told += &format!(" {entry:?}");
    }
    told
}

#[test]
fn entries_are_returned_or_refused() {
    try_rows("queue_returns.txt", |done| {
        let machine = Machine::new().unwrap();
        let memory = machine.memory(memory_of(&machine, false)).unwrap();
        let mut driver = driver_of(memory, 1, 0x4000);
        let mut queue = driver.queue(ANY_NUMBER);
        let mut told = String::new();
        for (word, words) in steps(done) {
            let numbers: Vec<u64> = words.iter().map(|word| number(word)).collect();
            match (word, numbers[..].first()) {
                ("queue", Some(size)) => {
                    driver = driver_of(memory, *size as u16, numbers[1]);
                    driver.next_used = numbers[2] as u16;
                    queue = driver.queue(ANY_NUMBER);
                    queue.set_next_used(driver.next_used);
                    let index = driver.used_ring.wrapping_add(2);
                    let _ = memory.write_obj(driver.next_used, at(index));
                }
                ("return", Some(head)) => told += &give_back(&mut driver, &queue, *head as u16, numbers[1] as u32),
                _ => panic!("{word} is no step"),
            }
        }
        vec![format!("{told}{}{}", queue.next_used(), take_all(&mut driver))]
    });
}

// ---- where areas lie

fn text_of<T: Debug>(answer: Result<T, QueueError>) -> String {
    format!("{answer:?}")
}

#[test]
fn areas_lie_in_memory_or_not() {
    try_rows("queue_areas.txt", |done| {
        let (_, words) = steps(done).next().unwrap();
        let told = |scattered| {
            let machine = Machine::new().unwrap();
            let memory = machine.memory(memory_of(&machine, scattered)).unwrap();
            let mut driver = driver_of(memory, 4, number(words[2]));
            (driver.desc_table, driver.avail_ring) = (number(words[0]), number(words[1]));
            let queue = driver.queue(ANY_NUMBER);
            let told = text_of(queue.is_valid(&memory));
            queue.set_ready(false);
            assert_eq!(text_of(queue.is_valid(&memory)), "Err(QueueNotReady)");
            told
        };
        vec![told(false), told(true)]
    });
}

// ---- who is notified

#[test]
fn drivers_are_notified_of_what_they_wait_for() {
    try_rows("queue_notifications.txt", |done| {
        let machine = Machine::new().unwrap();
        let memory = machine.memory(memory_of(&machine, false)).unwrap();
        let mut driver = driver_of(memory, 4, 0x4000);
        let queue = driver.queue(ANY_NUMBER);
        let steps: Vec<_> = steps(done).map(|(word, words)| (word, number(words[0]))).collect();
        let [("used", next_used), ("return", count), (kind, waits_for)] = steps[..] else {
            panic!("{done} is no row");
        };
        queue.set_next_used(next_used as u16);
        match kind {
            "event" => {
                queue.set_event_idx(true);
                driver.set_used_event(waits_for as u16);
            }
            "flags" => driver.set_avail_flags(waits_for as u16),
            other => panic!("{other} is no step"),
        }
        let needs = || queue.needs_notification(&memory).unwrap();
        assert!(needs(), "the first answer after an index was set");
        for _ in 0..count {
            pop(&mut driver, &queue, 0);
            queue.add_used(&memory, 0, 0).unwrap();
        }
        vec![format!("{} {}", needs(), needs())]
    });
}

// What a device asks for by flags and by event indices, and what the driver finds then.
#[test]
fn devices_are_notified_of_what_they_wait_for() {
    for (event_idx, wanted) in [(false, (1, 0, 0)), (true, (0, 0, 5))] {
        let machine = Machine::new().unwrap();
        let memory = machine.memory(memory_of(&machine, true)).unwrap();
        let mut driver = driver_of(memory, 4, 0x4000);
        let queue = driver.queue(ANY_NUMBER);
        queue.set_event_idx(event_idx);
        queue.set_next_avail(5);
        driver.next_avail = 5;
        driver.set_word(driver.avail_ring + 2, 5);
        queue.disable_notification(&memory).unwrap();
        let flags = driver.used_flags();
        assert!(!queue.enable_notification(&memory).unwrap());
        assert_eq!((flags, driver.used_flags(), driver.avail_event()), wanted);
        driver.publish(1);
        assert!(queue.enable_notification(&memory).unwrap());
        assert_eq!(queue.avail_idx(&memory).unwrap(), 6);
        assert_eq!(queue.used_idx(&memory).unwrap(), 0);
    }
}

// ---- a long history

// The next number, below 2^31, of a fixed sequence.
fn next_number(state: &mut u64) -> u64 {
    *state = state
        .wrapping_mul(6364136223846793005)
        .wrapping_add(1442695040888963407);
    *state >> 33
}

// How many events of each kind there were. Head number k is k modulo the size, and its entry tells the length k.
#[derive(Clone, Copy, Default)]
struct Counts {
    published: u32,
    popped: u32,
    returned: u32,
    taken: u32,
}

const SIZE: u32 = 4;

fn head_of(count: u32) -> u16 {
    (count % SIZE) as u16
}

// An event that may come is made, and what it gives is compared with what it ought to be.
fn turn(driver: &mut Driver<'_>, queue: &Queue<'_>, counts: &mut Counts, kind: u64) {
    match kind {
        0 if counts.published < counts.taken + SIZE => {
            driver.publish(head_of(counts.published));
            counts.published += 1;
        }
        1 => match queue.pop_descriptor_chain(&driver.memory).unwrap() {
            None => assert_eq!(counts.popped, counts.published),
            Some(chain) => {
                assert!(counts.popped < counts.published);
                assert_eq!(chain.head_index(), head_of(counts.popped));
                counts.popped += 1;
            }
        },
        2 if counts.returned < counts.popped => {
            let (head, len) = (head_of(counts.returned), counts.returned);
            queue.add_used(&driver.memory, head, len).unwrap();
            counts.returned += 1;
        }
        3 => match driver.take() {
            None => assert_eq!(counts.taken, counts.returned),
            Some(entry) => {
                assert!(counts.taken < counts.returned);
                assert_eq!(entry, (u32::from(head_of(counts.taken)), counts.taken));
                counts.taken += 1;
            }
        },
        _ => {}
    }
}

#[test]
fn long_histories_keep_their_order() {
    let machine = Machine::new().unwrap();
    let memory = machine.memory(memory_of(&machine, false)).unwrap();
    let mut driver = Driver::new(memory, 0x2000, SIZE as u16);
    let queue = driver.queue(ANY_NUMBER);
    for head in 0..SIZE as u16 {
        driver.put_chain(head, &[(0x4000, 1, false)]);
    }
    let (mut counts, mut state) = (Counts::default(), 1);
    for _ in 0..500_000 {
        turn(&mut driver, &queue, &mut counts, next_number(&mut state) % 4);
    }
    // The indices have gone once round.
    assert!(counts.taken > 70_000);
}
