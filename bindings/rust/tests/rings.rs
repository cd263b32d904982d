//! Pops chains of rings that a hostile driver might have written, beside a slow reading of the same bytes.

mod ring;
mod slow;

use ring::{at, Descriptor, Driver, Numbers, INDIRECT, NEXT, WRITE};
use slow::{addresses, name_of, popped, total, Image, Refusal, Segment, Setup};
use std::collections::BTreeMap;
use std::fs;
use std::path::Path;
use vm_memory_proved::queue::{DescriptorChain, Queue, QueueError};
use vm_memory_proved::{GuestMemory, GuestMemoryError, Machine, MemoryId};

// More descriptors than any chain has: those of a table and of an indirect one.
const MOST: usize = 32_768 + 65_535;

// A memory of the ranges of an image.
fn memory_of(machine: &Machine, image: &Image) -> MemoryId {
    let region = |(addr, bytes): &(u64, Vec<u8>)| {
        let block = machine.block(bytes.len(), 0x1000).unwrap();
        machine.region(block, at(*addr)).unwrap()
    };
    let regions: Vec<_> = image.ranges().iter().map(region).collect();
    machine.plain(machine.layout(&regions).unwrap()).unwrap()
}

// The name of how a pop ended, which is that of the slow reading of the same bytes.
fn end_of(
    queue: &Queue<'_>,
    memory: &GuestMemory<'_>,
    image: &mut Image,
    numbers: &mut Numbers,
    is_written: bool,
) -> &'static str {
    let before = queue.state();
    let setup = Setup {
        size: before.size.into(),
        desc_table: before.desc_table,
        avail_ring: before.avail_ring,
        next_avail: before.next_avail,
    };
    let (wanted, answer) = (popped(image, &setup), queue.pop_descriptor_chain(memory));
    let mut after = before;
    let end = match (&wanted, answer) {
        (Ok(None), Ok(None)) => "none",
        (Ok(Some((head, segments))), Ok(Some(chain))) => {
            assert_eq!(chain.head_index(), *head);
            compare_chain(&chain, segments, memory, image, numbers);
            if is_written {
                compare_write(&chain, segments, memory, image, numbers);
            }
            queue.forget(*head).unwrap();
            after.next_avail = before.next_avail.wrapping_add(1);
            "chain"
        }
        (Err(refusal), Err(error)) => {
            assert_eq!(name_of(&error), refusal.name());
            compare_access(refusal, &error, memory);
            refusal.name()
        }
        (wanted, answer) => panic!("{answer:?}, not {wanted:?}"),
    };
    assert_eq!(queue.state(), after);
    end
}

// The error of an access is that of the same access by itself.
fn compare_access(refusal: &Refusal, error: &QueueError, memory: &GuestMemory<'_>) {
    let (Refusal::GuestMemory(addr, count), QueueError::GuestMemory(error)) = (refusal, error) else {
        return;
    };
    let alone = memory.read_slice(&mut vec![0; *count as usize], at(*addr)).unwrap_err();
    assert_eq!(error.to_string(), alone.to_string());
}

// The chain has these segments: its lengths and its bytes, from the first on and from some other one on.
fn compare_chain(
    chain: &DescriptorChain<'_>,
    segments: &[Segment],
    memory: &GuestMemory<'_>,
    image: &Image,
    numbers: &mut Numbers,
) {
    let readable = total(segments, false);
    assert_eq!(chain.readable_len() as u64, readable);
    assert_eq!(chain.writable_len() as u64, total(segments, true));
    for offset in [0, numbers.below(readable.min(40) + 2)] {
        let mut buf = vec![0xa5; numbers.below(65) as usize];
        let addrs = addresses(segments, false, offset, buf.len());
        let bytes: Vec<u8> = addrs.iter().map_while(|addr| image.byte(*addr)).collect();
        match chain.read_at(memory, offset as usize, &mut buf) {
            Ok(count) => {
                assert_eq!(buf[..count], bytes);
                assert!(count != 0 || addrs.is_empty());
                assert!(buf[count..].iter().all(|byte| *byte == 0xa5));
            }
            Err(QueueError::GuestMemory(GuestMemoryError::InvalidGuestAddress(addr))) => {
                assert!(bytes.is_empty());
                assert_eq!(addr.0, addrs[0]);
            }
            Err(error) => panic!("{error}"),
        }
    }
}

// A write from some offset on reaches the bytes before the first without memory.
fn compare_write(
    chain: &DescriptorChain<'_>,
    segments: &[Segment],
    memory: &GuestMemory<'_>,
    image: &mut Image,
    numbers: &mut Numbers,
) {
    let offset = numbers.below(total(segments, true).min(40) + 2);
    let bytes: Vec<u8> = (0..numbers.below(65)).map(|_| numbers.any() as u8).collect();
    let addrs = addresses(segments, true, offset, bytes.len());
    let reached = addrs.iter().take_while(|addr| image.byte(**addr).is_some()).count();
    match chain.write_at(memory, offset as usize, &bytes) {
        Ok(count) => assert!(count == reached && (count != 0 || addrs.is_empty())),
        Err(QueueError::GuestMemory(GuestMemoryError::InvalidGuestAddress(addr))) => {
            assert_eq!((reached, addr.0), (0, addrs[0]));
        }
        Err(error) => panic!("{error}"),
    }
    for (addr, byte) in addrs.iter().zip(&bytes).take(reached) {
        image.set(*addr, *byte);
    }
}

// ---- a million small rings, of the numbers of crates/ring_trials

const BEGIN: u64 = 0x1000;
const END: u64 = 0x1400;

// Where an indirect table may lie, and where segments mostly do.
const TABLE: u64 = 0x1200;
const DATA: u64 = 0x1300;

// The numbers of that program.
struct Sequence(u64);

impl Sequence {
    fn below(&mut self, limit: u64) -> u64 {
        if limit == 0 {
            return 0;
        }
        self.0 = self.0.wrapping_mul(6_364_136_223_846_793_005);
        self.0 = self.0.wrapping_add(1_442_695_040_888_963_407);
        (self.0 >> 33) % limit
    }

    fn one_in(&mut self, many: u64) -> u64 {
        u64::from(self.below(many) == 0)
    }

    fn segment_addr(&mut self) -> u64 {
        match self.below(24) {
            0 => u64::MAX - self.below(32),
            1 => END - self.below(32),
            _ => DATA + self.below(0xc0),
        }
    }

    fn table_addr(&mut self) -> u64 {
        match self.below(24) {
            0 => u64::MAX - self.below(24),
            1 => END - self.below(48),
            2 => self.segment_addr(),
            _ => TABLE + 8 * self.below(8),
        }
    }

    fn segment_len(&mut self) -> u64 {
        match self.one_in(24) {
            1 => 0xffff_ffff - self.below(4),
            _ => self.below(16),
        }
    }

    fn table_len(&mut self) -> u64 {
        match self.below(12) {
            0 => self.below(80),
            1 => 0x10_0000 - 16 + 8 * self.below(4),
            _ => 16 + 16 * self.below(5),
        }
    }

    fn index(&mut self, len: u64) -> u64 {
        match self.below(64) {
            0 => len + self.below(2),
            1 => 65_535 - self.below(2),
            _ => self.below(len),
        }
    }

    // A descriptor of a table of a given size. One in a given number is indirect.
    fn put_descriptor(&mut self, image: &mut Image, place: u64, len: u64, indirect: u64) {
        let mut flags = 2 * self.one_in(5);
        flags += u64::from(self.below(8) < 4);
        let (mut addr, mut bytes) = (self.segment_addr(), self.segment_len());
        if self.one_in(indirect) == 1 {
            flags = (flags & 2) + 4 + self.one_in(8);
            bytes = self.table_len();
            addr = self.table_addr();
        }
        flags |= 8 * self.one_in(64);
        image.put(place, addr, 8);
        image.put(place + 8, bytes, 4);
        image.put(place + 12, flags, 2);
        image.put(place + 14, self.index(len), 2);
    }

    // Writes a ring, and gives its size and the index of the next head.
    fn write(&mut self, image: &mut Image) -> (u16, u16) {
        let size = 1 << self.below(5);
        let start = match self.below(3) {
            0 => 65_535 - self.below(8),
            1 => self.below(8),
            _ => self.below(65_536),
        };
        for i in 0..size {
            self.put_descriptor(image, BEGIN + 16 * i, size, 9);
            image.put(BEGIN + 16 * size + 4 + 2 * i, self.index(size), 2);
        }
        for i in 0..8 {
            let len = 1 + self.below(5);
            self.put_descriptor(image, TABLE + 16 * i, len, 24);
        }
        let ahead = match self.below(32) {
            0 => self.below(65_536),
            1 => 0,
            2 => size + 1,
            _ => self.below(size + 1),
        };
        image.put(BEGIN + 16 * size + 2, (start + ahead) & 0xffff, 2);
        (size as u16, start as u16)
    }
}

// How many rings ended in each way, by the output of that program.
fn wanted_ends() -> BTreeMap<String, u64> {
    let output = Path::new(env!("CARGO_MANIFEST_DIR")).join("../../crates/ring_trials/stdout");
    let output = fs::read_to_string(output).unwrap();
    let lines = output.lines().skip_while(|line| *line != "split rings").skip(1);
    let lines = lines.take_while(|line| *line != "packed rings");
    let counts = lines.map(|line| line.rsplit_once(' ').unwrap());
    let counts = counts.map(|(name, count)| (name.to_string(), count.parse().unwrap()));
    counts.filter(|(_, count)| *count != 0).collect()
}

#[test]
fn a_million_rings() {
    let machine = Machine::new().unwrap();
    let mut image = Image::new(&[(BEGIN, (END - BEGIN) as usize)], |i| (i * 7 % 251) as u8);
    let memory = machine.memory(memory_of(&machine, &image)).unwrap();
    let queue = machine.queue(16, MOST).unwrap();
    let (mut sequence, mut numbers) = (Sequence(1), Numbers(2));
    let mut ends = BTreeMap::new();
    for _ in 0..1_000_000 {
        let (size, start) = sequence.write(&mut image);
        memory.write_slice(&image.ranges()[0].1, at(BEGIN)).unwrap();
        Driver::new(memory, BEGIN, size).set_up(&queue);
        queue.set_next_avail(start);
        let end = end_of(&queue, &memory, &mut image, &mut numbers, false);
        *ends.entry(end.to_string()).or_insert(0) += 1;
    }
    println!("{ends:?}");
    assert_eq!(ends, wanted_ends());
}

// ---- rings of every size, over regions that end inside of descriptors and segments

const BASE: u64 = 0x10_0000;

// The areas of the greatest queue take 0xd_800a bytes. Indirect tables lie behind them, and segments behind these.
const RANGES: [(u64, usize); 5] = [
    (BASE, 0x8_0002),
    (BASE + 0x8_0002, 0x7_fff8),
    (BASE + 0xf_fffa, 0x10_0014),
    (BASE + 0x20_000e, 0x1ff2),
    (BASE + 0x20_3000, 0x1000),
];
const TABLES: u64 = BASE + 0xe_0000;
const SEGMENTS: u64 = BASE + 0x20_0000;

fn address(numbers: &mut Numbers) -> u64 {
    match numbers.below(200) {
        0 => u64::MAX - numbers.below(40),
        1 => BASE - numbers.below(16),
        2..=5 => SEGMENTS + 0x2000 - numbers.below(24),
        6 => SEGMENTS + 0x3000 - numbers.below(24),
        _ => SEGMENTS + numbers.below(0x40),
    }
}

// Writes bytes to the image and to memory, up to the first that is not there.
fn put(image: &mut Image, memory: &GuestMemory<'_>, place: u64, bytes: &[u8]) {
    let addrs = (0..bytes.len() as u64).map(|i| place.wrapping_add(i));
    let there = addrs.take_while(|addr| image.byte(*addr).is_some()).count();
    for (i, byte) in bytes[..there].iter().enumerate() {
        image.set(place + i as u64, *byte);
    }
    if there != 0 {
        memory.write_slice(&bytes[..there], at(place)).unwrap();
    }
}

// A walk over the descriptors of a table: mostly one that ends, and never over the same descriptor but by mistake.
struct Walk<'a, 'b> {
    image: &'a mut Image,
    memory: GuestMemory<'b>,
    numbers: &'a mut Numbers,
    table: u64,
    len: u64,
}

impl Walk<'_, '_> {
    // Puts a walk of a number of descriptors from an index on. Those from `writes` on are written. The last may lead
    // to a table, of this many bytes.
    fn put(&mut self, first: u64, count: u64, writes: u64, table: Option<(u64, u64)>) {
        // An odd step visits each index of a table whose length is a power of two.
        let step = 1 + 2 * self.numbers.below(self.len);
        let mut index = first;
        for i in 0..count {
            let is_last = i + 1 == count;
            let mut next = (index + step) % self.len;
            if self.numbers.one_in(20 * count) {
                let mistakes = [self.len, 65_535, first, self.len + 1];
                next = mistakes[self.numbers.below(4) as usize];
            }
            let mut flags = if is_last { 0 } else { NEXT } | if i >= writes { WRITE } else { 0 };
            let (mut addr, mut len) = (address(self.numbers), self.numbers.below(12) as u32);
            if self.numbers.one_in(30 * count) {
                flags ^= 1 << self.numbers.below(4);
                len = [0, u32::MAX, u32::MAX - 3, 16][self.numbers.below(4) as usize];
            }
            if let Some((place, bytes)) = table.filter(|_| is_last) {
                (addr, len, flags) = (place, bytes as u32, flags | INDIRECT);
            }
            let next = next as u16;
            let bytes = Descriptor { addr, len, flags, next }.bytes();
            put(self.image, &self.memory, self.table.wrapping_add(16 * index), &bytes);
            index = (index + step) % self.len;
        }
    }
}

// Where an indirect table lies, and how many bytes it has.
fn indirect_table(numbers: &mut Numbers) -> (u64, u64) {
    let place = match numbers.below(16) {
        0 => SEGMENTS + 0x2000 - 8 * numbers.below(64),
        1 => u64::MAX - numbers.below(64),
        _ => TABLES,
    };
    (place, 16 * (1 + numbers.below(65_535)))
}

// How many of these descriptors a walk has: mostly some, sometimes all.
fn count(numbers: &mut Numbers, len: u64, all: u64) -> u64 {
    match numbers.one_in(all) {
        true => len,
        false => 1 + numbers.below(len.min(24)),
    }
}

// Writes a ring for a driver, with the next head at this index.
fn write_ring(image: &mut Image, driver: &Driver<'_>, numbers: &mut Numbers, start: u16) {
    let (size, memory) = (u64::from(driver.size), driver.memory);
    let head = numbers.below(size);
    let direct = count(numbers, size, 1 + size / 8);
    let writes = numbers.below(direct + 2);
    let table = numbers.one_in(4).then(|| indirect_table(numbers));
    let mut walk = Walk {
        image,
        memory,
        numbers,
        table: BASE,
        len: size,
    };
    walk.put(head, direct, writes, table);
    if let Some((place, bytes)) = table {
        (walk.table, walk.len) = (place, bytes / 16);
        let inner = count(walk.numbers, bytes / 16, 2_000);
        walk.put(0, inner, if writes < direct { 0 } else { inner / 2 }, None);
    }
    let slot = driver.avail_ring + 4 + 2 * (u64::from(start) % size);
    put(image, &memory, slot, &(head as u16).to_le_bytes());
    let index = start.wrapping_add(1 + numbers.below(size) as u16);
    put(image, &memory, driver.avail_ring + 2, &index.to_le_bytes());
}

#[test]
fn rings_of_every_size() {
    let machine = Machine::new().unwrap();
    let mut image = Image::new(&RANGES, |i| (i * 5 % 253) as u8);
    let memory = machine.memory(memory_of(&machine, &image)).unwrap();
    for (addr, bytes) in image.ranges() {
        memory.write_slice(bytes, at(*addr)).unwrap();
    }
    let queue = machine.queue(32_768, MOST).unwrap();
    let mut numbers = Numbers(0x5eed);
    let mut ends = BTreeMap::new();
    for round in 0..48_000 {
        let driver = Driver::new(memory, BASE, 1 << (round % 16));
        let start = numbers.any() as u16;
        driver.set_up(&queue);
        queue.set_next_avail(start);
        write_ring(&mut image, &driver, &mut numbers, start);
        let end = end_of(&queue, &memory, &mut image, &mut numbers, true);
        *ends.entry(end).or_insert(0) += 1;
    }
    println!("{ends:?}");
    // Each way in which the pop of a head can end comes, but a want of memory.
    assert!(ends["chain"] > 10_000 && ends.len() == 11, "{ends:?}");
    for (addr, bytes) in image.ranges() {
        let mut left = vec![0; bytes.len()];
        memory.read_slice(&mut left, at(*addr)).unwrap();
        assert!(left == *bytes);
    }
}
