//! Chains of many segments: as many as a queue has descriptors, and as an indirect table may have.

mod ring;

use ring::{at, Descriptor, Driver, INDIRECT, NEXT, WRITE};
use vm_memory_proved::queue::{DescriptorChain, QueueError, Segment};
use vm_memory_proved::{GuestMemory, Machine, MemoryId, Permissions};

// Where guest memory begins. The queue lies at its beginning, and indirect tables and data behind it.
const BASES: [u64; 2] = [0, (1 << 40) + 0x1000];
const SIZE: usize = 4 << 20;
const TABLE: u64 = 0x18_0000;
const DATA: u64 = 0x30_0000;

// The segments have one byte each, and none has that of another.
const PLACES: u64 = 0x1_0000;

fn place_of(segment: u64) -> u64 {
    segment * 7919 % PLACES
}

fn byte_of(segment: u64) -> u8 {
    (segment % 241) as u8
}

// How many of so many segments are read. The others are written.
fn readable_of(count: u64) -> u64 {
    count / 2 + 1
}

// The same memory, plain or behind an IOMMU that leads each address to itself.
fn memories(machine: &Machine, base: u64) -> [MemoryId; 2] {
    let block = machine.block(SIZE, 0x1000).unwrap();
    let region = machine.region(block, at(base)).unwrap();
    let layout = machine.layout(&[region]).unwrap();
    let table = machine.table(None).unwrap();
    machine
        .set_mapping(table, at(base), at(base), SIZE, Permissions::ReadWrite)
        .unwrap();
    let translator = machine.translator(table).unwrap();
    let space = machine.space(0x1000, 0x1000).unwrap();
    [
        machine.plain(layout).unwrap(),
        machine.new_memory(layout, translator, space, true).unwrap(),
    ]
}

// Guest memory with a driver's queue.
struct Guest<'a> {
    driver: Driver<'a>,
    base: u64,
}

impl<'a> Guest<'a> {
    fn new(memory: GuestMemory<'a>, base: u64, size: u16) -> Guest<'a> {
        let driver = Driver::new(memory, base, size);
        Guest { driver, base }
    }

    // Writes so many descriptors from an address on, and the bytes that they name.
    fn put_table(&self, table: u64, count: u64) {
        let (mut all, mut data) = (Vec::new(), vec![0xee; PLACES as usize]);
        for segment in 0..count {
            let is_read = segment < readable_of(count);
            let descriptor = Descriptor {
                addr: self.base + DATA + place_of(segment),
                len: 1,
                flags: if segment + 1 < count { NEXT } else { 0 } | if is_read { 0 } else { WRITE },
                next: (segment + 1) as u16,
            };
            all.extend(descriptor.bytes());
            if is_read {
                data[place_of(segment) as usize] = byte_of(segment);
            }
        }
        let memory = &self.driver.memory;
        memory.write_slice(&all, at(table)).unwrap();
        memory.write_slice(&data, at(self.base + DATA)).unwrap();
    }

    // Puts a table of so many entries, of which so many are a chain, and a descriptor that leads to it.
    fn put_indirect(&self, index: u16, entries: u64, count: u64) {
        let table = self.base + TABLE;
        self.put_table(table, count);
        let indirect = Descriptor {
            addr: table,
            len: 16 * entries as u32,
            flags: INDIRECT,
            next: 0,
        };
        self.driver.put(index, indirect);
    }

    // The segments of such a chain are those that the driver put there.
    fn expect_listed(&self, chain: &DescriptorChain<'_>, count: u64) {
        let segments = chain.segments().unwrap();
        assert_eq!(segments.len() as u64, count);
        for (segment, listed) in (0..).zip(segments) {
            let wanted = Segment {
                addr: at(self.base + DATA + place_of(segment)),
                len: 1,
                is_write_only: segment >= readable_of(count),
            };
            assert_eq!(listed, wanted, "segment {segment} of {count}");
        }
    }

    // Pops a chain of so many segments, reads all its bytes, writes all that are to be written, and returns it.
    fn expect_moved(&mut self, head: u16, count: u64) {
        let memory = self.driver.memory;
        let queue = self.driver.queue(0x1_0000);
        self.driver.publish(head);
        let chain = queue.pop_descriptor_chain(&memory).unwrap().unwrap();
        let readable = readable_of(count) as usize;
        let writable = count as usize - readable;
        assert_eq!(chain.head_index(), head);
        assert_eq!((chain.readable_len(), chain.writable_len()), (readable, writable));
        self.expect_listed(&chain, count);
        let mut bytes = vec![0xaa; count as usize];
        assert_eq!(chain.read_at(&memory, 0, &mut bytes).unwrap(), readable);
        let wanted: Vec<u8> = (0..readable as u64).map(byte_of).collect();
        assert!(bytes[..readable] == wanted && bytes[readable..].iter().all(|byte| *byte == 0xaa));
        let written: Vec<u8> = (0..writable).map(|i| (i % 239) as u8).collect();
        assert_eq!(chain.write_at(&memory, 0, &written).unwrap(), writable);
        let (mut data, mut wanted) = (vec![0; PLACES as usize], vec![0xee; PLACES as usize]);
        memory.read_slice(&mut data, at(self.base + DATA)).unwrap();
        for (segment, byte) in bytes[..readable].iter().chain(&written).enumerate() {
            wanted[place_of(segment as u64) as usize] = *byte;
        }
        assert!(data == wanted);
        queue.add_used(&memory, head, writable as u32).unwrap();
        assert_eq!(self.driver.take(), Some((head.into(), writable as u32)));
        assert!(queue.pop_descriptor_chain(&memory).unwrap().is_none());
    }
}

#[test]
fn a_chain_has_each_descriptor_of_its_queue() {
    for (size, count) in [(256, 256), (512, 512), (1024, 513), (1024, 1024), (32_768, 32_768)] {
        for base in BASES {
            let machine = Machine::new().unwrap();
            for id in memories(&machine, base) {
                let mut guest = Guest::new(machine.memory(id).unwrap(), base, size);
                guest.put_table(base, count);
                guest.expect_moved(0, count);
            }
        }
    }
}

#[test]
fn an_indirect_table_has_up_to_65_535_descriptors() {
    for count in [16, 17, 64, 65, 512, 513, 1024, 4097, 32_769, 65_534, 65_535] {
        for base in BASES {
            let machine = Machine::new().unwrap();
            for id in memories(&machine, base) {
                let mut guest = Guest::new(machine.memory(id).unwrap(), base, 4);
                guest.put_indirect(3, count, count);
                guest.expect_moved(3, count);
            }
        }
    }
    // One more descriptor is refused, and so is a table that ends before its chain does.
    for (entries, count, refusal) in [
        (65_536, 65_535, QueueError::InvalidIndirectTable),
        (65_534, 65_535, QueueError::InvalidDescriptorIndex),
    ] {
        let machine = Machine::new().unwrap();
        let mut guest = Guest::new(machine.memory(memories(&machine, 0)[0]).unwrap(), 0, 4);
        guest.put_indirect(3, entries, count);
        let queue = guest.driver.queue(0x1_0000);
        guest.driver.publish(3);
        let popped = queue.pop_descriptor_chain(&guest.driver.memory);
        assert_eq!(format!("{:?}", popped.unwrap_err()), format!("{refusal:?}"));
    }
}
