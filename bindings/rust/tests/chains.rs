//! Reads and writes of chains at every offset and of many lengths, beside a slow model: segments without bytes,
//! segments over two regions, segments that end outside of memory, indirect tables, and an IOMMU.

mod ring;
mod slow;

use ring::{at, Descriptor, Driver, Numbers, INDIRECT, NEXT};
use slow::{total, Image, Segment};
use std::io::{self, ErrorKind, Read, Write};
use vm_memory_proved::queue::{DescriptorChain, Queue, QueueError, Reader, Writer};
use vm_memory_proved::{GuestMemory, GuestMemoryError, IommuError, Machine, Permissions, Reason};

// Two regions in a row, the first of which ends at an odd address, and one after a gap.
const RANGES: [(u64, usize); 3] = [(0x1000, 0x41), (0x1041, 0x2f), (0x2000, 0x40)];

// The queue lies in a region of its own, and its indirect tables behind it.
const RINGS: u64 = 0x8000;
const TABLE: u64 = 0x9000;

// Where I/O addresses lead, how many, and for which accesses. Those from 0x80 on have no memory, and 0x90 no mapping.
const IO: u64 = 0x10_0000;
const MAPS: [(u64, u64, u64, Permissions); 5] = [
    (IO, 0x1000, 0x40, Permissions::ReadWrite),
    (IO + 0x40, 0x1040, 0x20, Permissions::Read),
    (IO + 0x60, 0x2000, 0x20, Permissions::Write),
    (IO + 0x80, 0x3000, 0x10, Permissions::ReadWrite),
    (IO + 0xa0, 0x2020, 0x20, Permissions::ReadWrite),
];

// ---- the slow model

#[derive(Clone, Copy, Debug, PartialEq, Eq)]
enum Fault {
    NoMemory(u64),
    Iommu(u64, usize, Reason),
}

// The bytes of a guest, which a device reaches by addresses or by I/O addresses.
struct Model {
    image: Image,
    is_mapped: bool,
}

impl Model {
    // Where an address leads, or why it does not.
    fn physical(&self, addr: u64, access: Permissions) -> Result<u64, Reason> {
        if !self.is_mapped {
            return Ok(addr);
        }
        let map = MAPS
            .iter()
            .find(|(from, _, len, _)| (*from..from + len).contains(&addr));
        let (from, to, _, allowed) = map.ok_or(Reason::MissingMapping)?;
        if !allowed.allow(access) {
            return Err(Reason::AccessNotAllowed);
        }
        Ok(to + (addr - from))
    }

    // The physical addresses that one access reaches. An IOMMU refuses all of it.
    fn access(&self, addr: u64, count: usize, access: Permissions) -> Result<Vec<u64>, Fault> {
        let all: Vec<_> = (0..count as u64).map(|i| self.physical(addr + i, access)).collect();
        for reason in [Reason::MissingMapping, Reason::AccessNotAllowed] {
            if all.contains(&Err(reason)) {
                return Err(Fault::Iommu(addr, count, reason));
            }
        }
        let all: Vec<u64> = all.into_iter().map(Result::unwrap).collect();
        let there = all.iter().take_while(|addr| self.image.byte(**addr).is_some()).count();
        match there {
            0 if count != 0 => Err(Fault::NoMemory(all[0])),
            _ => Ok(all[..there].to_vec()),
        }
    }

    // The physical addresses that a call reaches: by an access for each segment, until one is refused or ends early.
    fn call(&self, segments: &[Segment], offset: u64, count: usize, access: Permissions) -> Result<Vec<u64>, Fault> {
        let (mut before, mut reached) = (offset, Vec::new());
        for segment in segments
            .iter()
            .filter(|segment| segment.is_written == (access == Permissions::Write))
        {
            let skipped = before.min(segment.len);
            before -= skipped;
            let most = (segment.len - skipped).min((count - reached.len()) as u64) as usize;
            match self.access(segment.addr + skipped, most, access) {
                Err(fault) if reached.is_empty() => return Err(fault),
                Err(_) => break,
                Ok(addrs) => {
                    reached.extend_from_slice(&addrs);
                    if addrs.len() < most {
                        break;
                    }
                }
            }
        }
        Ok(reached)
    }
}

fn fault_of(error: QueueError) -> Fault {
    match error {
        QueueError::GuestMemory(GuestMemoryError::InvalidGuestAddress(addr)) => Fault::NoMemory(addr.0),
        QueueError::GuestMemory(GuestMemoryError::IommuError(IommuError::CannotResolve { iova_range, reason })) => {
            Fault::Iommu(iova_range.base.0, iova_range.length, reason)
        }
        error => panic!("{error}"),
    }
}

// ---- a device beside the model

struct Beside<'a> {
    // Physical memory, and memory as the device has it.
    plain: GuestMemory<'a>,
    memory: GuestMemory<'a>,
    queue: Queue<'a>,
    driver: Driver<'a>,
    model: Model,
    numbers: Numbers,
}

impl<'a> Beside<'a> {
    fn new(machine: &'a Machine, is_mapped: bool) -> Beside<'a> {
        let image = Image::new(&RANGES, |i| (i * 11 % 255) as u8);
        let ranges = RANGES.iter().copied().chain([(RINGS, 0x2000)]);
        let regions: Vec<_> = ranges
            .map(|(addr, size)| machine.region(machine.block(size, 16).unwrap(), at(addr)).unwrap())
            .collect();
        let layout = machine.layout(&regions).unwrap();
        let (table, space) = (machine.table(None).unwrap(), machine.space(1 << 21, 16).unwrap());
        let translator = machine.translator(table).unwrap();
        let all = Permissions::ReadWrite;
        for (from, to, len, access) in MAPS.into_iter().chain([(RINGS, RINGS, 0x2000, all)]) {
            machine
                .set_mapping(table, at(from), at(to), len as usize, access)
                .unwrap();
        }
        let behind = machine.new_memory(layout, translator, space, is_mapped).unwrap();
        let plain = machine.memory(machine.plain(layout).unwrap()).unwrap();
        for (addr, bytes) in image.ranges() {
            plain.write_slice(bytes, at(*addr)).unwrap();
        }
        let driver = Driver::new(plain, RINGS, 64);
        Beside {
            plain,
            memory: machine.memory(behind).unwrap(),
            queue: driver.queue(200),
            driver,
            model: Model { image, is_mapped },
            numbers: Numbers(0x1234_5678),
        }
    }

    // Publishes these segments as a chain, those from `direct` on by an indirect table, and pops it.
    fn chain(&mut self, segments: &[Segment], direct: usize) -> DescriptorChain<'a> {
        let rows: Vec<_> = segments
            .iter()
            .map(|segment| (segment.addr, segment.len as u32, segment.is_written))
            .collect();
        self.driver.put_chain(0, &rows[..direct]);
        if direct < rows.len() {
            Driver::new(self.plain, TABLE, 64).put_chain(0, &rows[direct..]);
            let table = Descriptor {
                addr: TABLE,
                len: 16 * (rows.len() - direct) as u32,
                flags: INDIRECT,
                next: 0,
            };
            self.driver.put(direct as u16, table);
            if let Some(&(addr, len, is_written)) = rows[..direct].last() {
                let flags = NEXT | if is_written { ring::WRITE } else { 0 };
                let next = direct as u16;
                self.driver.put(next - 1, Descriptor { addr, len, flags, next });
            }
        }
        self.driver.publish(0);
        let chain = self.queue.pop_descriptor_chain(&self.memory).unwrap().unwrap();
        assert_eq!(chain.readable_len() as u64, total(segments, false));
        assert_eq!(chain.writable_len() as u64, total(segments, true));
        chain
    }

    fn read(&self, chain: &DescriptorChain<'_>, segments: &[Segment], offset: u64, count: usize) {
        let mut buf = vec![0xee; count];
        let wanted = self.model.call(segments, offset, count, Permissions::Read);
        match chain.read_at(&self.memory, offset as usize, &mut buf) {
            Ok(read) => {
                let wanted = wanted.unwrap();
                let bytes: Vec<u8> = wanted
                    .iter()
                    .map(|addr| self.model.image.byte(*addr).unwrap())
                    .collect();
                assert_eq!(buf[..read], bytes);
                assert!(buf[read..].iter().all(|byte| *byte == 0xee));
            }
            Err(error) => {
                assert_eq!(Err(fault_of(error)), wanted);
                assert_eq!(buf, vec![0xee; count]);
            }
        }
    }

    fn write(&mut self, chain: &DescriptorChain<'_>, segments: &[Segment], offset: u64, count: usize) {
        let bytes: Vec<u8> = (0..count).map(|_| self.numbers.any() as u8).collect();
        let wanted = self.model.call(segments, offset, count, Permissions::Write);
        match chain.write_at(&self.memory, offset as usize, &bytes) {
            Ok(written) => {
                let wanted = wanted.unwrap();
                assert_eq!(written, wanted.len());
                for (addr, byte) in wanted.into_iter().zip(bytes) {
                    self.model.image.set(addr, byte);
                }
            }
            Err(error) => assert_eq!(Err(fault_of(error)), wanted),
        }
        self.compare();
    }

    // Writes and returns the chain by one call, and pops it again. It stays in flight if it does not take all bytes.
    fn complete(
        &mut self,
        chain: DescriptorChain<'a>,
        segments: &[Segment],
        offset: u64,
        count: usize,
    ) -> DescriptorChain<'a> {
        let bytes: Vec<u8> = (0..count).map(|_| self.numbers.any() as u8).collect();
        let wanted = self.model.call(segments, offset, count, Permissions::Write);
        let len = self.numbers.any() as u32;
        let used = self.driver.used_idx();
        let completed = chain.complete_at(&self.memory, offset as usize, &bytes, len);
        for (addr, byte) in wanted.iter().flatten().zip(&bytes) {
            self.model.image.set(*addr, *byte);
        }
        self.compare();
        match (completed, wanted) {
            (Ok(()), Ok(addrs)) => {
                assert_eq!(addrs.len(), count);
                assert_eq!(self.driver.take(), Some((0, len)));
                assert!(matches!(self.queue.forget(0), Err(QueueError::NotInFlight)));
                self.driver.publish(0);
                return self.queue.pop_descriptor_chain(&self.memory).unwrap().unwrap();
            }
            (Err(QueueError::GuestMemory(GuestMemoryError::PartialBuffer { expected, completed })), Ok(addrs)) => {
                assert_eq!((expected, completed), (count, addrs.len()));
                assert!(addrs.len() < count);
            }
            (Err(error), wanted) => assert_eq!(Err(fault_of(error)), wanted),
            (Ok(()), Err(fault)) => panic!("{fault:?}"),
        }
        assert_eq!(self.driver.used_idx(), used);
        chain
    }

    // All bytes are those of the model.
    fn compare(&self) {
        for (addr, bytes) in self.model.image.ranges() {
            let mut left = vec![0; bytes.len()];
            self.plain.read_slice(&mut left, at(*addr)).unwrap();
            assert_eq!(left, *bytes);
        }
    }

    // Reads and writes a chain at each offset, up to past its end, or at some of them if they are many.
    fn each_offset(&mut self, segments: &[Segment], direct: usize) {
        let mut chain = self.chain(segments, direct);
        for is_written in [false, true] {
            let len = total(segments, is_written);
            let offsets: Vec<u64> = match len {
                0..=200 => (0..len + 3).chain([u64::MAX]).collect(),
                _ => (0..40).chain([len - 0x40, len - 2, len - 1, len, len + 1]).collect(),
            };
            for offset in offsets {
                for count in [0, 1, 2, 3, 7, 16, len.min(300) as usize, len.min(300) as usize + 5] {
                    match is_written {
                        false => self.read(&chain, segments, offset, count),
                        true => self.write(&chain, segments, offset, count),
                    }
                    if is_written && count % 3 != 1 {
                        chain = self.complete(chain, segments, offset, count);
                    }
                }
            }
        }
        self.streams(&chain, segments);
        self.queue.add_used(&self.memory, 0, 0).unwrap();
        assert_eq!(self.driver.take(), Some((0, 0)));
    }

    // A reader and a writer move on by what each call moves, and stay where one is refused.
    fn streams(&mut self, chain: &DescriptorChain<'a>, segments: &[Segment]) {
        let mut reader = chain.reader(&self.memory);
        while self.reads_on(&mut reader, segments) {
            assert_eq!(reader.bytes_read() + reader.available_bytes(), chain.readable_len());
        }
        let mut writer = chain.writer(&self.memory);
        while self.writes_on(&mut writer, segments) {
            assert_eq!(writer.bytes_written() + writer.available_bytes(), chain.writable_len());
        }
        self.compare();
    }

    // Whether a reader came further, and not too far.
    fn reads_on(&mut self, reader: &mut Reader<'_>, segments: &[Segment]) -> bool {
        let (offset, mut buf) = (reader.bytes_read(), vec![0; 1 + self.numbers.below(9) as usize]);
        let wanted = self.model.call(segments, offset as u64, buf.len(), Permissions::Read);
        match reader.read(&mut buf) {
            Ok(count) => {
                let addrs = wanted.unwrap().into_iter();
                let bytes: Vec<u8> = addrs.map(|addr| self.model.image.byte(addr).unwrap()).collect();
                assert_eq!(buf[..count], bytes);
                assert_eq!(reader.bytes_read(), offset + count);
                count != 0 && offset < 300
            }
            Err(error) => {
                assert!(wanted.is_err() && error.get_ref().unwrap().is::<QueueError>());
                assert_eq!(reader.bytes_read(), offset);
                false
            }
        }
    }

    fn writes_on(&mut self, writer: &mut Writer<'_>, segments: &[Segment]) -> bool {
        let (offset, buf) = (writer.bytes_written(), vec![7; 1 + self.numbers.below(9) as usize]);
        let wanted = self.model.call(segments, offset as u64, buf.len(), Permissions::Write);
        match writer.write(&buf) {
            Ok(count) => {
                let addrs = wanted.unwrap();
                assert_eq!(count, addrs.len());
                addrs.into_iter().for_each(|addr| self.model.image.set(addr, 7));
                assert_eq!(writer.bytes_written(), offset + count);
                count != 0 && offset < 300
            }
            Err(error) => {
                assert!(wanted.is_err() && error.get_ref().unwrap().is::<QueueError>());
                assert_eq!(writer.bytes_written(), offset);
                false
            }
        }
    }
}

// ---- shapes of chains

fn read(addr: u64, len: u64) -> Segment {
    let is_written = false;
    Segment { addr, len, is_written }
}

fn written(addr: u64, len: u64) -> Segment {
    let is_written = true;
    Segment { addr, len, is_written }
}

// Each shape goes by direct descriptors, by an indirect table alone, and by both.
fn each_way(beside: &mut Beside<'_>, segments: &[Segment]) {
    for direct in [segments.len(), 0, segments.len() / 2] {
        beside.each_offset(segments, direct);
    }
}

#[test]
fn chains_at_each_offset() {
    let machine = Machine::new().unwrap();
    let mut beside = Beside::new(&machine, false);
    let shapes = [
        vec![read(0x1000, 5)],
        vec![written(0x1007, 5)],
        // Without bytes, wherever they lie.
        vec![read(0x1000, 0)],
        vec![written(0, 0), written(u64::MAX, 0)],
        vec![
            read(0x1000, 0),
            read(u64::MAX, 0),
            read(0x1003, 2),
            read(7, 0),
            written(7, 0),
            written(0x1008, 3),
        ],
        // Over two regions, and the same bytes more than once.
        vec![
            read(0x103e, 8),
            read(0x1040, 2),
            written(0x103c, 9),
            written(0x2000, 3),
            written(0x103c, 9),
        ],
        vec![read(0x1000, 0x70), written(0x1000, 0x70)],
        // One byte each.
        (0..20)
            .map(|i| read(0x1000 + 3 * i, 1))
            .chain((0..20).map(|i| written(0x2010 - i, 1)))
            .collect(),
        // Before memory, up to its end and past it, in a gap, and at the greatest addresses.
        vec![read(0xffc, 8), written(0xffe, 4)],
        vec![read(0x1068, 8), written(0x1069, 8), written(0x2000, 4)],
        vec![read(0x1000, 4), read(0x1800, 4), read(0x2000, 4)],
        vec![
            read(0x1000, 4),
            read(0x106c, 8),
            read(0x1000, 4),
            written(0x2000, 2),
            written(0x203f, 9),
        ],
        vec![written(0x1800, 4), written(0x2000, 4)],
        vec![read(u64::MAX - 8, 8), written(u64::MAX - 1, 1)],
        // More bytes than memory has.
        vec![read(0x1000, 0x8000_0000), written(0x2000, 0x7fff_ffff)],
        vec![read(0x1000, 2), read(0x2000, 0xffff_fff0), written(0x1005, 3)],
    ];
    for segments in &shapes {
        each_way(&mut beside, segments);
    }
}

#[test]
fn chains_at_each_offset_behind_an_iommu() {
    let machine = Machine::new().unwrap();
    let mut beside = Beside::new(&machine, true);
    let shapes = [
        vec![read(IO, 5), read(IO + 0x30, 9), written(IO + 3, 5)],
        vec![
            read(IO, 0),
            read(IO + 0x90, 0),
            read(IO + 5, 4),
            written(1, 0),
            written(IO + 0xa0, 4),
        ],
        // Over two mappings, and up to where the access is not allowed, or nothing is mapped.
        vec![read(IO + 0x3e, 4), written(IO + 0x3c, 4), written(IO + 0x3c, 8)],
        vec![read(IO + 0x5c, 8), written(IO + 0x60, 8)],
        vec![read(IO, 4), read(IO + 0x60, 4), written(IO, 4), written(IO + 0x40, 4)],
        vec![read(IO, 4), read(IO + 0x98, 4), written(IO, 4), written(IO + 0x8c, 8)],
        vec![read(IO + 0x9c, 8), written(IO + 0x5c, 8)],
        vec![read(IO + 0x7c, 8), written(IO + 0x7c, 8), written(IO + 0xa0, 4)],
        // Mapped where no memory is.
        vec![read(IO + 0x80, 4), written(IO + 0x88, 4)],
        vec![
            read(IO + 0xa8, 4),
            read(IO + 0x80, 4),
            written(IO + 0xb0, 4),
            written(IO + 0x80, 4),
        ],
        vec![read(0x1000, 4), written(u64::MAX - 1, 1)],
    ];
    for segments in &shapes {
        each_way(&mut beside, segments);
    }
}

#[test]
fn random_chains_at_each_offset() {
    let machines = [Machine::new().unwrap(), Machine::new().unwrap()];
    for (machine, is_mapped) in machines.iter().zip([false, true]) {
        let mut beside = Beside::new(machine, is_mapped);
        for _ in 0..400 {
            let count = 1 + beside.numbers.below(7) as usize;
            let writes = beside.numbers.below(count as u64 + 1) as usize;
            let segments: Vec<Segment> = (0..count)
                .map(|i| {
                    let (base, room) = match (is_mapped, beside.numbers.below(4)) {
                        (true, _) => (IO - 4, 0xc8),
                        (false, 0) => (0x2030, 0x20),
                        (false, _) => (0xffc, 0x7c),
                    };
                    Segment {
                        addr: base + beside.numbers.below(room),
                        len: beside.numbers.below(9),
                        is_written: i >= writes,
                    }
                })
                .collect();
            let direct = beside.numbers.below(count as u64 + 1) as usize;
            beside.each_offset(&segments, direct);
        }
    }
}

// ---- readers and writers of std::io

#[test]
fn a_chain_is_read_and_written_by_std_io() {
    let machine = Machine::new().unwrap();
    let mut beside = Beside::new(&machine, false);
    let segments = [
        read(0x1000, 3),
        read(0x2000, 0),
        read(0x103f, 6),
        written(0x2000, 4),
        written(0x2010, 9),
    ];
    beside.plain.write_slice(b"abc", at(0x1000)).unwrap();
    beside.plain.write_slice(b"defghi", at(0x103f)).unwrap();
    let chain = beside.chain(&segments, 2);
    let memory = beside.memory;
    let mut text = String::new();
    assert_eq!(chain.reader(&memory).read_to_string(&mut text).unwrap(), 9);
    assert_eq!(text, "abcdefghi");
    let mut reader = chain.reader(&memory);
    assert_eq!(reader.read_obj::<u32>().unwrap().to_le_bytes(), *b"abcd");
    assert_eq!((reader.bytes_read(), reader.available_bytes()), (4, 5));
    assert_eq!(reader.read_obj::<[u8; 5]>().unwrap(), *b"efghi");
    assert_eq!(reader.read_obj::<u8>().unwrap_err().kind(), ErrorKind::UnexpectedEof);
    assert_eq!(reader.available_bytes(), 0);

    let mut writer = chain.writer(&memory);
    assert_eq!(io::copy(&mut chain.reader(&memory), &mut writer).unwrap(), 9);
    assert_eq!((writer.bytes_written(), writer.available_bytes()), (9, 4));
    writer.flush().unwrap();
    writer.write_obj(0x3433_3231_u32).unwrap();
    assert_eq!(writer.write_obj(1_u8).unwrap_err().kind(), ErrorKind::WriteZero);
    assert_eq!(memory.read_obj::<[u8; 4]>(at(0x2000)).unwrap(), *b"abcd");
    assert_eq!(memory.read_obj::<[u8; 9]>(at(0x2010)).unwrap(), *b"efghi1234");
    write!(chain.writer(&memory), "{:04}", 27).unwrap();
    assert_eq!(memory.read_obj::<[u8; 4]>(at(0x2000)).unwrap(), *b"0027");
    beside.queue.add_used(&memory, 0, 13).unwrap();
    assert_eq!(beside.driver.take(), Some((0, 13)));
}

// What no memory has ends a reader and a writer, with the error of the access.
#[test]
fn streams_end_with_memory() {
    let machine = Machine::new().unwrap();
    let mut beside = Beside::new(&machine, false);
    let memory = beside.memory;
    let chain = beside.chain(&[read(0x106e, 4), written(0x203e, 4)], 2);
    let mut bytes = Vec::new();
    let refused = chain.reader(&memory).read_to_end(&mut bytes).unwrap_err();
    assert_eq!((refused.kind(), bytes.len()), (ErrorKind::Other, 2));
    let refused = chain.writer(&memory).write_all(b"1234").unwrap_err();
    assert_eq!(refused.to_string(), "Guest memory error: invalid guest address 8256");
    assert_eq!(memory.read_obj::<[u8; 2]>(at(0x203e)).unwrap(), *b"12");
}

// A megabyte by one call.
#[test]
fn one_call_moves_any_length() {
    const LEN: usize = 1 << 20;
    let machine = Machine::new().unwrap();
    let memory = machine.memory(ring::memory_of(&machine, 0, 3 * LEN)).unwrap();
    let bytes: Vec<u8> = (0..LEN).map(|i| (i * 13 % 251) as u8).collect();
    memory.write_slice(&bytes, at(LEN as u64)).unwrap();
    let mut driver = Driver::new(memory, 0, 256);
    let queue = driver.queue(256);
    // In pieces that begin at odd places, each half of what is left.
    let mut rows = Vec::new();
    for (first, is_written) in [(LEN, false), (2 * LEN, true)] {
        let (mut place, mut left) = (first, LEN);
        while left > 0 {
            let len = left.div_ceil(2);
            rows.push((place as u64, len as u32, is_written));
            (place, left) = (place + len, left - len);
        }
    }
    driver.put_chain(0, &rows);
    driver.publish(0);
    let chain = queue.pop_descriptor_chain(&memory).unwrap().unwrap();
    let mut came = vec![0; LEN + 1];
    assert_eq!(chain.reader(&memory).read(&mut came).unwrap(), LEN);
    assert!(came[..LEN] == bytes);
    came.reverse();
    assert_eq!(chain.writer(&memory).write(&came).unwrap(), LEN);
    let mut left = vec![0; LEN];
    memory.read_slice(&mut left, at(2 * LEN as u64)).unwrap();
    assert!(left == came[..LEN]);
    assert_eq!(chain.read_at(&memory, LEN - 3, &mut came).unwrap(), 3);
    assert_eq!(chain.write_at(&memory, LEN - 3, &came).unwrap(), 3);
}
