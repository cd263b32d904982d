//! A guest with a block device whose disk is the test's, beside a slow model. What is expected follows from the VirtIO
//! specification (version 1.2, 5.2.6), and where that leaves a choice, from crates/virtio_blk/README.md.
#![allow(dead_code)]

use crate::messages;
use crate::ring::{at, Descriptor, Driver, Numbers, INDIRECT};
use crate::slow::{addresses, total, Image, Segment};
use vm_memory_proved::block::*;
use vm_memory_proved::iotlb::UserRegion;
use vm_memory_proved::queue::{self, DescriptorChain, Queue, QueueError};
use vm_memory_proved::{BlockId, GuestMemory, GuestMemoryError, IommuError, IovaRange};
use vm_memory_proved::{Machine, Miss, Permissions, Reason, TableId};

/// What the specification calls them: VIRTIO_BLK_T_IN and so on.
pub const IN: u32 = 0;
pub const OUT: u32 = 1;
pub const FLUSH: u32 = 4;
pub const GET_ID: u32 = 8;

pub const ACCEPTS_FLUSH: u64 = 1 << 9;
pub const NAME: &[u8; 20] = b"a disk of the test\0\0";
pub const IOERR: Request = Request::Refused { status: 1 };
pub const UNSUPP: Request = Request::Refused { status: 2 };

/// The memory of the guest: two regions. An IOMMU maps it by pages of 256 bytes, of which the first region ends with a
/// half and the second with one byte, or by smaller ones, so that a table of 64 ranges is full, too.
pub const RANGES: [(u64, usize); 2] = [(0x1000, 0x1380), (0x3000, 0x1001)];
pub const PAGE: u64 = 0x100;
pub const SMALL_PAGE: u64 = 0x40;

/// Where the first region ends, and the last byte of the second.
pub const END: u64 = 0x2380;
pub const LAST: u64 = 0x4000;

/// The queue lies above them, and its indirect tables behind it. Nothing maps these addresses to others.
pub const RINGS: u64 = 0x8000;
pub const TABLE: u64 = 0x9000;
pub const RINGS_LEN: usize = 0x4000;

// ---- the slow model

/// A disk with a cache. What is not stable yet is lost with the power.
#[derive(Clone, Debug, PartialEq, Eq)]
pub struct Disk {
    pub bytes: Vec<u8>,
    pub stable: Vec<u8>,
}

impl Disk {
    pub fn new(sectors: usize) -> Disk {
        let bytes: Vec<u8> = (0..512 * sectors).map(|i| (i * 7 % 251) as u8).collect();
        Disk {
            stable: bytes.clone(),
            bytes,
        }
    }

    pub fn flush(&mut self) {
        self.stable.clone_from(&self.bytes);
    }
}

pub fn number(bytes: &[u8]) -> u64 {
    bytes
        .iter()
        .rev()
        .fold(0, |number, byte| number << 8 | u64::from(*byte))
}

/// Whether a chain breaks a limit that the driver keeps: SEG_MAX counts the segments beside the one of the header and
/// the one of the status, and SIZE_MAX the bytes of each.
pub fn is_over_limit(segments: &[Segment], limits: DeviceLimits) -> bool {
    let limit = |limit: Option<u32>| limit.filter(|most| *most != 0).map_or(u64::MAX, u64::from);
    let data = segments.len().saturating_sub(2) as u64;
    data > limit(limits.seg_max) || segments.iter().any(|segment| segment.len > limit(limits.size_max))
}

/// What a chain asks for.
pub fn asked(image: &Image, segments: &[Segment], limits: DeviceLimits) -> Request {
    if total(segments, true) == 0 {
        return Request::Unserved;
    }
    if is_over_limit(segments, limits) {
        return IOERR;
    }
    let places = addresses(segments, false, 0, 16).into_iter();
    let header: Option<Vec<u8>> = places.map(|addr| image.byte(addr)).collect();
    let header = match header {
        Some(header) if header.len() == 16 => header,
        _ => return IOERR,
    };
    let (kind, sector) = (number(&header[..4]), number(&header[8..]));
    let (given, room) = (total(segments, false) - 16, total(segments, true) - 1);
    let [end, sectors] = [sector, limits.sectors].map(|sector| 512 * u128::from(sector));
    let fits = |len: u64| len % 512 == 0 && end + u128::from(len) <= sectors;
    match kind as u32 {
        IN if fits(room) => Request::Read {
            sector,
            len: room as usize,
        },
        OUT if fits(given) && !limits.read_only => Request::Write {
            sector,
            len: given as usize,
            flush: given != 0 && limits.acked & ACCEPTS_FLUSH == 0,
        },
        IN | OUT => IOERR,
        FLUSH => Request::Flush,
        GET_ID => Request::GetId {
            len: room.min(20) as usize,
        },
        _ => UNSUPP,
    }
}

/// Puts bytes to the front of the writable ones, up to an address without memory, and returns how many.
pub fn put(image: &mut Image, segments: &[Segment], bytes: &[u8]) -> usize {
    let mut moved = 0;
    for (addr, byte) in addresses(segments, true, 0, bytes.len()).into_iter().zip(bytes) {
        if image.byte(addr).is_none() {
            break;
        }
        image.set(addr, *byte);
        moved += 1;
    }
    moved
}

/// Puts the data of a write on the disk, if all of them have memory.
pub fn stored(image: &Image, segments: &[Segment], place: usize, len: usize, disk: &mut Disk) -> bool {
    let places = addresses(segments, false, 16, len).into_iter();
    let data: Option<Vec<u8>> = places.map(|addr| image.byte(addr)).collect();
    for (i, byte) in data.iter().flatten().enumerate() {
        disk.bytes[place + i] = *byte;
    }
    data.is_some()
}

/// Does what a request asks for, and returns its status and how many bytes went to the guest.
pub fn performed(image: &mut Image, segments: &[Segment], request: Request, disk: &mut Disk) -> (u8, usize) {
    let (is_done, moved) = match request {
        Request::Read { sector, len } => {
            let moved = put(image, segments, &disk.bytes[512 * sector as usize..][..len]);
            (moved == len, moved)
        }
        Request::Write { sector, len, flush } => {
            let is_done = stored(image, segments, 512 * sector as usize, len, disk);
            if is_done && flush {
                disk.flush();
            }
            (is_done, 0)
        }
        Request::Flush => {
            disk.flush();
            (true, 0)
        }
        Request::GetId { len } => {
            let moved = put(image, segments, &NAME[..len]);
            (moved == len, moved)
        }
        Request::Refused { status } => return (status, 0),
        Request::Unserved => (false, 0),
    };
    (u8::from(!is_done), moved)
}

/// Writes a status, and returns how many bytes from the first writable one on were written.
pub fn finished(image: &mut Image, segments: &[Segment], status: u8, moved: usize) -> u32 {
    let room = total(segments, true);
    let Some(&last) = addresses(segments, true, room.saturating_sub(1), 1).first() else {
        return 0;
    };
    let is_there = image.byte(last).is_some();
    image.set(last, status);
    (moved + usize::from(is_there && moved as u64 + 1 == room)) as u32
}

// ---- a guest and its device

/// The calls of a request, in their order.
#[derive(Clone, Copy, Debug, PartialEq, Eq)]
pub enum Step {
    Pop,
    Begin,
    Read,
    Write,
    Finish,
    AddUsed,
}

pub const STEPS: [Step; 6] = [
    Step::Pop,
    Step::Begin,
    Step::Read,
    Step::Write,
    Step::Finish,
    Step::AddUsed,
];

/// How the device reaches memory: by addresses, or behind an IOMMU with a table of such a limit.
#[derive(Clone, Copy, Debug, PartialEq, Eq)]
pub enum Way {
    Plain,
    Behind(Option<usize>),
}

pub struct Guest<'a> {
    pub machine: &'a Machine,
    pub way: Way,
    pub page: u64,
    pub table: TableId,
    pub blocks: Vec<BlockId>,
    /// Memory by physical addresses, and as the device has it.
    pub plain: GuestMemory<'a>,
    pub memory: GuestMemory<'a>,
    pub driver: Driver<'a>,
    pub queue: Queue<'a>,
    /// What the device finds at each address.
    pub image: Image,
    /// What the IOMMU forgets, and what it refused of each step.
    pub forgets: Numbers,
    pub refused: [u32; 6],
}

impl<'a> Guest<'a> {
    pub fn new(machine: &'a Machine, way: Way) -> Guest<'a> {
        let blocks = RANGES.iter().chain(&[(RINGS, RINGS_LEN)]);
        let blocks = blocks
            .map(|(_, size)| machine.block(*size, 16).unwrap())
            .collect::<Vec<_>>();
        let starts = [RANGES[0].0, RANGES[1].0, RINGS];
        let regions = [0, 1, 2].map(|i| machine.region(blocks[i], at(starts[i])).unwrap());
        let layout = machine.layout(&regions).unwrap();
        let plain = machine.memory(machine.plain(layout).unwrap()).unwrap();
        let limit = match way {
            Way::Plain => None,
            Way::Behind(limit) => limit,
        };
        let (table, space) = (machine.table(limit).unwrap(), machine.space(1 << 20, 16).unwrap());
        let translator = machine.translator(table).unwrap();
        let is_on = way != Way::Plain;
        let id = machine.new_memory(layout, translator, space, is_on).unwrap();
        let driver = Driver::new(plain, RINGS, 64);
        let mut guest = Guest {
            machine,
            way,
            page: if limit == Some(64) { SMALL_PAGE } else { PAGE },
            table,
            blocks,
            plain,
            memory: machine.memory(id).unwrap(),
            queue: driver.queue(600),
            driver,
            image: Image::new(&RANGES, |_| 0),
            forgets: Numbers(0xf0),
            refused: [0; 6],
        };
        for (start, size) in RANGES {
            guest.set(start, &(0..size).map(|i| (i * 11 % 253) as u8).collect::<Vec<_>>());
        }
        guest
    }

    /// Where an address leads: the whole pages of memory are mapped to one another.
    pub fn physical(&self, addr: u64) -> u64 {
        let pages = RANGES.map(|(_, size)| size as u64 / self.page);
        let place = |range: usize| (addr.wrapping_sub(RANGES[range].0)) / self.page;
        let page = match (place(0) < pages[0], place(1) < pages[1]) {
            _ if self.way == Way::Plain => return addr,
            (true, _) => place(0),
            (_, true) => pages[0] + place(1),
            _ => return addr,
        };
        let page = (11 * page + 5) % (pages[0] + pages[1]);
        let start = match page.checked_sub(pages[0]) {
            None => RANGES[0].0 + self.page * page,
            Some(page) => RANGES[1].0 + self.page * page,
        };
        start + addr % self.page
    }

    /// The driver writes bytes, where there is memory.
    pub fn set(&mut self, addr: u64, bytes: &[u8]) {
        for (i, byte) in bytes.iter().enumerate() {
            let addr = addr + i as u64;
            if self.image.byte(addr).is_some() {
                self.image.set(addr, *byte);
                self.plain.write_slice(&[*byte], at(self.physical(addr))).unwrap();
            }
        }
    }

    /// All bytes are those of the model.
    pub fn compare(&self) {
        let page = self.page as usize;
        for (start, bytes) in self.image.ranges() {
            for (addr, bytes) in (*start..).step_by(page).zip(bytes.chunks(page)) {
                let mut left = [0; PAGE as usize];
                let left = &mut left[..bytes.len()];
                self.plain.read_slice(left, at(self.physical(addr))).unwrap();
                assert!(left == bytes, "{addr:#x}");
            }
        }
    }

    /// Publishes these segments as a chain, those from `direct` on by an indirect table.
    pub fn publish(&mut self, segments: &[Segment], direct: usize) {
        let rows = segments.iter().map(|it| (it.addr, it.len as u32, it.is_written));
        let mut rows: Vec<_> = rows.collect();
        if direct < rows.len() {
            let inner = rows.split_off(direct);
            Driver::new(self.plain, TABLE, 64).put_chain(0, &inner);
            rows.push((TABLE, 16 * inner.len() as u32, false));
        }
        self.driver.put_chain(0, &rows);
        if direct < segments.len() {
            let (addr, len, _) = rows[direct];
            let (flags, next) = (INDIRECT, 0);
            self.driver.put(direct as u16, Descriptor { addr, len, flags, next });
        }
        self.driver.publish(0);
    }

    // ---- the IOMMU

    /// Where the front end, which announced all of memory and what lies around it, has a guest address.
    const USER: u64 = 0x7000_0000;

    /// The front end maps a range of addresses to those that they lead to.
    fn update(&self, from: u64, len: u64, access: Permissions) {
        let user = Guest::USER + self.physical(from);
        let all = [UserRegion {
            user_address: Guest::USER,
            guest_address: at(0),
            len: 1 << 32,
        }];
        let message = messages::update(from, len, user, access);
        self.machine.apply_iotlb(self.memory.id(), &message, &all).unwrap();
    }

    /// The front end answers a MISS of an address: it maps the address's page, or all of the rings.
    pub fn map(&self, addr: u64, access: Permissions) {
        if (RINGS..RINGS + RINGS_LEN as u64).contains(&addr) {
            self.update(RINGS, RINGS_LEN as u64, access);
        } else {
            self.update(addr / self.page * self.page, self.page, access);
        }
    }

    /// Maps these addresses and no others. They lie in one page, or in the rings.
    pub fn map_just(&self, range: IovaRange, access: Permissions) {
        let (table, to) = (self.table, self.physical(range.base.0));
        let mapped = self
            .machine
            .set_mapping(table, range.base, at(to), range.length, access);
        mapped.unwrap();
    }

    /// The driver takes mappings back at any time.
    pub fn forget_some(&mut self) {
        if self.way == Way::Plain {
            return;
        }
        let (start, len) = match self.forgets.below(12) {
            0 => (0, 0),
            1 => (PAGE * self.forgets.below(0x40), PAGE << self.forgets.below(4)),
            _ => return,
        };
        let message = messages::invalidate(start, len);
        self.machine.apply_iotlb(self.memory.id(), &message, &[]).unwrap();
    }

    /// What the machine says that a refused access missed first. Before it nothing is missed, and each end of it is. If
    /// nothing is missed, it is what was forbidden first.
    pub fn first_missed(&self, range: IovaRange, step: Step) -> IovaRange {
        let Miss { iova_range, access } = self.machine.take_miss().expect("the table refused a call");
        assert_eq!(access, access_of(step));
        let lookup = |base: u64, length: u64| {
            let found = self.machine.lookup(self.table, at(base), length as usize, access);
            found.unwrap()
        };
        let allowed = |base: u64, length: u64| lookup(base, length).is_ok();
        let mapped =
            |base: u64, length: u64| lookup(base, length).map_or_else(|fails| fails.misses.is_empty(), |_| true);
        let (base, length) = (iova_range.base.0, iova_range.length as u64);
        let (first, end) = (range.base.0, range.base.0 + range.length as u64);
        assert!(first <= base && length > 0 && base + length <= end);
        if mapped(first, end - first) {
            assert!(allowed(first, base - first) && !allowed(base, 1) && !allowed(base + length - 1, 1));
        } else {
            assert!(mapped(first, base - first) && !mapped(base, 1) && !mapped(base + length - 1, 1));
        }
        iova_range
    }

    /// Makes the call of a step until it is not refused, after a mapping came each time: the front end answers the
    /// first address that the call missed. A call that is refused leaves memory as it is. With a limit of ranges, at
    /// most one more than that are missed in a row. No call here needs more ranges than the limit, so none is refused
    /// for it.
    pub fn until_done<T>(
        &mut self,
        step: Step,
        mut call: impl FnMut(&GuestMemory<'a>, &Queue<'a>) -> Result<T, QueueError>,
    ) -> Result<T, QueueError> {
        self.forget_some();
        let most = match self.way {
            Way::Behind(Some(limit)) => limit + 1,
            _ => 40,
        };
        let mut misses = 0;
        for _ in 0..100 {
            let (range, access) = match call(&self.memory, &self.queue) {
                Err(error) => match missing(&error) {
                    Some((range, Reason::MissingMapping)) => {
                        misses += 1;
                        assert!(misses <= most, "{step:?} missed {misses} times");
                        (self.first_missed(range, step), access_of(step))
                    }
                    Some((range, _)) => {
                        misses = 0;
                        (self.first_missed(range, step), Permissions::ReadWrite)
                    }
                    None => return Err(error),
                },
                Ok(answer) => return Ok(answer),
            };
            self.refused[step as usize] += 1;
            if step != Step::Write {
                self.compare();
            }
            self.map(range.base.0, access);
        }
        panic!("{step:?} is refused again and again");
    }

    // ---- the device

    /// Writes to the front of the writable bytes, up to an address without memory, and returns how many.
    pub fn send(&mut self, chain: &DescriptorChain<'a>, bytes: &[u8]) -> usize {
        let mut moved = 0;
        while moved < bytes.len() {
            match self.until_done(Step::Write, |memory, _| chain.write_at(memory, moved, &bytes[moved..])) {
                Ok(count) => moved += count,
                Err(QueueError::GuestMemory(GuestMemoryError::InvalidGuestAddress(_))) => break,
                Err(error) => panic!("{error}"),
            }
        }
        moved
    }

    /// Reads the data of a write, up to an address without memory, and returns how many bytes.
    pub fn receive(&mut self, chain: &DescriptorChain<'a>, bytes: &mut [u8]) -> usize {
        let mut moved = 0;
        while moved < bytes.len() {
            let rest = &mut bytes[moved..];
            match self.until_done(Step::Read, |memory, _| chain.read_at(memory, HEADER_LEN + moved, rest)) {
                Ok(count) => moved += count,
                Err(QueueError::GuestMemory(GuestMemoryError::InvalidGuestAddress(_))) => break,
                Err(error) => panic!("{error}"),
            }
        }
        moved
    }

    pub fn perform(&mut self, chain: &DescriptorChain<'a>, request: Request, disk: &mut Disk) -> (u8, usize) {
        let (is_done, moved) = match request {
            Request::Read { sector, len } => {
                let start = SECTOR_LEN * sector as usize;
                let moved = self.send(chain, &disk.bytes[start..start + len]);
                (moved == len, moved)
            }
            Request::Write { sector, len, flush } => {
                let (start, mut data) = (SECTOR_LEN * sector as usize, vec![0; len]);
                let is_done = self.receive(chain, &mut data) == len;
                if is_done {
                    disk.bytes[start..start + len].copy_from_slice(&data);
                }
                if is_done && flush {
                    disk.flush();
                }
                (is_done, 0)
            }
            Request::Flush => {
                disk.flush();
                (true, 0)
            }
            Request::GetId { len } => {
                let moved = self.send(chain, &NAME[..len]);
                (moved == len, moved)
            }
            Request::Refused { status } => return (status, 0),
            Request::Unserved => (false, 0),
        };
        (if is_done { VIRTIO_BLK_S_OK } else { VIRTIO_BLK_S_IOERR }, moved)
    }

    /// Serves a request of these segments, of which those from `direct` on lie in an indirect table, beside the model,
    /// and returns what it asked for and the length of its used entry. The model has a disk of its own.
    pub fn serve(
        &mut self,
        segments: &[Segment],
        direct: usize,
        disks: &mut [Disk; 2],
        limits: DeviceLimits,
    ) -> (Request, u32) {
        self.publish(segments, direct);
        let chain = self.until_done(Step::Pop, |memory, queue| queue.pop_descriptor_chain(memory));
        let chain = chain.unwrap().unwrap();
        assert_eq!(segments_of(&chain), segments);
        let request = self.until_done(Step::Begin, |memory, _| chain.begin_request(memory, limits));
        let request = request.unwrap();
        assert_eq!(request, asked(&self.image, segments, limits));
        self.compare();
        let (status, moved) = self.perform(&chain, request, &mut disks[0]);
        let wanted = performed(&mut self.image, segments, request, &mut disks[1]);
        assert_eq!((status, moved), wanted);
        self.compare();
        let len = self.until_done(Step::Finish, |memory, _| chain.finish_request(memory, status, moved));
        let len = len.unwrap();
        assert_eq!(len, finished(&mut self.image, segments, status, moved));
        self.compare();
        let returned = self.until_done(Step::AddUsed, |memory, queue| queue.add_used(memory, 0, len));
        returned.unwrap();
        assert_eq!((self.driver.take(), self.driver.take()), (Some((0, len)), None));
        assert!(disks[0] == disks[1]);
        (request, len)
    }
}

/// The segments that a chain in flight is said to have.
pub fn segments_of(chain: &DescriptorChain<'_>) -> Vec<Segment> {
    let segment = |segment: &queue::Segment| Segment {
        addr: segment.addr.0,
        len: segment.len as u64,
        is_written: segment.is_write_only,
    };
    chain.segments().unwrap().iter().map(segment).collect()
}

pub fn access_of(step: Step) -> Permissions {
    match step {
        Step::Pop | Step::Begin | Step::Read => Permissions::Read,
        Step::Write | Step::Finish | Step::AddUsed => Permissions::Write,
    }
}

/// The range that an IOMMU refuses, and why.
pub fn missing(error: &QueueError) -> Option<(IovaRange, Reason)> {
    match error {
        QueueError::GuestMemory(GuestMemoryError::IommuError(IommuError::CannotResolve { iova_range, reason })) => {
            Some((*iova_range, *reason))
        }
        _ => None,
    }
}

pub fn read(addr: u64, len: u64) -> Segment {
    let is_written = false;
    Segment { addr, len, is_written }
}

pub fn written(addr: u64, len: u64) -> Segment {
    let is_written = true;
    Segment { addr, len, is_written }
}

// ---- requests of tests

/// Where a header, the data after it, and the writable bytes mostly lie.
pub const HEADER: u64 = 0x1000;
pub const DATA: u64 = 0x1010;
pub const ROOM: u64 = 0x3000;

pub fn limits_of(sectors: u64) -> DeviceLimits {
    DeviceLimits {
        sectors,
        acked: ACCEPTS_FLUSH,
        ..DeviceLimits::default()
    }
}

pub fn header(kind: u32, sector: u64) -> [u8; 16] {
    let mut bytes = [0xa5; 16];
    bytes[..4].copy_from_slice(&kind.to_le_bytes());
    bytes[8..].copy_from_slice(&sector.to_le_bytes());
    bytes
}

/// Cuts a segment in pieces, each of a number of bytes, over and over.
pub fn cut(segment: Segment, lens: &[u64]) -> Vec<Segment> {
    let (mut addr, end, mut pieces) = (segment.addr, segment.addr + segment.len, Vec::new());
    for len in lens.iter().cycle() {
        let len = *len.min(&(end - addr));
        pieces.push(Segment { addr, len, ..segment });
        addr += len;
        if addr == end {
            return pieces;
        }
    }
    pieces
}

pub fn to_read(sector: u64, len: u64) -> Request {
    let len = len as usize;
    Request::Read { sector, len }
}

pub fn to_write(sector: u64, len: u64, flush: bool) -> Request {
    let len = len as usize;
    Request::Write { sector, len, flush }
}
