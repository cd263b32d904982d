//! A guest whose threads change descriptors, tables, indices, headers and the used ring while a device serves requests.
//! What a call tested once it may not fetch again: each field has values that are refused, beside those that are
//! served, and behind what is refused lie places that nothing else names. Rings are split and packed, also behind an
//! IOMMU.
//!
//! `RACES_REQUESTS` is how many requests each of the four serves, in place of two seconds.

mod guest;
mod ring;

use guest::{BusyGuest, Guest};
use ring::{at, Driver, Numbers, INDIRECT, NEXT, WRITE};
use std::os::fd::AsFd;
use std::sync::atomic::Ordering::{Relaxed, SeqCst};
use std::sync::atomic::{AtomicBool, AtomicU32};
use std::thread;
use std::time::{Duration, Instant};
use vm_memory_proved::block::{DeviceLimits, Request, HEADER_LEN, SECTOR_LEN, VIRTIO_BLK_S_IOERR, VIRTIO_BLK_S_OK};
use vm_memory_proved::queue::{DescriptorChain, Queue, QueueError};
use vm_memory_proved::{memfd, GuestMemory, Machine, MemoryId, Permissions};

const TIME: Duration = Duration::from_secs(2);

// How often a thread changes a field before it goes on to another one.
const TURNS: u16 = 64;

const BASE: u64 = 0x10_0000;
const SIZE: usize = 0x1_0000;
const ENTRIES: u16 = 8;

// Where things lie in the block. A split ring has as many descriptors again past its last one, of which none may be
// read.
const TABLE: usize = 0;
const DRIVER: usize = 0x400;
const DEVICE: usize = 0x800;
const TABLES: usize = 0x1000;
const HEADERS: usize = 0x2000;
const READ: usize = 0x4000;
const WRITTEN: usize = 0x8000;
const STATUS: usize = 0xc000;
const FORBIDDEN: usize = 0xe000;

// A piece of data has so many bytes at most, and the next one begins after a gap.
const PIECE: usize = 0x400;
const STEP: usize = 0x800;

// An indirect table has four rows. The bytes behind them are rows, too, of as many bytes as a length has that is
// refused.
const ROWS: u16 = 4;
const TABLE_STEP: usize = 0x100;
const REFUSED_ROWS: u32 = 0x108;

// Two of these are more than a chain may have.
const LONG: u32 = 1 << 31;

// Sectors that headers name. A request has fewer than 16.
const SECTORS: u64 = 64;
const NAMED: [u64; 4] = [0, 3, 32, 37];
const LAST_NAMED: [std::ops::Range<usize>; 2] = [19..32, 53..64];

const DISK: u8 = 0xee;
const MEMORY: u8 = 0xff;
const NOTHING: u8 = 0xc5;

// Places of the block that the guest or the device changes.
fn changing() -> Vec<(usize, usize)> {
    let each = |from: usize, step: usize, count: usize, len: usize| (0..count).map(move |i| (from + step * i, len));
    let rings = [
        (TABLE, 16 * usize::from(ENTRIES)),
        (DRIVER, 6 + 2 * usize::from(ENTRIES)),
        (DEVICE, 6 + 8 * usize::from(ENTRIES)),
    ];
    rings
        .into_iter()
        .chain(each(TABLES, TABLE_STEP, 4, 16 * usize::from(ROWS)))
        .chain(each(HEADERS, 0x40, 8, 16))
        .chain(each(WRITTEN, STEP, 8, PIECE))
        .chain(each(STATUS, 0x40, 8, 1))
        .collect()
}

// A descriptor as two numbers. The other fields of a packed one come in the other order.
fn words(addr: usize, base: u64, len: u32, flags: u16, other: u16, is_packed: bool) -> [u64; 2] {
    let (third, fourth) = if is_packed { (other, flags) } else { (flags, other) };
    let fields = u64::from(len) | u64::from(third) << 32 | u64::from(fourth) << 48;
    [base + addr as u64, fields]
}

// What a descriptor is for.
#[derive(Clone, Copy)]
enum Role {
    Header,
    Read,
    Written,
    Status,
    Table,
}

const SLOTS: [Role; ENTRIES as usize] = [
    Role::Header,
    Role::Read,
    Role::Written,
    Role::Status,
    Role::Header,
    Role::Written,
    Role::Status,
    Role::Table,
];

// The descriptors with which chains of a split ring begin.
const HEADS: [u16; 4] = [0, 4, 7, 7];

fn rows_of(table: usize) -> [Role; ROWS as usize] {
    let data = [Role::Read, Role::Written][table % 2];
    [Role::Header, data, Role::Status, Role::Status]
}

// What the guest's threads share with the device.
struct Shared {
    guest: BusyGuest,
    // Where addresses begin: those of guest memory, or of the IOMMU.
    base: u64,
    is_packed: bool,
    // Where the device pops next.
    next: AtomicU32,
    is_over: AtomicBool,
}

impl Shared {
    fn put(&self, place: usize, [addr, fields]: [u64; 2]) {
        self.guest.store(place, addr);
        self.guest.store(place + 8, fields);
    }

    // The flags that make a slot of a packed ring available, if the device comes there next.
    fn mark(&self, slot: u16) -> u16 {
        let (position, wrap) = (
            self.next.load(Relaxed) as u16 & 0x7fff,
            self.next.load(Relaxed) >> 15 & 1 == 1,
        );
        if (slot >= position) == wrap {
            1 << 7
        } else {
            1 << 15
        }
    }

    // Where a part of a request lies, its length and its flags. An address of one descriptor may be found with the
    // other fields of the next one that lies there, so each descriptor has one role.
    fn part(&self, numbers: &mut Numbers, role: Role) -> (usize, u32, u16) {
        let eighth = numbers.below(8) as usize;
        let len = [SECTOR_LEN as u32, PIECE as u32][numbers.below(2) as usize];
        match role {
            Role::Header => (HEADERS + 0x40 * (eighth / 4), HEADER_LEN as u32, NEXT),
            Role::Read => (
                READ + STEP * (eighth / 2),
                if numbers.one_in(8) { LONG } else { len },
                NEXT,
            ),
            // One that is read may come after it, and the chain is refused then.
            Role::Written => (
                WRITTEN + STEP * eighth,
                len,
                NEXT | [WRITE, WRITE, WRITE, 0][eighth / 2],
            ),
            Role::Status => (STATUS + 0x40 * eighth, 1, WRITE),
            Role::Table => (TABLES + TABLE_STEP * (eighth / 4), 16 * u32::from(ROWS), INDIRECT),
        }
    }

    // Changes a descriptor of the ring.
    fn change_descriptor(&self, numbers: &mut Numbers) {
        let ahead = numbers.below(ENTRIES.into()) as u16 / [1, 4][numbers.below(2) as usize];
        let mut slot = (self.next.load(Relaxed) as u16 % (1 << 15) + ahead) % ENTRIES;
        if !self.is_packed && numbers.one_in(2) {
            slot = HEADS[numbers.below(4) as usize];
        }
        self.change_slot(numbers, slot, TURNS);
    }

    // Changes a descriptor so many times: one field is refused each second time, and not at the end.
    fn change_slot(&self, numbers: &mut Numbers, slot: u16, turns: u16) {
        let place = TABLE + 16 * usize::from(slot);
        let (addr, len, flags) = self.part(numbers, SLOTS[usize::from(slot)]);
        let after = [slot + 1, 3][numbers.below(2) as usize] % ENTRIES;
        for turn in (0..turns).rev() {
            let is_refused = turn % 2 == 1;
            let (len, other) = match (is_refused, flags) {
                (true, INDIRECT) => (REFUSED_ROWS, after),
                (true, _) => (len, after + ENTRIES),
                (false, _) => (len, after),
            };
            let flags = if self.is_packed { flags | self.mark(slot) } else { flags };
            self.put(place, words(addr, self.base, len, flags, other, self.is_packed));
        }
    }

    // Publishes a request, if nothing is changed meanwhile.
    fn publish(&self, numbers: &mut Numbers, next: u16) {
        if self.is_packed {
            for ahead in (0..4).rev() {
                self.change_slot(numbers, (next % (1 << 15) + ahead) % ENTRIES, 1);
            }
            return;
        }
        let slot = DRIVER + 4 + 2 * usize::from(next % ENTRIES);
        self.guest.word(slot).store(HEADS[numbers.below(4) as usize], Relaxed);
        self.guest.word(DRIVER + 2).store(next.wrapping_add(1), Relaxed);
    }

    // Changes a row of an indirect table.
    fn change_row(&self, numbers: &mut Numbers) {
        let (table, row) = (numbers.below(2) as usize, numbers.below(ROWS.into()) as u16);
        let place = TABLES + TABLE_STEP * table + 16 * usize::from(row);
        let (addr, len, flags) = self.part(numbers, rows_of(table)[usize::from(row)]);
        // At times it leads past a table of the length that is served, and not past that of the one that is refused.
        let last = if numbers.one_in(4) { ROWS } else { row + 1 };
        for turn in 0..TURNS {
            let next = if turn % 2 == 0 { ROWS } else { last };
            self.put(place, words(addr, self.base, len, flags, next, self.is_packed));
        }
    }

    // Has a header name a sector of the disk, and one that it has not, again and again.
    fn change_header(&self, numbers: &mut Numbers) {
        let place = HEADERS + 0x40 * numbers.below(2) as usize;
        self.guest
            .store(place, [0, 0, 1, 1, 1, 4, 8, 11][numbers.below(8) as usize]);
        for turn in 0..u64::from(TURNS) {
            let sector = NAMED[numbers.below(4) as usize] | ((turn + 1) % 2) << 40;
            self.guest.store(place + 8, sector);
        }
    }

    // Changes what a split ring has beside its descriptors.
    fn change_ring(&self, numbers: &mut Numbers) {
        let next = self.next.load(Relaxed) as u16;
        for turn in 0..16 {
            let slot = DRIVER + 4 + 2 * usize::from((next.wrapping_add(turn / 4)) % ENTRIES);
            let head = HEADS[numbers.below(4) as usize] + ENTRIES * ((turn + 1) % 2);
            self.guest.word(slot).store(head, Relaxed);
        }
        if numbers.one_in(8) {
            self.guest.word(DRIVER + 2).store(numbers.any() as u16, Relaxed);
        }
        let ahead = 1 + numbers.below(ENTRIES.into()) as u16;
        self.guest.word(DRIVER + 2).store(next.wrapping_add(ahead), Relaxed);
        self.guest.word(DRIVER).store(numbers.below(2) as u16, Relaxed);
    }

    // Changes what only the device writes.
    fn change_used(&self, numbers: &mut Numbers) {
        let words = if self.is_packed {
            2
        } else {
            3 + 4 * usize::from(ENTRIES)
        };
        let place = DEVICE + 2 * numbers.below(words as u64) as usize;
        self.guest.word(place).store(numbers.any() as u16, Relaxed);
    }

    fn change_all_the_time(&self, seed: u64) {
        let numbers = &mut Numbers(seed);
        while !self.is_over.load(Relaxed) {
            match numbers.below(12) {
                0..=3 => self.change_descriptor(numbers),
                4 => self.change_row(numbers),
                5..=8 => self.change_header(numbers),
                9 | 10 if !self.is_packed => self.change_ring(numbers),
                9 | 10 => self.guest.word(DRIVER + 2).store(numbers.below(4) as u16, Relaxed),
                _ => self.change_used(numbers),
            }
        }
    }
}

// Ends the guest, also if the device fails.
struct EndsGuest<'a>(&'a AtomicBool);

impl Drop for EndsGuest<'_> {
    fn drop(&mut self) {
        self.0.store(true, SeqCst);
    }
}

struct Device<'a> {
    memory: GuestMemory<'a>,
    queue: Queue<'a>,
    shared: &'a Shared,
    disk: Vec<u8>,
    numbers: Numbers,
    served: u32,
    moved: u32,
    refused: u32,
}

impl<'a> Device<'a> {
    fn new(memory: GuestMemory<'a>, shared: &'a Shared) -> Device<'a> {
        let machine = memory.machine();
        let queue = match shared.is_packed {
            true => machine.packed_queue(ENTRIES, 64).unwrap(),
            false => machine.queue(ENTRIES, 64).unwrap(),
        };
        let mut device = Device {
            memory,
            queue,
            shared,
            disk: vec![DISK; SECTORS as usize * SECTOR_LEN],
            numbers: Numbers(0xde71),
            served: 0,
            moved: 0,
            refused: 0,
        };
        device.set_up();
        device
    }

    // Begins anew, anywhere.
    fn set_up(&mut self) {
        let (queue, base) = (&self.queue, self.shared.base);
        queue.reset();
        queue.set_size(ENTRIES).unwrap();
        queue.try_set_desc_table_address(at(base + TABLE as u64)).unwrap();
        queue.try_set_avail_ring_address(at(base + DRIVER as u64)).unwrap();
        queue.try_set_used_ring_address(at(base + DEVICE as u64)).unwrap();
        queue.set_event_idx(self.numbers.one_in(2));
        if self.shared.is_packed {
            let place = self.numbers.below(ENTRIES.into()) as u32 | (self.numbers.below(2) as u32) << 15;
            queue.set_vring_base(place | place << 16).unwrap();
        } else {
            queue.set_next_avail(self.numbers.any() as u16);
        }
        queue.set_ready(true);
    }

    fn step(&mut self) {
        let next = self.queue.next_avail();
        self.shared.next.store(next.into(), Relaxed);
        self.shared.publish(&mut self.numbers, next);
        match self.queue.pop_descriptor_chain(&self.memory) {
            Ok(Some(chain)) => self.serve(&chain),
            Ok(None) => (),
            Err(QueueError::Memory | QueueError::NotInFlight | QueueError::InFlight) => panic!("nothing lacks"),
            Err(_) => {
                assert_eq!(self.queue.next_avail(), next);
                self.refused += 1;
                match self.numbers.below(64) {
                    0 => self.set_up(),
                    1..=16 if !self.shared.is_packed => self.queue.set_next_avail(next.wrapping_add(1)),
                    _ => (),
                }
            }
        }
        // The driver's areas are there: whatever lies in them is no error.
        match self.numbers.below(8) {
            0 => drop(self.queue.needs_notification(&self.memory).unwrap()),
            1 => drop(self.queue.enable_notification(&self.memory).unwrap()),
            2 => self.queue.disable_notification(&self.memory).unwrap(),
            _ => (),
        }
    }

    // What a chain is stays, whatever the guest writes.
    fn expect_named(&self, chain: &DescriptorChain<'_>) {
        assert!(chain.head_index() < ENTRIES, "head {}", chain.head_index());
        let (mut read, mut written) = (0, 0);
        for it in chain.segments().unwrap() {
            let place = (it.addr.0 - self.shared.base) as usize;
            let is_named = (TABLES..FORBIDDEN).contains(&place);
            assert!(is_named, "a segment at {place:#x} is named by what is refused");
            *if it.is_write_only { &mut written } else { &mut read } += it.len;
        }
        assert_eq!((read, written), (chain.readable_len(), chain.writable_len()));
        assert!(read + written < 1 << 32, "a chain has {} bytes", read + written);
    }

    fn serve(&mut self, chain: &DescriptorChain<'_>) {
        self.expect_named(chain);
        let limits = DeviceLimits {
            sectors: SECTORS,
            read_only: self.numbers.one_in(4),
            ..DeviceLimits::default()
        };
        let range = |sector: u64, len: usize| {
            assert!(NAMED.contains(&sector), "no header names sector {sector:#x}");
            let start = SECTOR_LEN * sector as usize;
            assert!(start + len <= SECTOR_LEN * SECTORS as usize, "{len} bytes at {sector}");
            start..start + len
        };
        let memory = &self.memory;
        let (is_done, moved) = match chain.begin_request(memory, limits).unwrap() {
            Request::Read { sector, len } => {
                let moved = chain.write_at(memory, 0, &self.disk[range(sector, len)]).unwrap_or(0);
                (moved == len, moved)
            }
            Request::Write { sector, len, .. } => {
                assert!(!limits.read_only, "the disk is only read");
                let moved = chain
                    .read_at(memory, HEADER_LEN, &mut self.disk[range(sector, len)])
                    .unwrap_or(0);
                (moved == len, 0)
            }
            Request::GetId { len } => (true, chain.write_at(memory, 0, &[DISK; 20][..len]).unwrap_or(0)),
            Request::Flush | Request::Refused { .. } | Request::Unserved => (false, 0),
        };
        self.moved += u32::from(is_done);
        let status = if is_done { VIRTIO_BLK_S_OK } else { VIRTIO_BLK_S_IOERR };
        let len = chain.finish_request(memory, status, moved).unwrap();
        self.expect_named(chain);
        let next = self.queue.next_used();
        // Of a used descriptor the guest may leave the length and WRITE, beside an address of its own.
        let len = if self.shared.is_packed { 0 } else { len };
        self.queue.add_used(memory, chain.head_index(), len).unwrap();
        assert!(self.shared.is_packed || self.queue.next_used() == next.wrapping_add(1));
        self.served += 1;
    }
}

// What lies in the block at the start, of which only the places that change may change.
fn prepare(shared: &Shared) -> Vec<u8> {
    let mut bytes = vec![NOTHING; SIZE];
    let mut put = |place: usize, [addr, fields]: [u64; 2]| {
        bytes[place..place + 8].copy_from_slice(&addr.to_le_bytes());
        bytes[place + 8..place + 16].copy_from_slice(&fields.to_le_bytes());
    };
    let forbidden = |flags, other| words(FORBIDDEN, shared.base, 512, flags, other, shared.is_packed);
    for index in ENTRIES..2 * ENTRIES {
        put(TABLE + 16 * usize::from(index), forbidden(WRITE, 0));
    }
    for table in 0..4 {
        for row in ROWS..16 {
            let flags = if row == 15 { WRITE } else { WRITE | NEXT };
            put(
                TABLES + TABLE_STEP * table + 16 * usize::from(row),
                forbidden(flags, row + 1),
            );
        }
    }
    bytes[READ..WRITTEN].fill(MEMORY);
    for (place, len) in changing() {
        bytes[place..place + len].fill(if place >= WRITTEN { MEMORY } else { 0 });
    }
    shared.guest.0.write(0, &bytes);
    // Each descriptor has a value of its role before the device comes.
    let numbers = &mut Numbers(1);
    (0..1000).for_each(|_| shared.change_descriptor(numbers));
    (0..1000).for_each(|_| shared.change_row(numbers));
    bytes
}

fn memory_of(machine: &Machine, file: impl AsFd, is_translated: bool) -> (MemoryId, u64) {
    let block = machine.shared_block(SIZE, 0x1000, Some((file.as_fd(), 0))).unwrap();
    let region = machine.region(block.id(), at(BASE)).unwrap();
    let layout = machine.layout(&[region]).unwrap();
    if !is_translated {
        return (machine.plain(layout).unwrap(), BASE);
    }
    let (table, first) = (machine.table(None).unwrap(), 0x7000_0000);
    for page in (0..SIZE).step_by(0x1000).rev() {
        let (from, to) = (at(first + page as u64), at(BASE + page as u64));
        machine
            .set_mapping(table, from, to, 0x1000, Permissions::ReadWrite)
            .unwrap();
    }
    let translator = machine.translator(table).unwrap();
    let space = machine.space(1 << 31, 0x1000).unwrap();
    (machine.new_memory(layout, translator, space, true).unwrap(), first)
}

fn race(is_packed: bool, is_translated: bool) {
    let file = memfd(SIZE as u64).unwrap();
    let machine = Machine::new().unwrap();
    let (memory, base) = memory_of(&machine, &file, is_translated);
    let shared = Shared {
        guest: BusyGuest(Guest::of_file(&file, SIZE)),
        base,
        is_packed,
        next: AtomicU32::new(0),
        is_over: AtomicBool::new(false),
    };
    let mut before = prepare(&shared);
    let wanted = std::env::var("RACES_REQUESTS").map(|it| it.parse::<u32>().expect("it is a number"));
    let disk = thread::scope(|scope| {
        for seed in [0xbad, 0xdead] {
            let shared = &shared;
            scope.spawn(move || shared.change_all_the_time(seed));
        }
        let is_over = EndsGuest(&shared.is_over);
        let mut device = Device::new(machine.memory(memory).unwrap(), &shared);
        let begun = Instant::now();
        while match wanted {
            Ok(many) => device.served < many,
            Err(_) => begun.elapsed() < TIME,
        } {
            device.step();
        }
        drop(is_over);
        println!(
            "packed: {is_packed}, behind an IOMMU: {is_translated}: {} requests, {} with data, {} refusals in {:.1?}",
            device.served,
            device.moved,
            device.refused,
            begun.elapsed()
        );
        assert!(device.moved > 0, "no request moved data");
        device.disk
    });
    let mut after = shared.guest.0.read(0, SIZE);
    for (place, len) in changing() {
        before[place..place + len].fill(0);
        after[place..place + len].fill(0);
    }
    let wrong = (0..SIZE).find(|&place| before[place] != after[place]);
    assert_eq!(wrong, None, "a byte changed that nothing names");
    for sector in LAST_NAMED.into_iter().flatten() {
        let bytes = &disk[SECTOR_LEN * sector..SECTOR_LEN * (sector + 1)];
        assert!(bytes.iter().all(|it| *it == DISK), "sector {sector} changed");
    }
}

#[test]
fn nothing_is_fetched_again_after_its_test() {
    for is_packed in [false, true] {
        for is_translated in [false, true] {
            race(is_packed, is_translated);
        }
    }
}

// An index that goes on over 256 is one of both numbers, and no mixture of their bytes.
#[test]
fn an_index_is_loaded_whole() {
    let file = memfd(SIZE as u64).unwrap();
    let machine = Machine::new().unwrap();
    let (memory, base) = memory_of(&machine, &file, false);
    let memory = machine.memory(memory).unwrap();
    let driver = Driver::new(memory, base, ENTRIES);
    let (queue, place) = (driver.queue(64), (driver.avail_ring + 2 - base) as usize);
    let (guest, is_over) = (BusyGuest(Guest::of_file(&file, SIZE)), AtomicBool::new(false));
    guest.word(place).store(0xff, SeqCst);
    thread::scope(|scope| {
        let (guest, over) = (&guest, &is_over);
        scope.spawn(move || {
            while !over.load(Relaxed) {
                guest.word(place).store(0x100, Relaxed);
                guest.word(place).store(0xff, Relaxed);
            }
        });
        let is_over = EndsGuest(&is_over);
        let begun = Instant::now();
        while begun.elapsed() < TIME {
            let index = queue.avail_idx(&memory).unwrap();
            assert!(index == 0xff || index == 0x100, "an index of {index:#x}");
        }
        drop(is_over);
    });
}
