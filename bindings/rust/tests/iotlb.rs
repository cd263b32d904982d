//! A front end's messages on the I/O table of a memory, and calls that are made again after each mapping came.
//!
//! An I/O table maps pages of 16 bytes here, each to another place than its neighbours' mappings lead to, so that a
//! call needs one range for each page that it touches.

mod messages;
mod ring;

use messages::{invalidate, message, update, ACCESS_FAIL, INVALIDATE, MISS, UPDATE};
use ring::{at, Numbers};
use vm_memory_proved::iotlb::{IotlbError, Malformed, UserRegion};
use vm_memory_proved::raw::{code, kind, Call};
use vm_memory_proved::{GuestMemory, GuestMemoryError, IommuError, Machine, MachineError, MemoryId};
use vm_memory_proved::{Permissions, Reason, TableId};

const PAGE: u64 = 16;
const PAGES: u64 = 256;
const SIZE: u64 = PAGE * PAGES;

// Where guest memory begins, and where the front end has it.
const START: u64 = 0x10_0000;
const USER: u64 = 0x7f00_0000_0000;

const ALL: [UserRegion; 1] = [UserRegion {
    user_address: USER,
    guest_address: at_start(),
    len: SIZE,
}];

const fn at_start() -> vm_memory_proved::GuestAddress {
    vm_memory_proved::GuestAddress(START)
}

// A memory behind a table, the same without it, and the bytes that the device finds from the address 0 on.
struct Device<'a> {
    machine: &'a Machine,
    table: TableId,
    memory: GuestMemory<'a>,
    plain: GuestMemory<'a>,
    limit: Option<usize>,
    bytes: Vec<u8>,
}

// The page that a page is mapped to.
fn physical(page: u64) -> u64 {
    (5 * page + 3) % PAGES
}

impl<'a> Device<'a> {
    fn new(machine: &'a Machine, limit: Option<usize>) -> Device<'a> {
        let block = machine.block(SIZE as usize, 16).unwrap();
        let layout = machine.layout(&[machine.region(block, at(START)).unwrap()]).unwrap();
        let plain = machine.memory(machine.plain(layout).unwrap()).unwrap();
        let (table, space) = (machine.table(limit).unwrap(), machine.space(1 << 20, 16).unwrap());
        let translator = machine.translator(table).unwrap();
        let memory = machine.new_memory(layout, translator, space, true).unwrap();
        Device {
            machine,
            table,
            memory: machine.memory(memory).unwrap(),
            plain,
            limit,
            bytes: vec![0; SIZE as usize],
        }
    }

    fn id(&self) -> MemoryId {
        self.memory.id()
    }

    // The front end maps a page.
    fn map(&self, page: u64) {
        let user = USER + PAGE * physical(page);
        let message = update(PAGE * page, PAGE, user, Permissions::ReadWrite);
        self.machine.apply_iotlb(self.id(), &message, &ALL).unwrap();
    }

    fn is_mapped(&self, page: u64) -> bool {
        let found = self
            .machine
            .lookup(self.table, at(PAGE * page), PAGE as usize, Permissions::ReadWrite);
        found.unwrap().is_ok()
    }

    fn mapped(&self) -> Vec<u64> {
        (0..PAGES).filter(|page| self.is_mapped(*page)).collect()
    }

    // All bytes are those of the model.
    fn compare(&self) {
        for (page, bytes) in self.bytes.chunks(PAGE as usize).enumerate() {
            let mut left = [0; PAGE as usize];
            let addr = START + PAGE * physical(page as u64);
            self.plain.read_slice(&mut left, at(addr)).unwrap();
            assert!(left == bytes, "page {page}");
        }
    }

    // Makes a call until it is done or refused for its table's limit, and maps the first page that it missed each time.
    // Returns how often it was made.
    fn until_done(&self, mut call: impl FnMut() -> Result<(), GuestMemoryError>) -> (usize, bool) {
        for tries in 1..=self.limit.unwrap_or(PAGES as usize) + 2 {
            let is_done = match call() {
                Ok(()) => true,
                Err(GuestMemoryError::IommuError(IommuError::TableTooSmall { .. })) => false,
                Err(error) => {
                    assert!(is_missing(&error), "{error}");
                    let miss = self.machine.take_miss().unwrap();
                    self.compare();
                    self.map(miss.iova_range.base.0 / PAGE);
                    continue;
                }
            };
            return (tries, is_done);
        }
        panic!("a call is refused again and again");
    }
}

fn is_missing(error: &GuestMemoryError) -> bool {
    matches!(
        error,
        GuestMemoryError::IommuError(IommuError::CannotResolve {
            reason: Reason::MissingMapping,
            ..
        })
    )
}

fn is_too_small(error: &GuestMemoryError) -> bool {
    matches!(error, GuestMemoryError::IommuError(IommuError::TableTooSmall { .. }))
}

// One call of some kind on `len` bytes from `addr` on.
fn some_call(device: &mut Device<'_>, numbers: &mut Numbers, addr: u64, len: usize) -> (usize, bool) {
    let place = addr as usize..addr as usize + len;
    let written: Vec<u8> = (0..len).map(|_| numbers.any() as u8).collect();
    let memory = device.memory;
    let which = numbers.below(5);
    let mut read = vec![0; len];
    let ended = match which {
        0 => device.until_done(|| memory.read_slice(&mut read, at(addr))),
        1 => device.until_done(|| {
            let mut sink = Vec::new();
            memory.write_all_volatile_to(at(addr), &mut sink, len)?;
            read.copy_from_slice(&sink);
            Ok(())
        }),
        2 => device.until_done(|| memory.write_slice(&written, at(addr))),
        3 => device.until_done(|| memory.read_exact_volatile_from(at(addr), &mut &written[..], len)),
        _ => device.until_done(|| memory.mark_reached(at(addr), len).map(drop)),
    };
    if ended.1 && which < 2 {
        assert!(read == device.bytes[place.clone()]);
    }
    if ended.1 && (2..4).contains(&which) {
        device.bytes[place].copy_from_slice(&written);
    }
    device.compare();
    ended
}

// Each call is made again after the mapping of the first address that it missed came, and ends: it is done if it needs
// no more ranges than the table keeps, and else refused for that with nothing changed.
#[test]
fn each_call_ends() {
    for limit in [Some(1), Some(2), Some(3), Some(8), Some(64), None] {
        let machine = Machine::new().unwrap();
        let device = &mut Device::new(&machine, limit);
        let numbers = &mut Numbers(0x10_71b);
        let (mut done, mut refused) = (0, 0);
        for _ in 0..400 {
            let most = if numbers.one_in(4) { 90 * PAGE } else { 4 * PAGE };
            let len = 1 + numbers.below(most);
            let addr = numbers.below(SIZE - len + 1);
            let ranges = (addr + len - 1) / PAGE - addr / PAGE + 1;
            let (tries, is_done) = some_call(device, numbers, addr, len as usize);
            let fits = limit.is_none_or(|limit| ranges as usize <= limit);
            assert_eq!(is_done, fits, "{ranges} ranges, {limit:?}");
            // No call misses more often than it needs ranges, and twice more.
            assert!(tries <= ranges as usize + 2);
            if let (Some(limit), false) = (limit, fits) {
                assert_eq!(tries, limit + 2);
                assert!(machine.take_miss().is_some());
            }
            done += u32::from(is_done);
            refused += u32::from(!is_done);
            if numbers.one_in(8) {
                let (start, size) = (numbers.below(SIZE), numbers.below(SIZE) + 1);
                machine.apply_iotlb(device.id(), &invalidate(start, size), &[]).unwrap();
            }
        }
        assert!(done > 40 && (refused > 40 || limit.is_none_or(|limit| limit == 64)));
        assert!(limit != Some(64) || refused > 10);
    }
}

// ---- the rule, step by step

fn read(device: &Device<'_>, first: u64, pages: u64) -> Result<(), GuestMemoryError> {
    let mut bytes = vec![0; (PAGE * pages) as usize];
    device.memory.read_slice(&mut bytes, at(PAGE * first))
}

fn expect_miss(device: &Device<'_>, first: u64, pages: u64, missed: u64) {
    let error = read(device, first, pages).unwrap_err();
    assert!(is_missing(&error), "{error}");
    let miss = device.machine.take_miss().unwrap();
    assert_eq!(miss.iova_range.base, at(PAGE * missed));
}

// The first UPDATE after a call missed again finds the table empty, and no other one does.
#[test]
fn the_table_is_emptied_once() {
    let machine = Machine::new().unwrap();
    let device = Device::new(&machine, Some(4));
    device.map(200);
    expect_miss(&device, 0, 3, 0);
    device.map(0);
    assert_eq!(device.mapped(), [0, 200]);
    expect_miss(&device, 0, 3, 1);
    assert_eq!(device.mapped(), [0, 200]);
    device.map(1);
    assert_eq!(device.mapped(), [1]);
    expect_miss(&device, 0, 3, 0);
    device.map(0);
    expect_miss(&device, 0, 3, 2);
    device.map(2);
    assert_eq!(device.mapped(), [0, 1, 2]);
    read(&device, 0, 3).unwrap();
    // It was done, so it begins anew.
    device.map(200);
    machine.invalidate_mapping(device.table, at(0), PAGE as usize).unwrap();
    expect_miss(&device, 0, 3, 0);
    device.map(0);
    assert_eq!(device.mapped(), [0, 1, 2, 200]);
}

// A call that needs one range more than the table keeps is refused by name when it was made twice more than there are
// ranges, and what it missed is told. Then it begins anew.
#[test]
fn a_call_that_needs_too_many_ranges_is_refused() {
    for limit in 1..6_u64 {
        let machine = Machine::new().unwrap();
        let device = Device::new(&machine, Some(limit as usize));
        for _ in 0..3 {
            for _ in 0..limit + 1 {
                let error = device
                    .memory
                    .write_slice(&vec![7; (PAGE * (limit + 1)) as usize], at(0));
                assert!(is_missing(&error.unwrap_err()));
                device.map(machine.take_miss().unwrap().iova_range.base.0 / PAGE);
            }
            let error = device
                .memory
                .write_slice(&vec![7; (PAGE * (limit + 1)) as usize], at(0));
            let error = error.unwrap_err();
            assert!(is_too_small(&error), "{error}");
            let miss = machine.take_miss().unwrap();
            assert_eq!(miss.access, Permissions::Write);
            assert!(!device.is_mapped(miss.iova_range.base.0 / PAGE));
            device.compare();
        }
    }
}

// A call that is made again without an UPDATE is refused as before, however often.
#[test]
fn only_updates_count() {
    let machine = Machine::new().unwrap();
    let device = Device::new(&machine, Some(1));
    for _ in 0..20 {
        expect_miss(&device, 0, 2, 0);
    }
    device.map(0);
    for _ in 0..20 {
        expect_miss(&device, 0, 2, 1);
    }
    // No UPDATE: one that is malformed, those of another table, and mappings that came by other calls.
    let other = Device::new(&machine, Some(1));
    for page in 0..20 {
        let bad = update(PAGE, PAGE, USER + SIZE, Permissions::Read);
        assert!(machine.apply_iotlb(device.id(), &bad, &ALL).is_err());
        other.map(page);
        let to = at(START + PAGE * physical(page % 2));
        let set = machine.set_mapping(device.table, at(PAGE * (page % 2)), to, 16, Permissions::Read);
        set.unwrap();
        expect_miss(&device, 0, 2, 1 - page % 2);
    }
    device.map(1);
    assert!(is_too_small(&read(&device, 0, 2).unwrap_err()));
}

// Another call that misses takes its place, and an INVALIDATE of its table has it forgotten. Other calls do not.
#[test]
fn what_is_remembered() {
    let machine = Machine::new().unwrap();
    let device = Device::new(&machine, Some(2));
    let other = Device::new(&machine, Some(2));
    // What comes between the second miss of a call and its UPDATE, and whether that finds the table empty.
    type Between = fn(&Device<'_>, &Device<'_>);
    let rows: [(Between, bool); 6] = [
        (|_, _| {}, true),
        (|device, _| device.compare(), true),
        (
            |_, other| {
                let message = invalidate(0, 0);
                other.machine.apply_iotlb(other.id(), &message, &[]).unwrap();
            },
            true,
        ),
        (|device, _| read(device, 0, 1).unwrap(), true),
        (|device, _| expect_miss(device, 9, 1, 9), false),
        (
            |device, _| {
                let message = invalidate(PAGE * 100, PAGE);
                device.machine.apply_iotlb(device.id(), &message, &[]).unwrap();
            },
            false,
        ),
    ];
    for (number, (between, is_emptied)) in rows.into_iter().enumerate() {
        machine.invalidate_all(device.table).unwrap();
        machine.apply_iotlb(device.id(), &invalidate(0, 0), &[]).unwrap();
        expect_miss(&device, 0, 2, 0);
        device.map(0);
        expect_miss(&device, 0, 2, 1);
        between(&device, &other);
        device.map(1);
        assert_eq!(device.is_mapped(0), !is_emptied, "row {number}");
        assert!(device.is_mapped(1));
    }
}

// ---- messages

fn malformed(answer: Result<usize, IotlbError>) -> Malformed {
    match answer {
        Err(IotlbError::Malformed(malformed)) => malformed,
        answer => panic!("{answer:?}"),
    }
}

// A malformed message is refused by name and changes nothing. But one that takes mappings back takes all of them back.
#[test]
fn malformed_messages() {
    let machine = Machine::new().unwrap();
    let device = Device::new(&machine, Some(8));
    let user = USER;
    let rows = [
        (message(0, PAGE, user, 3, 0), Malformed::Kind),
        (message(0, PAGE, user, 3, 5), Malformed::Kind),
        (message(0, PAGE, user, 3, 255), Malformed::Kind),
        (message(0, 0, 0, 1, MISS), Malformed::Kind),
        (message(0, 0, 0, 2, ACCESS_FAIL), Malformed::Kind),
        (message(0, 0, user, 3, UPDATE), Malformed::EmptyRange),
        (message(u64::MAX, 1, user, 3, UPDATE), Malformed::Range),
        (message(1, u64::MAX, user, 3, UPDATE), Malformed::Range),
        (message(0, PAGE, user, 0, UPDATE), Malformed::Permissions),
        (message(0, PAGE, user, 4, UPDATE), Malformed::Permissions),
        (message(0, PAGE, user - 1, 3, UPDATE), Malformed::UserAddress),
        (
            message(0, PAGE, user + SIZE - PAGE + 1, 3, UPDATE),
            Malformed::UserAddress,
        ),
        (message(0, SIZE + 1, user, 3, UPDATE), Malformed::UserAddress),
        (message(0, 2, u64::MAX, 3, UPDATE), Malformed::UserAddress),
    ];
    device.map(5);
    for (number, (message, wanted)) in rows.into_iter().enumerate() {
        let answer = machine.apply_iotlb(device.id(), &message, &ALL);
        assert_eq!(malformed(answer), wanted, "row {number}");
        assert_eq!(device.mapped(), [5]);
    }
    let rows = [
        (invalidate(1, 0), Malformed::EmptyRange),
        (invalidate(u64::MAX, 2), Malformed::Range),
        (invalidate(2, u64::MAX), Malformed::Range),
    ];
    for (message, wanted) in rows {
        device.map(5);
        let answer = machine.apply_iotlb(device.id(), &message, &ALL);
        assert_eq!(malformed(answer), wanted);
        assert!(device.mapped().is_empty());
    }
}

// An INVALIDATE takes back the mappings of its range, which may end at the last address; two zeros are all addresses.
#[test]
fn ranges_are_taken_back() {
    let machine = Machine::new().unwrap();
    let device = Device::new(&machine, None);
    let rows: [(u64, u64, &[u64]); 6] = [
        (PAGE * 2, PAGE, &[1, 3, 255]),
        (PAGE * 4, u64::MAX - PAGE * 4 + 1, &[1, 2, 3]),
        (0, u64::MAX, &[]),
        (0, 0, &[]),
        (u64::MAX, 1, &[1, 2, 3, 255]),
        (PAGE * 3 + 1, 1, &[1, 2, 255]),
    ];
    for (start, size, left) in rows {
        for page in [1, 2, 3, 255] {
            device.map(page);
        }
        machine.apply_iotlb(device.id(), &invalidate(start, size), &[]).unwrap();
        assert_eq!(device.mapped(), left, "{start:#x}, {size:#x}");
    }
}

// The first part that holds all of the range says where it lies, and permissions are those of the message.
#[test]
fn updates_map_announced_memory() {
    let machine = Machine::new().unwrap();
    let device = Device::new(&machine, None);
    let region = |user_address, guest, len| UserRegion {
        user_address,
        guest_address: at(guest),
        len,
    };
    let announced = [
        region(0x1000, START, 0x20),
        region(0x1010, START + 0x400, 0x20),
        region(u64::MAX - 0xf, START + 0x800, 0x10),
        region(0, START + 0xc00, 0x10),
    ];
    let target = |iova: u64, len, access| {
        let found = machine.lookup(device.table, at(iova), len, access).unwrap();
        found.map(|pieces| pieces.iter().map(|piece| piece.base.0).collect::<Vec<_>>())
    };
    let rows = [
        (0x1000, 0x20, Some(START)),
        (0x1010, 0x10, Some(START + 0x10)),
        (0x1018, 0x18, Some(START + 0x408)),
        (u64::MAX - 7, 7, Some(START + 0x808)),
        (8, 8, Some(START + 0xc08)),
        (0x1008, 0x28, None),
        (0xfff, 1, None),
    ];
    for (user, size, wanted) in rows {
        let answer = machine.apply_iotlb(device.id(), &update(0x40, size, user, Permissions::Read), &announced);
        match wanted {
            Some(wanted) => {
                answer.unwrap();
                assert_eq!(target(0x40, size as usize, Permissions::Read), Ok(vec![wanted]));
                assert!(target(0x40, 1, Permissions::Write).is_err());
            }
            None => assert_eq!(malformed(answer), Malformed::UserAddress),
        }
    }
}

// A front end may announce memory in any number of parts, each of any length.
#[test]
fn memory_is_announced_in_many_parts_and_long_ones() {
    let machine = Machine::new().unwrap();
    let device = Device::new(&machine, None);
    let target = |iova: u64| {
        let found = machine.lookup(device.table, at(iova), 1, Permissions::Read).unwrap();
        found.map(|pieces| pieces[0].base.0).ok()
    };
    for count in [1, 9, 65, 513, 4097, 0x1_0001] {
        let parts: Vec<_> = (0..count)
            .map(|part| UserRegion {
                user_address: USER + 32 * part,
                guest_address: at(START + 16 * part),
                len: 16,
            })
            .collect();
        for part in [0, count - 1] {
            let message = update(0x40, 16, USER + 32 * part, Permissions::Read);
            machine.apply_iotlb(device.id(), &message, &parts).unwrap();
            assert_eq!(target(0x4f), Some(START + 16 * part + 15), "{part} of {count}");
        }
    }
    let all = [UserRegion {
        user_address: USER,
        guest_address: at(START),
        len: 1 << 42,
    }];
    for size in [
        0x7fff_ffff,
        0x8000_0001,
        0xffff_ffff,
        0x1_0000_0001,
        0x2_0000_0000,
        1 << 42,
    ] {
        let message = update(0, size, USER, Permissions::Read);
        machine.apply_iotlb(device.id(), &message, &all).unwrap();
        assert_eq!(target(size - 1), Some(START + size - 1), "{size:#x}");
        machine
            .apply_iotlb(device.id(), &invalidate(0x1000, size - 0x1000), &all)
            .unwrap();
        assert_eq!(
            (target(0xfff), target(0x1000)),
            (Some(START + 0xfff), None),
            "{size:#x}"
        );
        assert_eq!(target(size - 1), None, "{size:#x}");
    }
}

// A message is to a memory behind a table, whose IOMMU is on, and has whole rows after it.
#[test]
fn messages_to_no_table() {
    let machine = Machine::new().unwrap();
    let device = Device::new(&machine, Some(2));
    let all = invalidate(0, 0);
    let to = |memory| machine.apply_iotlb(memory, &all, &[]);
    assert!(matches!(to(device.plain.id()), Err(IotlbError::NoTable)));
    let none = MemoryId::new(9);
    assert!(matches!(to(none), Err(IotlbError::Machine(MachineError::NoSuch))));
    device.map(3);
    machine.set_iommu_enabled(device.id(), false).unwrap();
    assert!(matches!(to(device.id()), Err(IotlbError::NoTable)));
    machine.set_iommu_enabled(device.id(), true).unwrap();
    let call = Call {
        kind: kind::IOTLB_MESSAGE,
        first: device.id().number(),
        ..Call::default()
    };
    let mut input = message(0, 0, 0, 0, INVALIDATE).to_vec();
    for len in 0..32 {
        assert_eq!(machine.call(&call, &input[..len], &mut []).code, code::BAD_CALL);
    }
    for len in 1..100 {
        input.push(0);
        let wanted = if len % 24 == 0 { code::DONE } else { code::BAD_CALL };
        assert_eq!(device.is_mapped(3), len <= 24);
        assert_eq!(machine.call(&call, &input, &mut []).code, wanted, "{len}");
    }
}

// A table that keeps three ranges says how many it evicted for each message: the first ones without the new address.
#[test]
fn evictions_are_counted() {
    let machine = Machine::new().unwrap();
    let device = Device::new(&machine, Some(3));
    let set = |page: u64, pages: u64, permissions| {
        let message = update(PAGE * page, PAGE * pages, USER + PAGE * page, permissions);
        machine.apply_iotlb(device.id(), &message, &ALL).unwrap()
    };
    let (both, read) = (Permissions::ReadWrite, Permissions::Read);
    let rows: [(u64, u64, Permissions, usize, &[u64]); 10] = [
        (2, 1, both, 0, &[2]),
        (4, 1, both, 0, &[2, 4]),
        (6, 1, both, 0, &[2, 4, 6]),
        // Page 2 goes.
        (8, 1, both, 1, &[4, 6, 8]),
        // It joins pages 4 and 6.
        (5, 1, both, 0, &[4, 5, 6, 8]),
        // It parts them again, and page 4 goes. What is only read is not listed.
        (5, 1, read, 1, &[6, 8]),
        (0, 16, both, 0, &[0, 1, 2, 3, 4, 5, 6, 7, 8, 9, 10, 11, 12, 13, 14, 15]),
        (2, 1, read, 0, &[0, 1, 3, 4, 5, 6, 7, 8, 9, 10, 11, 12, 13, 14, 15]),
        // Of five ranges the first two go: pages 0 and 1, and page 2.
        (8, 1, read, 2, &[3, 4, 5, 6, 7, 9, 10, 11, 12, 13, 14, 15]),
        // It covers what is there.
        (0, 256, read, 0, &[]),
    ];
    for (number, (page, pages, permissions, evicted, mapped)) in rows.into_iter().enumerate() {
        assert_eq!(set(page, pages, permissions), evicted, "row {number}");
        assert_eq!(device.mapped(), mapped, "row {number}");
    }
    let answer = machine.apply_iotlb(device.id(), &invalidate(PAGE, PAGE), &[]);
    assert_eq!(answer.unwrap(), 0);
}
