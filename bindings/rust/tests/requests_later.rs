//! Random requests of a block device beside a slow model, and an IOMMU whose mappings come later: each call is made
//! again then, and a request ends as it does without an IOMMU.

mod disk;
mod messages;
mod ring;
mod slow;

use disk::*;
use ring::{at, Numbers};
use slow::{addresses, Segment};
use vm_memory_proved::block::*;
use vm_memory_proved::queue::{DescriptorChain, QueueError};
use vm_memory_proved::{GuestMemory, GuestMemoryError, Machine, Permissions, Reason};

// ---- each access

// What a call returns at last, and the ranges that it was refused for before.
type Late<T> = (T, Vec<(u64, usize)>);

// Makes a call until it is not refused, and maps just the range of each refusal. No range is refused twice.
fn late<T>(guest: &Guest<'_>, mut call: impl FnMut() -> Result<T, QueueError>) -> Late<T> {
    let mut refused = Vec::new();
    loop {
        let (range, reason) = match call() {
            Ok(answer) => return (answer, refused),
            Err(error) => missing(&error).unwrap_or_else(|| panic!("{error}")),
        };
        let row = (range.base.0, range.length);
        assert!(reason == Reason::MissingMapping && !refused.contains(&row), "{row:x?}");
        refused.push(row);
        // All of the range is missed, and the access that is told is enough.
        let miss = guest.machine.take_miss().unwrap();
        assert_eq!(miss.iova_range, range);
        guest.map_just(range, miss.access);
    }
}

// Reads the data of a write.
fn late_data(guest: &Guest<'_>, chain: &DescriptorChain<'_>, len: usize) -> Late<Vec<u8>> {
    let (mut data, mut all) = (vec![0; len], Vec::new());
    let mut count = 0;
    while count < len {
        let rest = &mut data[count..];
        let (read, refused) = late(guest, || chain.read_at(&guest.memory, HEADER_LEN + count, rest));
        count += read;
        all.extend(refused);
    }
    (data, all)
}

// Nothing is mapped. The refusals of each call name its accesses in order, and no access is refused twice.
#[test]
fn each_access_waits_for_its_mapping() {
    let machine = Machine::new().unwrap();
    let guest = &mut Guest::new(&machine, Way::Behind(None));
    let (first, second) = ([read(0x1000, 4), read(0x1200, 1)], [read(0x1400, 111), read(0x1600, 0)]);
    let (third, room) = (
        [read(0x1800, 256), read(0x1a00, 156)],
        [written(0x3000, 7), written(0x3100, 1)],
    );
    let segments = [first, second, third, room].concat();
    for (addr, byte) in addresses(&segments, false, 0, 16).into_iter().zip(header(OUT, 1)) {
        guest.set(addr, &[byte]);
    }
    guest.publish(&segments, segments.len());
    let (memory, queue) = (guest.memory, guest.queue);
    let (chain, refused) = late(guest, || queue.pop_descriptor_chain(&memory));
    let chain = chain.unwrap();
    // The driver's index, the slot, and a descriptor each.
    let avail = guest.driver.avail_ring;
    let descriptors = (0..8).map(|i| (RINGS + 16 * i, 16));
    let accesses = [(avail + 2, 2), (avail + 4, 2)].into_iter().chain(descriptors);
    assert_eq!(refused, accesses.collect::<Vec<_>>());
    let begun = late(guest, || chain.begin_request(&memory, limits_of(8)));
    let accesses = vec![(0x1000, 4), (0x1200, 1), (0x1400, 11)];
    assert_eq!(begun, (to_write(1, 512, false), accesses));
    let data = addresses(&segments, false, 16, 512).into_iter();
    let data = data.map(|addr| guest.image.byte(addr).unwrap()).collect();
    let accesses = vec![(0x140b, 100), (0x1800, 256), (0x1a00, 156)];
    assert_eq!(late_data(guest, &chain, 512), (data, accesses));
    guest.image.put(0x3000, u64::from_le_bytes(*b"to read\0"), 7);
    assert_eq!(
        late(guest, || chain.write_at(&memory, 0, b"to read")),
        (7, vec![(0x3000, 7)])
    );
    guest.image.set(0x3100, 0);
    assert_eq!(
        late(guest, || chain.finish_request(&memory, 0, 7)),
        (8, vec![(0x3100, 1)])
    );
    guest.compare();
    returned_late(guest, 8);
}

// The used entry and the index after it are an access each, and neither is written before both are mapped.
fn returned_late(guest: &mut Guest<'_>, len: u32) {
    let (memory, queue, used) = (guest.memory, guest.queue, guest.driver.used_ring);
    let returned = late(guest, || {
        let mut entry = [0; 8];
        guest.plain.read_slice(&mut entry, at(used + 4)).unwrap();
        assert_eq!(entry, [0; 8]);
        queue.add_used(&memory, 0, len)
    });
    assert_eq!(returned, ((), vec![(used + 4, 8), (used + 2, 2)]));
    assert_eq!(guest.driver.take(), Some((0, len)));
    guest.compare();
}

// A chain that is completed waits for its data, the used entry and the index. It is written anew when they came.
#[test]
fn a_completed_chain_waits_for_its_mappings() {
    let machine = Machine::new().unwrap();
    let guest = &mut Guest::new(&machine, Way::Behind(None));
    guest.publish(&[read(0x1000, 4), written(0x3000, 3), written(0x3100, 2)], 3);
    let (memory, queue, used) = (guest.memory, guest.queue, guest.driver.used_ring);
    let (chain, _) = late(guest, || queue.pop_descriptor_chain(&memory));
    let chain = chain.unwrap();
    let before = bytes_at(guest, 0x3000, 3);
    let error = chain.complete_at(&memory, 0, b"abc", 3).unwrap_err();
    let (range, reason) = missing(&error).unwrap();
    assert_eq!((range.base.0, reason), (0x3000, Reason::MissingMapping));
    assert_eq!(bytes_at(guest, 0x3000, 3), before);
    assert_eq!(machine.take_miss().unwrap().access, Permissions::Write);
    let (_, refused) = late(guest, || chain.write_at(&memory, 0, b"x"));
    assert_eq!(refused, [(0x3000, 1)]);
    let error = chain.write_at(&memory, 1, b"bc").unwrap_err();
    guest.map_just(missing(&error).unwrap().0, Permissions::Write);
    // The second segment is missed after the first was written.
    match chain.complete_at(&memory, 0, b"abcde", 5).unwrap_err() {
        QueueError::GuestMemory(GuestMemoryError::PartialBuffer { expected, completed }) => {
            assert_eq!((expected, completed), (5, 3));
        }
        error => panic!("{error}"),
    }
    assert_eq!(bytes_at(guest, 0x3000, 3), b"abc");
    let completed = late(guest, || chain.complete_at(&memory, 3, b"de", 5));
    assert_eq!(completed, ((), vec![(0x3100, 2), (used + 4, 8), (used + 2, 2)]));
    assert_eq!(bytes_at(guest, 0x3100, 2), b"de");
    assert_eq!(guest.driver.take(), Some((0, 5)));
}

// Of a chain that breaks a limit no byte is asked for.
#[test]
fn a_broken_limit_waits_for_no_mapping() {
    let machine = Machine::new().unwrap();
    let guest = &mut Guest::new(&machine, Way::Behind(None));
    guest.publish(&[read(0x1000, 16), read(0x1200, 512), written(0x3000, 1)], 3);
    let (memory, queue) = (guest.memory, guest.queue);
    let (chain, _) = late(guest, || queue.pop_descriptor_chain(&memory));
    let chain = chain.unwrap();
    let size_max = Some(511);
    let begun = late(guest, || {
        chain.begin_request(
            &memory,
            DeviceLimits {
                size_max,
                ..limits_of(8)
            },
        )
    });
    assert_eq!(begun, (IOERR, vec![]));
    let (_, refused) = late(guest, || chain.begin_request(&memory, limits_of(8)));
    assert_eq!(refused, [(0x1000, 16)]);
}

// ---- a device that begins a request again

// Does what a request asks for on a disk in memory, and returns its status and how many bytes it moved to the front of
// the chain's writable ones.
fn perform(disk: &mut [u8], request: Request, memory: &GuestMemory<'_>, chain: &DescriptorChain<'_>) -> (u8, usize) {
    let (is_done, moved) = match request {
        Request::Read { sector, len } => {
            let data = &disk[SECTOR_LEN * sector as usize..][..len];
            let moved = chain.write_at(memory, 0, data).unwrap_or(0);
            (moved == len, moved)
        }
        Request::Write { sector, len, .. } => {
            let data = &mut disk[SECTOR_LEN * sector as usize..][..len];
            (chain.read_at(memory, HEADER_LEN, data).unwrap_or(0) == len, 0)
        }
        Request::GetId { len } => {
            let moved = chain.write_at(memory, 0, &NAME[..len]).unwrap_or(0);
            (moved == len, moved)
        }
        Request::Flush => (true, 0),
        Request::Refused { status } => return (status, 0),
        Request::Unserved => (false, 0),
    };
    (if is_done { VIRTIO_BLK_S_OK } else { VIRTIO_BLK_S_IOERR }, moved)
}

// Serves a request on a disk in memory. After an error the caller makes the call again when the mapping came.
fn serve(disk: &mut [u8], memory: &GuestMemory<'_>, chain: &DescriptorChain<'_>) -> Result<u32, QueueError> {
    let limits = DeviceLimits {
        acked: 0,
        ..limits_of((disk.len() / SECTOR_LEN) as u64)
    };
    let request = chain.begin_request(memory, limits)?;
    let (status, moved) = perform(disk, request, memory, chain);
    chain.finish_request(memory, status, moved)
}

// Where the status of these requests lies. Each part of a request has a page of its own.
const STATUS: u64 = 0x3800;

// The device has a request of a header, data and a status in flight.
fn asked_for<'a>(guest: &mut Guest<'a>, head: [u8; 16], data: Segment) -> DescriptorChain<'a> {
    guest.set(HEADER, &head);
    guest.publish(&[read(HEADER, 16), data, written(STATUS, 1)], 3);
    let chain = guest.queue.pop_descriptor_chain(&guest.memory);
    chain.unwrap().unwrap()
}

// The bytes at an address, as the device has them.
fn bytes_at(guest: &Guest<'_>, addr: u64, len: u64) -> Vec<u8> {
    let byte = |addr| {
        let mut byte = [0];
        guest.plain.read_slice(&mut byte, at(guest.physical(addr))).unwrap();
        byte[0]
    };
    (addr..addr + len).map(byte).collect()
}

// The data of a request for a part of the name are mapped. The header's mapping comes, and then the status's.
#[test]
fn a_request_begins_again_after_each_mapping() {
    let machine = Machine::new().unwrap();
    let guest = &mut Guest::new(&machine, Way::Behind(None));
    guest.set(ROOM, &[170; 8]);
    for addr in [RINGS, ROOM] {
        guest.map(addr, Permissions::ReadWrite);
    }
    let chain = asked_for(guest, header(GET_ID, 0), written(ROOM, 7));
    let disk = &mut [0; 4 * SECTOR_LEN];
    for (addr, missed) in [(HEADER, "0x1000+16"), (STATUS, "0x3800+1")] {
        let refused = serve(disk, &guest.memory, &chain).unwrap_err();
        assert_eq!(
            refused.to_string(),
            format!(
                "IOMMU failed to translate guest address: \
                Cannot translate I/O virtual address range {missed}: missing mapping"
            )
        );
        guest.map(addr, Permissions::ReadWrite);
    }
    assert_eq!(serve(disk, &guest.memory, &chain).unwrap(), 8);
    assert_eq!(bytes_at(guest, ROOM, 8), [&NAME[..7], &[170]].concat());
    assert_eq!(bytes_at(guest, STATUS, 1), [0]);
}

// A sector goes to a disk of 7s, and then the one before it comes from there.
#[test]
fn sectors_go_to_a_disk_in_memory() {
    let machine = Machine::new().unwrap();
    let guest = &mut Guest::new(&machine, Way::Plain);
    guest.set(ROOM, &[170; 513]);
    let disk = &mut [7; 4 * SECTOR_LEN];
    let chain = asked_for(guest, header(OUT, 2), read(ROOM, 512));
    assert_eq!(serve(disk, &guest.memory, &chain).unwrap(), 1);
    let (before, after) = disk.split_at(1024);
    assert_eq!((before, after), (&[7; 1024][..], &[[170; 512], [7; 512]].concat()[..]));
    guest.queue.add_used(&guest.memory, 0, 1).unwrap();
    let chain = asked_for(guest, header(IN, 1), written(ROOM, 512));
    assert_eq!(serve(disk, &guest.memory, &chain).unwrap(), 513);
    assert_eq!(bytes_at(guest, ROOM, 513), [&[7; 512][..], &[170]].concat());
}

// ---- random requests

const DISK: usize = 8;

// The lengths of pieces of so many bytes, of which at most three begin in the first 16.
fn pieces(numbers: &mut Numbers, len: u64) -> Vec<u64> {
    let (mut place, mut all) = (0, Vec::new());
    while place < len {
        let most = (len - place).min(1024);
        let mut piece = if numbers.one_in(2) {
            most
        } else {
            1 + numbers.below(most)
        };
        if all.len() >= 2 && place < 16 {
            piece = piece.max(most.min(16 - place));
        }
        all.push(piece);
        place += piece;
    }
    if numbers.one_in(6) {
        all.insert(numbers.below(all.len() as u64 + 1) as usize, 0);
    }
    all
}

// Mostly in memory, and else anywhere near it.
fn place(numbers: &mut Numbers, len: u64) -> u64 {
    match numbers.below(40) {
        0 => numbers.below(0x6000),
        1 => [END, LAST + 1][numbers.below(2) as usize] - numbers.below(len + 1),
        _ => {
            let (start, size) = RANGES[numbers.below(2) as usize];
            start + numbers.below(size as u64 - len + 1)
        }
    }
}

fn random_limits(numbers: &mut Numbers) -> DeviceLimits {
    let acked = numbers.any();
    DeviceLimits {
        sectors: numbers.below(4).max(numbers.below(DISK as u64 + 1)),
        read_only: numbers.one_in(6),
        acked,
        seg_max: numbers.one_in(8).then(|| numbers.below(4) as u32),
        size_max: numbers.one_in(8).then(|| numbers.below(700) as u32),
    }
}

fn random_header(numbers: &mut Numbers, sectors: u64) -> (u32, [u8; 16]) {
    let kind = match numbers.below(16) {
        0..=5 => IN,
        6..=11 => OUT,
        12 => FLUSH,
        13 => GET_ID,
        14 => numbers.below(16) as u32,
        _ => numbers.any() as u32,
    };
    let sector = match numbers.below(16) {
        0 => numbers.any(),
        1 => sectors + numbers.below(2),
        2 => numbers.below(sectors + 1) | 1 << (55 + numbers.below(9)),
        _ => numbers.below(sectors.max(1)),
    };
    (kind, header(kind, sector))
}

// How many bytes data have: mostly whole sectors.
fn random_len(numbers: &mut Numbers, is_used: bool) -> u64 {
    match numbers.below(16) {
        0 => numbers.below(1200),
        1 => 512 * numbers.below(4) + 511 + 2 * numbers.below(2),
        _ if is_used => 512 * (1 + numbers.below(3)),
        _ => 0,
    }
}

fn random_segments(numbers: &mut Numbers, kind: u32) -> Vec<Segment> {
    let mut readable = 16 + random_len(numbers, kind == OUT);
    let mut writable = 1 + random_len(numbers, kind == IN || kind == GET_ID);
    match numbers.below(30) {
        0 => readable = numbers.below(16),
        1 => writable = 0,
        _ => {}
    }
    let mut segments = Vec::new();
    for (len, is_written) in [(readable, false), (writable, true)] {
        for len in pieces(numbers, len) {
            let addr = place(numbers, len);
            segments.push(Segment { addr, len, is_written });
        }
    }
    if segments.is_empty() {
        segments.push(read(0, 0));
    }
    segments
}

// The number of each kind of request, from 0.
fn sort_of(request: Request) -> usize {
    match request {
        Request::Read { .. } => 0,
        Request::Write { flush: false, .. } => 1,
        Request::Write { flush: true, .. } => 2,
        Request::Flush => 3,
        Request::GetId { .. } => 4,
        IOERR => 5,
        Request::Refused { .. } => 6,
        Request::Unserved => 7,
    }
}

// Serves so many random requests beside the model, and returns what each asked for and the lengths of the used entries.
fn served_randomly(guest: &mut Guest<'_>, count: usize) -> Vec<(Request, u32)> {
    let numbers = &mut Numbers(0xb10c);
    let mut disks = [Disk::new(DISK), Disk::new(DISK)];
    let mut all = Vec::new();
    for _ in 0..count {
        let limits = random_limits(numbers);
        let (kind, head) = random_header(numbers, limits.sectors);
        let segments = random_segments(numbers, kind);
        for _ in 0..20 {
            let addr = place(numbers, 1);
            guest.set(addr, &[numbers.any() as u8]);
        }
        for (addr, byte) in addresses(&segments, false, 0, 16).into_iter().zip(head) {
            guest.set(addr, &[byte]);
        }
        let direct = numbers.below(segments.len() as u64 + 1).min(60) as usize;
        all.push(guest.serve(&segments, direct, &mut disks, limits));
    }
    for sort in 0..8 {
        let those = all.iter().filter(|(request, _)| sort_of(*request) == sort).count();
        assert!(100 * those > count, "only {those} of the sort {sort}");
    }
    all
}

#[test]
fn random_requests() {
    let count = 20_000;
    let machine = Machine::new().unwrap();
    let mut guest = Guest::new(&machine, Way::Plain);
    let served = served_randomly(&mut guest, count);
    assert_eq!(guest.refused, [0; 6]);
    // Behind an IOMMU each request ends as it does without.
    for limit in [None, Some(64), Some(8)] {
        let machine = Machine::new().unwrap();
        let mut behind = Guest::new(&machine, Way::Behind(limit));
        assert!(served_randomly(&mut behind, count) == served);
        assert!(behind.image.ranges() == guest.image.ranges());
        for step in STEPS {
            let refused = behind.refused[step as usize];
            assert!(refused > 200, "{step:?} was refused {refused} times");
        }
    }
}
