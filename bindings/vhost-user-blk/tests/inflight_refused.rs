//! Regions of requests in flight that no back end leaves, or that are not there: each is refused, and the program goes
//! on.

mod front_end;

use front_end::inflight::{read_of, set_up, started, started_packed, SIZE};
use front_end::packed::{Driver, Place, PACKED};
use front_end::*;
use std::fs::File;
use std::os::fd::AsRawFd;
use std::os::unix::net::UnixStream;

const LEN: usize = 1 << 20;

// Where a region changes, how many bytes, and to what.
type Change = (u64, usize, u64);

// A front end that is refused by a message of its own, after which the next one is served.
fn expect_refused(program: &mut Program, what: &str, refuse: impl FnOnce(&mut FrontEnd, Region)) {
    expect_refused_with(program, USUAL, what, refuse);
}

fn expect_refused_with(program: &mut Program, features: u64, what: &str, refuse: impl FnOnce(&mut FrontEnd, Region)) {
    let mut front = program.connect();
    front.negotiate(features);
    let region = front.new_region(1, SIZE);
    refuse(&mut front, region);
    assert!(front.is_let_go(), "{what}");
    assert!(program.lives(), "{what}");
    let (mut front, region) = started(program, USUAL, 0);
    assert_eq!(front.read_disk(0, 2, 512), read_of(2, 512), "{what}");
    assert_eq!(region.head(0).used_idx, 1, "{what}");
}

// Of a region its size, its offset, its rings and their descriptors.
const WRONG: [(u64, u64, u16, u16); 19] = {
    let last = u64::MAX;
    [
        // Fewer bytes than the rings need, and more than the file has.
        (1087, 0, 1, SIZE),
        (2175, 0, 2, SIZE),
        (1089, 0, 1, SIZE),
        (1088, 1, 1, SIZE),
        (1088, 1088, 1, SIZE),
        (1088, 1 << 20, 1, SIZE),
        (1088, 1 << 63, 1, SIZE),
        (1088, last - 1088, 1, SIZE),
        (1 << 47, 0, 1, SIZE),
        (1 << 62, 0, 1, SIZE),
        (1 << 63, 0, 1, SIZE),
        (last, 0, 1, SIZE),
        // They pass the last place of a file.
        (1088, last - 1087, 1, SIZE),
        (last, last, 1, SIZE),
        // There are not so many rings, or descriptors.
        (1088, 0, 0, SIZE),
        (1 << 16, 0, 3, SIZE),
        (1088, 0, 1, 0),
        (1 << 16, 0, 1, 1025),
        (1 << 16, 0, u16::MAX, u16::MAX),
    ]
};

#[test]
fn a_region_that_is_not_there_is_refused() {
    let mut program = Program::start("inflight_refused", LEN, &["--queues", "2"]);
    for (size, offset, rings, descriptors) in WRONG {
        let what = format!("{size} bytes from {offset} on, {rings} rings of {descriptors}");
        expect_refused(&mut program, &what, |front, region| {
            let payload = inflight(size, offset, rings, descriptors);
            assert!(!front.is_done(SET_INFLIGHT_FD, &payload, &[&region.file]), "{what}");
        });
    }
    // For packed rings it has more bytes: these are too few for one ring or two, or those of a split ring.
    for (size, rings) in [(2111, 1), (2080, 1), (4223, 2), (1088, 1)] {
        let what = format!("{size} bytes, {rings} packed rings of {SIZE}");
        expect_refused_with(&mut program, PACKED, &what, |front, region| {
            assert_eq!(region.size, 2112);
            let payload = inflight(size, 0, rings, SIZE);
            assert!(!front.is_done(SET_INFLIGHT_FD, &payload, &[&region.file]), "{what}");
        });
    }
    // A file that says it is larger than what can be mapped.
    let sparse = memfd(0);
    File::from(again(&sparse)).set_len((1 << 63) - 4096).unwrap();
    expect_refused(&mut program, "a sparse file", |front, _| {
        let payload = inflight((1 << 63) - 4096, 0, 1, SIZE);
        assert!(!front.is_done(SET_INFLIGHT_FD, &payload, &[&sparse]));
    });
}

#[test]
fn what_is_no_file_of_a_region_is_refused() {
    let mut program = Program::start("inflight_no_file", LEN, &[]);
    let [reading, _writing] = pipe();
    let (socket, _other) = UnixStream::pair().unwrap();
    let folder = File::open(&program.folder).unwrap().into();
    for (what, descriptor) in [
        ("an eventfd", eventfd()),
        ("a pipe", reading),
        ("a socket", socket.into()),
        ("a folder", folder),
    ] {
        expect_refused(&mut program, what, |front, region| {
            assert!(
                !front.is_done(SET_INFLIGHT_FD, &region.payload(), &[&descriptor]),
                "{what}"
            );
        });
    }
    expect_refused(&mut program, "a file that is only read", |front, region| {
        let path = format!("/proc/self/fd/{}", region.file.as_raw_fd());
        let file = File::open(path).unwrap().into();
        assert!(!front.is_done(SET_INFLIGHT_FD, &region.payload(), &[&file]));
    });
    expect_refused(&mut program, "no descriptor", |front, region| {
        assert!(!front.is_done(SET_INFLIGHT_FD, &region.payload(), &[]));
    });
    expect_refused(&mut program, "two descriptors", |front, region| {
        assert!(!front.is_done(SET_INFLIGHT_FD, &region.payload(), &[&region.file, &region.file]));
    });
}

// Before guest memory is announced, and after it.
#[test]
fn a_region_of_guest_memory_is_refused() {
    let mut program = Program::start("inflight_guest", LEN, &[]);
    for is_first in [true, false] {
        expect_refused(&mut program, "guest memory", |front, mut region| {
            region.file = again(&front.ram);
            region.offset = RAM as u64 - 4096;
            if is_first {
                assert!(front.give_region(&region));
            }
            let table = FrontEnd::table(&[(0, RAM as u64, 0)]);
            let ram = again(&front.ram);
            assert_eq!(front.is_done(SET_MEM_TABLE, &table, &[&ram]), !is_first);
            if !is_first {
                assert!(!front.give_region(&region));
            }
        });
    }
}

// What no back end leaves there breaks the ring, and nothing is served or stored by it.
#[test]
fn a_region_with_wild_values_breaks_its_ring() {
    let mut program = Program::start("inflight_wild", LEN, &["--queues", "2"]);
    let (entry, last) = (|head: u64| 16 + 16 * head, u64::from(SIZE) - 1);
    // Of a region that was used once.
    for (what, changes) in [
        ("another version", &[(8, 2, 2)][..]),
        ("another version", &[(8, 2, 0xffff)]),
        ("other descriptors", &[(10, 2, 63)]),
        ("other descriptors", &[(10, 2, 0)]),
        ("more returned than the ring has", &[(14, 2, 0xffff - 63)]),
        ("more returned than the ring has", &[(14, 2, 2)]),
        ("a last head past the ring", &[(14, 2, 0), (12, 2, 64)]),
        ("a last head past the ring", &[(14, 2, 0), (12, 2, 0xffff)]),
        (
            "a head past the ring behind another",
            &[(14, 2, 0xffff), (12, 2, 5), (entry(5) + 6, 2, 0xfffe)],
        ),
        ("a mark that is none", &[(entry(3), 1, 2)]),
        ("a mark that is none", &[(entry(last), 1, 0xff)]),
        (
            "a count that no run reaches",
            &[(entry(3), 1, 1), (entry(3) + 8, 8, 1 << 63)],
        ),
        (
            "a count that no run reaches",
            &[(entry(3), 1, 1), (entry(3) + 8, 8, u64::MAX)],
        ),
    ] {
        expect_broken(&mut program, what, changes);
    }
}

fn expect_broken(program: &mut Program, what: &str, changes: &[Change]) {
    let (mut front, region) = started(program, USUAL, 0);
    front.read_disk(0, 1, 512);
    front.stop_ring(0);
    for &(at, len, value) in changes {
        region.write(at, &value.to_le_bytes()[..len]);
    }
    let before = region.read(0, region.size as usize);
    front.put_request(0, 0, 0, 2, 512);
    front.publish(0, 0);
    front.restart_ring(0, 1);
    assert!(can_read(&front.rings[0].err, LONG), "{what}: the ring goes on");
    front.kick(0);
    program.rest();
    assert_eq!(front.used_idx(0), 1, "{what}");
    assert_eq!(region.read(0, region.size as usize), before, "{what}");
    // Another ring is served, and this one after its region was replaced.
    front.start_ring(SIZE, 0);
    assert_eq!(front.read_disk(1, 6, 512), read_of(6, 512), "{what}");
    front.stop_ring(0);
    let region = front.new_region(1, SIZE);
    assert!(front.give_region(&region));
    take(&front.rings[0].kick);
    front.restart_ring(0, 1);
    assert_eq!(front.take_used(0), (0, 513), "{what}");
    drop(front);
    let (mut front, _region) = started(program, USUAL, 0);
    assert_eq!(front.read_disk(0, 2, 512), read_of(2, 512), "{what}");
    assert!(program.lives());
}

// The place of an entry of a packed ring's region.
const fn entry(index: u64) -> u64 {
    32 + 32 * index
}

// The first three entries have a chain in flight with the request that was served last, and the others are free.
const ONE_IN_FLIGHT: [Change; 6] = [
    (12, 2, 3),
    (14, 2, 3),
    (entry(0), 1, 1),
    (entry(0) + 4, 2, 2),
    (entry(0) + 6, 2, 3),
    (entry(0) + 8, 8, 1),
];

// What else a region says, in which that chain is in flight.
const WILD: [(&str, &[Change]); 27] = {
    let last = SIZE as u64 - 1;
    [
        ("another version", &[(8, 2, 2)]),
        ("another version", &[(8, 2, 0xffff)]),
        ("other descriptors", &[(10, 2, 63)]),
        ("other descriptors", &[(10, 2, 65)]),
        ("other descriptors", &[(10, 2, 0)]),
        // Both positions are the same: the place before the call counts.
        ("a free list outside of the region", &[(14, 2, 65)]),
        ("a free list outside of the region", &[(14, 2, 0xffff)]),
        ("a free list that leads outside", &[(entry(5) + 2, 2, 65)]),
        ("a free list that leads outside", &[(entry(last) + 2, 2, 0xfffe)]),
        ("a free list that loops", &[(entry(5) + 2, 2, 5)]),
        ("a free list that loops", &[(entry(last) + 2, 2, 3)]),
        ("a free list that loops by way of the chain", &[(entry(last) + 2, 2, 2)]),
        ("a position outside of the ring", &[(16, 2, 64)]),
        ("a position outside of the ring", &[(18, 2, 64)]),
        ("a position outside of the ring", &[(16, 2, 0xffff), (18, 2, 0xffff)]),
        ("a mark that is none", &[(entry(0), 1, 2)]),
        ("a mark that is none", &[(entry(7), 1, 2)]),
        ("a mark that is none", &[(entry(last), 1, 0xff)]),
        ("a count that no run reaches", &[(entry(0) + 8, 8, 1 << 63)]),
        ("a count that no run reaches", &[(entry(0) + 8, 8, u64::MAX)]),
        ("a chain of no entries", &[(entry(0) + 6, 2, 0)]),
        ("a chain longer than the ring", &[(entry(0) + 6, 2, 65)]),
        ("a chain that loops", &[(entry(1) + 2, 2, 0), (entry(0) + 4, 2, 0)]),
        (
            "a chain that leads outside",
            &[(entry(1) + 2, 2, 64), (entry(0) + 4, 2, 64)],
        ),
        (
            "a chain with a free entry",
            &[(entry(1) + 2, 2, 9), (entry(0) + 4, 2, 9)],
        ),
        ("a chain that ends elsewhere", &[(entry(0) + 4, 2, 1)]),
        // The chain's second entry is the only one of another chain.
        (
            "an entry of two chains",
            &[
                (entry(1), 1, 1),
                (entry(1) + 4, 2, 1),
                (entry(1) + 6, 2, 1),
                (entry(1) + 8, 8, 2),
            ],
        ),
    ]
};

#[test]
fn a_packed_region_with_wild_values_breaks_its_ring() {
    let mut program = Program::start("inflight_wild_packed", LEN, &["--queues", "2"]);
    // Without another change the chain is served again.
    let (mut driver, region, next) = stopped_in_flight(&program, &[]);
    driver.front.restart_at(0, next.base());
    assert_eq!(driver.take(), (0, 513));
    assert_eq!(driver.data(512), read_of(1, 512));
    program.rest();
    region.expect_settled(0, next.moved(SIZE, 3));
    drop(driver);
    for (what, changes) in WILD {
        expect_packed_broken(&mut program, what, changes);
    }
}

// A ring that is stopped, with one request in its next three slots, which the region has in flight; with changes.
fn stopped_in_flight(program: &Program, changes: &[Change]) -> (Driver, Region, Place) {
    let first = Place { slot: 0, wrap: true };
    let (mut driver, region) = started_packed(program, PACKED, first);
    assert_eq!(driver.request(0, 0, 1, 512), (0, 513));
    driver.front.stop_ring(0);
    let next = first.moved(SIZE, 3);
    region.expect_settled(0, next);
    // All entries are free in a row: the first three, which the request had, too.
    assert_eq!(region.packed_head(0).free_head, 0);
    for index in 0..SIZE {
        assert_eq!(region.entry(0, index)[2..4], (index + 1).to_le_bytes());
    }
    for &(at, len, value) in ONE_IN_FLIGHT.iter().chain(changes) {
        region.write(at, &value.to_le_bytes()[..len]);
    }
    let chain = driver.chain(0, 0, 1, 512);
    driver.publish(0, &chain);
    take(&driver.front.rings[0].err);
    (driver, region, next)
}

fn expect_packed_broken(program: &mut Program, what: &str, changes: &[Change]) {
    let (mut driver, region, next) = stopped_in_flight(program, changes);
    let before = region.read(0, region.size as usize);
    driver.front.restart_at(0, next.base());
    assert!(can_read(&driver.front.rings[0].err, LONG), "{what}: the ring goes on");
    driver.kick();
    program.rest();
    assert!(!driver.is_back(), "{what}");
    assert_eq!(region.read(0, region.size as usize), before, "{what}");
    // Another ring is served, and this one after its region was replaced: then the front end's base counts.
    let mut other = Driver::new(driver.front, SIZE);
    assert_eq!(other.request(3, 0, 6, 512), (0, 513), "{what}");
    assert_eq!(other.data(512), read_of(6, 512), "{what}");
    driver.front = other.front;
    driver.front.stop_ring(0);
    let region = driver.front.new_region(1, SIZE);
    assert!(driver.front.give_region(&region));
    take(&driver.front.rings[0].kick);
    driver.front.restart_at(0, next.base());
    assert_eq!(driver.take(), (0, 513), "{what}");
    program.rest();
    region.expect_settled(0, next.moved(SIZE, 3));
    assert!(program.lives());
}

// A ring that has more descriptors than the region is for.
#[test]
fn a_region_that_is_too_small_breaks_its_ring() {
    let program = Program::start("inflight_small", LEN, &[]);
    let mut front = program.connect();
    front.negotiate(USUAL);
    let region = front.new_region(1, 32);
    set_up(&mut front, USUAL, Some(&region));
    front.start_ring(64, 0);
    assert!(can_read(&front.rings[0].err, LONG));
    front.stop_ring(0);
    front.rings.clear();
    front.start_ring(32, 0);
    assert_eq!(front.read_disk(0, 2, 512), read_of(2, 512));
    drop(front);
    let mut front = program.connect();
    front.negotiate(PACKED);
    let region = front.new_region(1, 32);
    set_up(&mut front, PACKED, Some(&region));
    let mut driver = Driver::new(front, 33);
    assert!(can_read(&driver.front.rings[0].err, LONG));
    driver.front.stop_ring(0);
    driver.front.rings.clear();
    let mut driver = Driver::new(driver.front, 32);
    assert_eq!(driver.request(7, 0, 2, 512), (0, 513));
    assert_eq!(driver.data(512), read_of(2, 512));
    program.rest();
    region.expect_settled(0, driver.used);
}

#[test]
fn a_region_that_goes_away_ends_the_connection() {
    let mut program = Program::start("inflight_lost", LEN, &[]);
    for len in [0, 1] {
        let mut front = program.connect();
        front.negotiate(USUAL);
        let mut region = front.new_region(1, 1024);
        // It lies in five pages, and can shrink.
        region.file = memfd(region.size as usize);
        set_up(&mut front, USUAL, Some(&region));
        front.start_ring(1024, 0);
        assert_eq!(front.read_disk(0, 2, 512), read_of(2, 512));
        program.rest();
        File::from(again(&region.file)).set_len(len).unwrap();
        // The entry of this head lies in the last page.
        front.put_request(0, 999, 0, 2, 512);
        front.publish(0, if len == 0 { 0 } else { 999 });
        front.kick(0);
        assert!(front.is_let_go());
        assert!(program.lives());
        program.expect_said("guest memory disappeared");
    }
    // A packed ring stores to the first entry and to the front.
    let mut front = program.connect();
    front.negotiate(PACKED);
    let mut region = front.new_region(1, SIZE);
    region.file = memfd(region.size as usize);
    set_up(&mut front, PACKED, Some(&region));
    let mut driver = Driver::new(front, SIZE);
    assert_eq!(driver.request(0, 0, 2, 512), (0, 513));
    program.rest();
    File::from(again(&region.file)).set_len(0).unwrap();
    let chain = driver.chain(0, 0, 2, 512);
    driver.publish(0, &chain);
    driver.kick();
    assert!(driver.front.is_let_go());
    assert!(program.lives());
    let (mut front, _region) = started(&program, USUAL, 0);
    assert_eq!(front.read_disk(0, 2, 512), read_of(2, 512));
}

#[test]
fn a_region_that_cannot_be_made_ends_the_connection() {
    let mut program = Program::start("inflight_no_room", LEN, &[]);
    let mut front = program.connect();
    front.negotiate(USUAL);
    program.rest();
    let before = program.limit(libc::RLIMIT_NOFILE, 3);
    front.send(GET_INFLIGHT_FD, 0, &inflight(0, 0, 1, SIZE), &[]);
    assert!(front.is_let_go());
    program.limit(libc::RLIMIT_NOFILE, before);
    program.expect_said("the region of requests in flight: Too many open files");
    assert!(program.lives());
    let (mut front, _region) = started(&program, USUAL, 0);
    assert_eq!(front.read_disk(0, 2, 512), read_of(2, 512));
}
