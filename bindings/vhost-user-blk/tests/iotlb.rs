//! The program behind an I/O table, which a front end fills as it is asked.

mod front_end;

use front_end::*;
use std::thread::sleep;
use std::time::{Duration, Instant};

const LEN: usize = 1 << 20;
const SHIFT: u64 = 0xffff_0000_0000;
const BEHIND: u64 = USUAL | ACCESS_PLATFORM;

// A ring whose addresses and buffers go through a table of a limited number of ranges.
fn started(program: &Program, features: u64) -> FrontEnd {
    let mut front = program.connect();
    front.negotiate(features);
    front.set_memory();
    front.translate(SHIFT);
    front.start_ring(64, 0);
    front
}

// The page of I/O addresses of the data of the first request.
fn data_page(front: &FrontEnd) -> u64 {
    SHIFT + front.places(0, 0).0 as u64
}

// Nothing more is said on the back end's channel.
fn expect_silence(front: &mut FrontEnd) {
    assert!(front.is_done(SET_VRING_ENABLE, &two(0, 1), &[]));
    assert_eq!(front.asked(), None);
}

#[test]
fn requests_go_through_the_table() {
    for (name, words) in [
        ("iotlb_8", IOMMU_8),
        ("iotlb_64", &["--iommu", "--iotlb-limit", "64"]),
        ("iotlb", IOMMU),
    ] {
        let program = Program::start(name, LEN, words);
        let mut front = started(&program, BEHIND | EVENT_IDX);
        for turn in 0..20_u64 {
            // Twelve kibibytes, and of each page another one of guest memory.
            let page = data_page(&front);
            for at in 0..3 {
                let to = (8 << 20) + PAGE * ((7 * turn + 5 * at) % 64);
                front.remap(page + PAGE * at, Some((to, READ | WRITE)));
            }
            let (head, sector) = (0, 8 * turn);
            front.put_request(0, head, 0, sector, 3 * PAGE as u32);
            front.publish(0, head);
            front.kick(0);
            assert_eq!(front.take_used(0), (0, 3 * PAGE as u32 + 1));
            let wanted = image_of(LEN);
            for at in 0..3 {
                let to = (8 << 20) + PAGE * ((7 * turn + 5 * at) % 64);
                let from = (512 * sector + PAGE * at) as usize;
                assert_eq!(
                    front.read(to as usize, PAGE as usize),
                    wanted[from..from + PAGE as usize]
                );
            }
        }
        // Of each read the three pages of data are asked for, once, and others at most once.
        let misses = front.io().misses.len();
        assert!((60..200).contains(&misses), "{misses}");
        front.write(front.places(0, 0).0, &[7; 512]);
        front.remap(data_page(&front), Some((front.places(0, 0).0 as u64, READ)));
        assert_eq!(front.request(0, 1, 100, 512), (0, 1));
        assert_eq!(bytes_at(&program.image, 51_200, 512), [7; 512]);
    }
}

#[test]
fn nothing_goes_through_what_was_taken_back() {
    let program = Program::start("invalidated", LEN, IOMMU);
    let mut front = started(&program, BEHIND);
    front.read_disk(0, 3, 512);
    let (data, page) = (front.places(0, 0).0, data_page(&front));
    front.write(data, &[0xee; 512]);
    let other = 9 << 20;
    front.remap(page, Some((other, WRITE)));
    assert_eq!(front.request(0, 0, 5, 512), (0, 513));
    assert_eq!(front.read(data, 512), [0xee; 512]);
    assert_eq!(front.read(other as usize, 512), image_of(LEN)[5 * 512..6 * 512]);
    // All addresses are taken back: the rings are asked for again, too.
    front.io().misses.clear();
    assert!(front.is_done(IOTLB_MSG, &iotlb(0, 0, 0, 0, 3), &[]));
    assert_eq!(front.request(0, 0, 6, 512), (0, 513));
    let asked: Vec<u64> = front.io().misses.iter().map(|(iova, _)| iova / PAGE * PAGE).collect();
    for wanted in [page, SHIFT + (1 << 20), SHIFT + front.used_ring(0)] {
        assert!(asked.contains(&wanted), "{wanted:#x} is not among {asked:x?}");
    }
}

#[test]
fn what_the_front_end_does_not_map_fails() {
    let program = Program::start("unmapped", LEN, IOMMU_8);
    let mut front = started(&program, BEHIND);
    let page = data_page(&front);
    // The front end has no mapping of the data, for a read and for a write of the disk.
    front.remap(page, None);
    // The data before the status were not written: no byte counts.
    assert_eq!(front.request(0, 0, 3, 512), (1, 0));
    assert_eq!(front.request(0, 1, 3, 512), (1, 1));
    // A mapping that only lets them be read: the disk can be written, and not read.
    let data = front.places(0, 0).0;
    front.write(data, &[9; 512]);
    front.remap(page, Some((data as u64, READ)));
    assert_eq!(front.request(0, 1, 4, 512), (0, 1));
    assert_eq!(front.request(0, 0, 3, 512), (1, 0));
    expect_silence(&mut front);
    assert_eq!(front.read(data, 512), [9; 512]);
    // The ring goes on.
    front.remap(page, Some((data as u64, WRITE)));
    assert_eq!(front.read_disk(0, 4, 512), [9; 512]);
}

// Without a channel nobody can be asked: the ring fails, and does not wait.
#[test]
fn a_ring_without_a_channel_fails() {
    let program = Program::start("no_channel", LEN, IOMMU);
    let mut front = program.connect();
    front.negotiate(BEHIND);
    front.set_memory();
    front.start_ring(64, 0);
    front.kick(0);
    assert!(can_read(&front.rings[0].err, LONG));
    assert_eq!(front.stop_ring(0), 0);
    front.translate(SHIFT);
    front.restart_ring(0, 0);
    front.read_disk(0, 1, 512);
}

// The channel closes while a mapping is awaited: the request fails. A new channel is asked.
#[test]
fn a_channel_that_closes_answers_no() {
    let program = Program::start("closed_channel", LEN, IOMMU);
    let mut front = started(&program, BEHIND);
    front.read_disk(0, 1, 512);
    let (page, data) = (data_page(&front), front.places(0, 0).0 as u64);
    front.remap(page, Some((data, READ | WRITE)));
    front.put_request(0, 0, 1, 3, 512);
    front.publish(0, 0);
    front.kick(0);
    front.hold(page);
    let shift = front.shift;
    drop(front.io.take());
    assert_eq!(front.take_used(0), (0, 1));
    assert_eq!(front.read(front.places(0, 0).1, 1), [1]);
    front.translate(shift);
    front.read_disk(0, 1, 512);
}

// A request came back before the one that waits, and then the ring stops: the driver is interrupted.
#[test]
fn a_ring_that_stops_as_it_waits_interrupts() {
    let program = Program::start("waiting_interrupt", LEN, IOMMU);
    let mut front = started(&program, BEHIND);
    front.read_disk(0, 1, 512);
    program.rest();
    take(&front.rings[0].call);
    front.put_request(0, 0, 0, 1, 512);
    front.put_request(0, 3, 0, 2, 512);
    front.publish(0, 0);
    front.publish(0, 3);
    front.kick(0);
    let data = front.places(0, 3).0 as u64;
    front.hold(SHIFT + data);
    assert_eq!(front.used_idx(0), 2);
    assert_eq!(front.stop_ring(0), 2);
    assert!(can_read(&front.rings[0].call, LONG));
}

// The page of the header and the status may only be read. The request comes back without a byte that was not written.
#[test]
fn a_status_that_is_forbidden_is_not_written() {
    let program = Program::start("no_status", LEN, IOMMU);
    let mut front = started(&program, BEHIND);
    let (data, status) = front.places(0, 0);
    let place = status as u64 / PAGE * PAGE;
    front.remap(SHIFT + place, Some((place, READ)));
    front.write(data, &[9; 512]);
    for (kind, len) in [(1, 512), (4, 0)] {
        front.put_request(0, 0, kind, 4, len);
        front.publish(0, 0);
        front.kick(0);
        assert_eq!(front.take_used(0), (0, 0));
        assert_eq!(front.read(status, 1), [0xff]);
    }
    expect_silence(&mut front);
    assert_eq!(bytes_at(&program.image, 4 * 512, 512), image_of(LEN)[4 * 512..5 * 512]);
    front.remap(SHIFT + place, Some((place, READ | WRITE)));
    assert_eq!(front.request(0, 1, 4, 512), (0, 1));
    assert_eq!(front.read_disk(0, 4, 512), [9; 512]);
}

// A page that may only be read lies before one that nobody asked for yet.
#[test]
fn a_page_that_is_forbidden_is_not_asked_for_again() {
    let program = Program::start("forbidden", LEN, IOMMU);
    let mut front = started(&program, BEHIND);
    let page = data_page(&front);
    for at in [0, PAGE] {
        front.remap(page + at, Some(((8 << 20) + at, READ)));
    }
    front.io().misses.clear();
    let before = front.read(8 << 20, 2 * PAGE as usize);
    assert_eq!(front.request(0, 0, 3, 2 * PAGE as u32), (1, 0));
    assert_eq!(front.read(8 << 20, 2 * PAGE as usize), before);
    let mut asked = front.io().misses.clone();
    asked.retain(|(iova, _)| (page..page + 2 * PAGE).contains(iova));
    assert_eq!(asked, [(page, WRITE)]);
    expect_silence(&mut front);
}

// Waits for a message on the back end's channel, and leaves it unanswered.
fn wait_for_miss(front: &mut FrontEnd) -> u64 {
    let begun = Instant::now();
    loop {
        assert!(begun.elapsed() < LONG, "no miss comes");
        if let Some(message) = front.asked() {
            return u64::from_le_bytes(message[12..20].try_into().unwrap());
        }
        sleep(Duration::from_millis(1));
    }
}

fn reply_to_miss(front: &mut FrontEnd, value: u64) {
    use std::io::Write;
    let reply = [&[1, 5, 8].map(u32::to_le_bytes).concat()[..], &value.to_le_bytes()].concat();
    front.io().channel.write_all(&reply).unwrap();
}

// A ring goes on with its mapping, whose reply may come later. Until then it asks for nothing else.
#[test]
fn a_mapping_comes_before_its_reply() {
    let program = Program::start("before_reply", LEN, IOMMU);
    let mut front = started(&program, BEHIND);
    front.read_disk(0, 1, 512);
    let (page, data) = (data_page(&front), front.places(0, 0).0 as u64);
    front.remap(page, Some((data, READ | WRITE)));
    front.put_request(0, 0, 0, 2, 512);
    front.publish(0, 0);
    front.kick(0);
    assert_eq!(wait_for_miss(&mut front), page);
    assert!(front.is_done(IOTLB_MSG, &iotlb(page, PAGE, USER + data, READ | WRITE, 2), &[]));
    assert_eq!(front.take_used(0), (0, 513));
    assert_eq!(front.read(data as usize, 512), image_of(LEN)[2 * 512..3 * 512]);
    front.remap(page, Some((data, READ | WRITE)));
    front.put_request(0, 0, 0, 3, 512);
    front.publish(0, 0);
    front.kick(0);
    program.rest();
    expect_silence(&mut front);
    reply_to_miss(&mut front, 0);
    assert_eq!(front.take_used(0), (0, 513));
}

#[test]
fn a_ring_that_waits_can_be_stopped() {
    let program = Program::start("waits", LEN, IOMMU_8);
    // The index of the second one that waits is the last.
    for base in [0, 0xfffe_u16] {
        let mut front = started(&program, BEHIND);
        front.stop_ring(0);
        front.rings.clear();
        front.start_ring(64, base);
        front.read_disk(0, 1, 512);
        let page = data_page(&front);
        front.remap(page, Some((front.places(0, 0).0 as u64, READ | WRITE)));
        front.put_request(0, 0, 0, 2, 512);
        front.publish(0, 0);
        front.kick(0);
        assert_eq!(wait_for_miss(&mut front), page);
        for _ in 0..3 {
            assert!(front.is_done(SET_VRING_ENABLE, &two(0, 1), &[]));
        }
        // The request is the next one still.
        let next = base.wrapping_add(1);
        assert_eq!(front.stop_ring(0), next.into());
        reply_to_miss(&mut front, 0);
        take(&front.rings[0].kick);
        assert_eq!(front.used_idx(0), next);
        front.restart_ring(0, next);
        assert_eq!(front.take_used(0), (0, 513));
        assert_eq!(front.read(front.places(0, 0).0, 512), image_of(LEN)[2 * 512..3 * 512]);
        assert_eq!(front.stop_ring(0), next.wrapping_add(1).into());
    }
}

#[test]
fn a_device_that_is_stopped_has_no_mappings() {
    let program = Program::start("emptied", LEN, IOMMU);
    let mut front = started(&program, BEHIND);
    front.read_disk(0, 1, 512);
    front.io().misses.clear();
    front.read_disk(0, 2, 512);
    assert!(front.io().misses.is_empty());
    assert_eq!(front.stop_ring(0), 2);
    front.restart_ring(0, 2);
    front.read_disk(0, 3, 512);
    let page = data_page(&front);
    assert!(front.io().misses.iter().any(|(iova, _)| iova / PAGE * PAGE == page));
    // Nor has one with another table of memory.
    front.io().misses.clear();
    let (ram, half) = (again(&front.ram), RAM as u64 / 2);
    let table = FrontEnd::table(&[(half, half, half), (0, half, 0)]);
    assert!(front.is_done(SET_MEM_TABLE, &table, &[&ram, &ram]));
    front.read_disk(0, 4, 512);
    assert!(front.io().misses.iter().any(|(iova, _)| iova / PAGE * PAGE == page));
}

#[test]
fn a_mapping_outside_of_memory_is_refused() {
    let program = Program::start("outside", LEN, IOMMU);
    let mut front = started(&program, BEHIND);
    let outside = iotlb(SHIFT, PAGE, USER + RAM as u64, READ, 2);
    assert!(!front.is_done(IOTLB_MSG, &outside, &[]));
    assert!(front.is_let_go());
    // No front end maps the last address, and none sends a MISS.
    for payload in [
        iotlb(u64::MAX - PAGE + 1, PAGE, USER, READ, 2),
        iotlb(SHIFT, 0, 0, READ, 1),
    ] {
        let mut front = started(&program, BEHIND);
        assert!(!front.is_done(IOTLB_MSG, &payload, &[]));
        assert!(front.is_let_go());
    }
    // Without the feature there is no table.
    let mut front = program.connect();
    front.negotiate(USUAL);
    front.set_memory();
    assert!(!front.is_done(IOTLB_MSG, &iotlb(0, 0, 0, 0, 3), &[]));
}

#[test]
fn two_rings_share_a_table() {
    let program = Program::start("two_rings", LEN, &["--iommu", "--queues", "2", "--iotlb-limit", "8"]);
    let mut front = started(&program, BEHIND | 1 << 12);
    front.start_ring(64, 0);
    for turn in 0..30 {
        for index in 0..2 {
            front.put_request(index, 0, 0, turn + 8 * index as u64, 4096);
            front.publish(index, 0);
            front.kick(index);
        }
        for index in 0..2 {
            assert_eq!(front.take_used(index), (0, 4097));
            let from = 512 * (turn as usize + 8 * index);
            assert_eq!(
                front.read(front.places(index, 0).0, 4096),
                image_of(LEN)[from..from + 4096]
            );
        }
    }
}

// Maps so many pages, every second one from one on: no two of them are one range.
fn map_pages(front: &mut FrontEnd, first: u64, count: u64) {
    for page in first..first + count {
        let update = iotlb(2 * page * PAGE, PAGE, USER + (8 << 20), READ, 2);
        front.send(IOTLB_MSG, 0, &update, &[]);
    }
    assert!(front.is_done(IOTLB_MSG, &iotlb(1 << 40, PAGE, USER, READ, 2), &[]));
}

// A table that keeps eight ranges gives up twelve of twenty.
#[test]
fn evictions_are_said() {
    let program = Program::start("evictions", LEN, &["--iommu", "--iotlb-limit", "8", "--stats", "86400"]);
    let mut front = program.connect();
    front.negotiate(BEHIND);
    front.set_memory();
    map_pages(&mut front, 0, 19);
    drop(front);
    program.expect_said("0 misses, 20 updates, 0 invalidations, 12 evictions");
}

// A front end maps what nobody asked for: the program does not keep more than 65,536 ranges.
#[test]
fn a_table_has_a_limit() {
    let program = Program::start("table_limit", LEN, IOMMU);
    let mut front = started(&program, BEHIND);
    front.read_disk(0, 1, 512);
    map_pages(&mut front, 0, 70_000);
    let before = program.memory().0;
    map_pages(&mut front, 70_000, 70_000);
    let after = program.memory().0;
    assert!(after < before + (1 << 20), "{before} {after}");
    front.read_disk(0, 1, 512);
}

#[test]
fn an_update_costs_nothing_of_the_other_ranges() {
    let program = Program::start("table_cost", LEN, &["--iommu", "--iotlb-limit", "2048"]);
    let mut front = started(&program, BEHIND);
    front.read_disk(0, 1, 512);
    map_pages(&mut front, 0, 2048);
    let begun = program.processor_time();
    map_pages(&mut front, 2048, 500);
    let each = (program.processor_time() - begun) / 500;
    assert!(each < 300_000, "{each}");
}
