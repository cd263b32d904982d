//! Which chains one guest may make, and when its driver is told of them. How long its requests keep the program from
//! messages, from other rings and from its end: long.rs.

mod front_end;

use front_end::*;
use std::fs;
use std::sync::atomic::Ordering::SeqCst;
use std::thread::sleep;
use std::time::{Duration, Instant};

const MIB: usize = 1 << 20;

const SIZE_MAX: u64 = 1 << 1;
const SEG_MAX: u64 = 1 << 2;

const SHIFT: u64 = 0xffff_0000_0000;

// Without a table, with one that nothing goes through, and behind one.
const WAYS: [(&str, &[&str], u64); 3] = [
    ("", &[], 0),
    ("_refused", IOMMU, 0),
    ("_behind", IOMMU, ACCESS_PLATFORM),
];

fn started(program: &Program, features: u64) -> FrontEnd {
    let mut front = program.connect();
    front.negotiate(features);
    front.set_memory();
    if features & ACCESS_PLATFORM != 0 {
        front.translate(SHIFT);
    }
    front.start_ring(64, 0);
    front
}

#[test]
fn the_driver_is_notified_before_a_long_request_goes_on() {
    let program = Program::start_on_a_hole("notified", 4 << 30, &[]);
    // By flags the driver asks to be notified or not to be, and by event indices of the second request or the third.
    for (features, flags, event, is_asked) in [
        (USUAL, 0, 0, true),
        (USUAL, 1, 0, false),
        (USUAL | EVENT_IDX, 0, 1, true),
        (USUAL | EVENT_IDX, 0, 2, false),
    ] {
        let mut front = started(&program, features);
        // After its first request a ring notifies whatever the driver asks for.
        front.read_disk(0, 1, 512);
        program.rest();
        take(&front.rings[0].call);
        front.word(front.parts(0).1).store(flags, SeqCst);
        front.set_used_event(0, event);
        front.put_long(1, 0, 5, &[(12 * MIB, 512)]);
        front.put_endless(2);
        front.publish(0, 1);
        front.publish(0, 2);
        front.kick(0);
        program.wait_for_work();
        assert_eq!(front.used_idx(0), 2);
        assert_eq!(take(&front.rings[0].call), u64::from(is_asked), "{features:#x} {flags}");
        // Nothing was returned since then.
        program.wait_for_work();
        assert_eq!(take(&front.rings[0].call), 0);
    }
}

// A run ends with the marks of a request, before its ring has the turn in which it interrupts.
#[test]
fn the_driver_is_notified_while_writes_are_logged() {
    let program = Program::start_on_a_hole("notified_log", 4 << 30, &[]);
    let mut front = started(&program, USUAL);
    front.read_disk(0, 1, 512);
    let _log = front_end::log::begin(&mut front, USUAL, front_end::log::LOG_LEN);
    program.rest();
    take(&front.rings[0].call);
    front.put_long(1, 0, 5, &[(12 * MIB, 512)]);
    front.put_endless(2);
    front.publish(0, 1);
    front.publish(0, 2);
    front.kick(0);
    program.wait_for_work();
    assert_eq!(front.used_idx(0), 2);
    assert_eq!(take(&front.rings[0].call), 1);
}

// The interrupt that the driver asked for comes, wherever the turns of many requests end.
#[test]
fn the_driver_is_interrupted_among_many_requests() {
    let program = Program::start("many", MIB, &[]);
    let mut front = program.connect();
    front.negotiate(USUAL | EVENT_IDX);
    front.set_memory();
    front.start_ring(512, 0);
    for (round, after) in [9, 63, 64, 100, 149].into_iter().enumerate() {
        let begun = 150 * round as u16;
        take(&front.rings[0].call);
        front.set_used_event(0, begun + after);
        for place in 0..150 {
            front.put_request(0, 3 * place, 0, place.into(), 512);
            front.publish(0, 3 * place);
        }
        front.kick(0);
        assert!(can_read(&front.rings[0].call, LONG), "no interrupt after {after}");
        for place in 0..150 {
            assert_eq!(front.take_used(0), (3 * place, 513));
        }
    }
}

// Each turn tells what came back in it, and does not leave that to the last one.
#[test]
fn the_driver_is_interrupted_before_the_last_request() {
    let program = Program::start_on_a_hole("told", 128 << 20, &[]);
    let mut front = started(&program, USUAL);
    front.read_disk(0, 1, 512);
    program.rest();
    take(&front.rings[0].call);
    for head in 0..32 {
        front.put_long(head, 0, 0, &[(8 * MIB, MIB)]);
        front.publish(0, head);
    }
    front.kick(0);
    let begun = Instant::now();
    while front.used_idx(0) != front.rings[0].next_avail {
        assert!(begun.elapsed() < LONG, "not all requests come back");
        sleep(Duration::from_millis(1));
    }
    program.rest();
    assert!(take(&front.rings[0].call) > 1, "one interrupt for all");
}

#[test]
fn a_kick_without_a_request_interrupts_nobody() {
    let program = Program::start_on_a_hole("idle_kick", 1 << 20, &[]);
    let mut front = started(&program, USUAL);
    front.read_disk(0, 1, 512);
    program.rest();
    take(&front.rings[0].call);
    front.kick(0);
    program.rest();
    assert_eq!(take(&front.rings[0].call), 0);
    front.read_disk(0, 1, 512);
}

// Rings that have much to do take turns after a mebibyte.
#[test]
fn a_turn_has_so_many_bytes() {
    let program = Program::start_on_a_hole("turns", 128 << 20, &["--queues", "2"]);
    let mut front = started(&program, USUAL | 1 << 12);
    front.start_ring(64, 0);
    // Ring 0 writes 32 times two mebibytes, the last of them to the sector that ring 1 reads.
    front.write(8 * MIB, &vec![7; 2 * MIB]);
    for round in 0..4 {
        for head in 0..8 {
            let sector = 4096 * (8 * round + u64::from(head));
            front.put_long(8 * round as u16 + head, 1, sector, &[(8 * MIB, 2 * MIB)]);
        }
    }
    // SAFETY: it takes numbers, of a child that was not waited for.
    let signal = |signal| assert_eq!(unsafe { libc::kill(program.pid(), signal) }, 0);
    signal(libc::SIGSTOP);
    for place in 0..32 {
        front.publish(0, place);
    }
    front.put_request(1, 0, 0, 4096 * 31, 512);
    front.publish(1, 0);
    front.kick(0);
    front.kick(1);
    signal(libc::SIGCONT);
    assert_eq!(front.take_used(1), (0, 513));
    assert!(front.read(front.places(1, 0).0, 512) == [0; 512]);
    for place in 0..32 {
        assert_eq!(front.take_used(0), (place, 1));
    }
    assert_eq!(front.read_disk(1, 4096 * 31, 512), [7; 512]);
}

#[test]
fn a_chain_has_so_many_segments() {
    for (name, words, features) in WAYS {
        let program = Program::start_on_a_hole(&format!("segments{name}"), 1 << 20, words);
        let mut front = started(&program, USUAL | features);
        let status = front.put_long(1, 0, 0, &[(8 * MIB, 512); 1022]);
        front.publish(0, 1);
        front.kick(0);
        assert_eq!(front.take_used(0), (1, 512 * 1022 + 1));
        assert_eq!(front.read(status, 1), [0]);
    }
}

// Behind a table a request has at most 2,048 pieces, with its header and status.
#[test]
fn a_chain_has_so_many_pieces() {
    let program = Program::start_on_a_hole("pieces", 8 << 20, IOMMU);
    for (pages, is_served) in [(2046, true), (2047, false)] {
        let mut front = started(&program, USUAL | ACCESS_PLATFORM);
        let len = pages * PAGE as usize;
        // No two pages are one piece.
        for page in 0..pages as u64 {
            let to = (16 << 20) - PAGE * (page + 1);
            front
                .io()
                .pages
                .insert(SHIFT + (8 << 20) + PAGE * page, (to, READ | WRITE));
        }
        front.write(8 * MIB, &vec![5; 8 * MIB]);
        let status = front.put_long(1, 0, 0, &[(8 * MIB, len)]);
        front.publish(0, 1);
        front.kick(0);
        let written = if is_served { len + 1 } else { 0 };
        assert_eq!(front.take_used(0), (1, written as u32));
        assert_eq!(front.read(status, 1), [u8::from(!is_served)]);
        let wanted = if is_served { 0 } else { 5 };
        assert!(front.read(16 * MIB - len, len) == vec![wanted; len]);
    }
}

#[test]
fn what_a_driver_accepted_is_held() {
    let program = Program::start_on_a_hole("limits", 1 << 30, &[]);
    let mut front = program.connect();
    front.negotiate(USUAL | SIZE_MAX | SEG_MAX);
    let asked = [0, 16, 0].map(u32::to_le_bytes).concat();
    let config = front.ask(GET_CONFIG, &[&asked[..], &[0; 16]].concat());
    let of = |at: usize| u32::from_le_bytes(config[12 + at..16 + at].try_into().unwrap());
    let (size_max, seg_max) = (of(8) as usize, of(12) as usize);
    assert!(size_max >= MIB);
    assert_eq!(seg_max, 126);
    drop(front);
    for (accepted, count, len, is_served) in [
        (SIZE_MAX | SEG_MAX, 1, size_max, true),
        (SIZE_MAX | SEG_MAX, seg_max, 512, true),
        (SIZE_MAX, 1, size_max + 512, false),
        (SIZE_MAX, seg_max + 1, 512, true),
        (SEG_MAX, seg_max + 1, 512, false),
        (SEG_MAX, 1, size_max + 512, true),
        (0, 2, size_max + 512, true),
        (0, seg_max + 1, 512, true),
    ] {
        for kind in [0, 1] {
            let mut front = started(&program, USUAL | accepted);
            let status = front.put_long(1, kind, 0, &vec![(8 * MIB, len); count]);
            front.publish(0, 1);
            front.kick(0);
            let written = if is_served && kind == 0 { len * count } else { 0 };
            // Of a read that was not served no byte before the status counts.
            let written = if is_served || kind == 1 { written + 1 } else { 0 };
            assert_eq!(
                front.take_used(0),
                (1, written as u32),
                "{accepted} {count} {len} {kind}"
            );
            assert_eq!(front.read(status, 1), [u8::from(!is_served)]);
        }
    }
}

// Data of so many bytes in segments of random lengths, some of them empty, from an address on with gaps between them.
fn scattered(numbers: &mut Numbers, from: usize, len: usize) -> Vec<(usize, usize)> {
    let (mut data, mut at, mut left) = (Vec::new(), from, len);
    while left > 0 {
        let most = [1, 700, 5000, 200_000][numbers.below(4) as usize];
        let part = (numbers.below(most) as usize).min(left);
        data.push((at, part));
        at += part + numbers.below(3) as usize * 37;
        left -= part;
    }
    data
}

fn gathered(front: &FrontEnd, data: &[(usize, usize)]) -> Vec<u8> {
    data.iter().flat_map(|&(addr, len)| front.read(addr, len)).collect()
}

// Requests of several parts, whose segments end anywhere.
#[test]
fn parts_make_a_whole() {
    for (name, features, words) in [
        ("parts", USUAL, &[][..]),
        ("parts_refused", USUAL, IOMMU),
        ("parts_behind", USUAL | ACCESS_PLATFORM, IOMMU),
        ("parts_behind_8", USUAL | ACCESS_PLATFORM, IOMMU_8),
    ] {
        let len = 4 * MIB;
        let program = Program::start(name, len, words);
        let mut front = started(&program, features);
        let (mut numbers, mut image) = (Numbers(7), image_of(len));
        for _ in 0..12 {
            let count = 512 * (1 + numbers.below(3000) as usize);
            let sector = numbers.below(((len - count) / 512) as u64) as usize;
            let place = 512 * sector..512 * sector + count;
            let data = scattered(&mut numbers, 8 * MIB, count);
            if data.len() > 1000 {
                continue;
            }
            for kind in [0, 1] {
                // What is written is not what is there.
                let bytes: Vec<u8> = (0..count).map(|at| (at / 5 + sector) as u8).collect();
                let mut rest = &bytes[..];
                for &(addr, len) in &data {
                    front.write(addr, &rest[..len]);
                    rest = &rest[len..];
                }
                let status = front.put_long(1, kind, sector as u64, &data);
                front.publish(0, 1);
                front.kick(0);
                let written = if kind == 0 { count + 1 } else { 1 };
                assert_eq!(front.take_used(0), (1, written as u32));
                assert_eq!(front.read(status, 1), [0]);
                if kind == 0 {
                    assert!(gathered(&front, &data) == image[place.clone()]);
                } else {
                    image[place.clone()].copy_from_slice(&bytes);
                    assert!(fs::read(&program.image).unwrap() == image);
                }
            }
        }
    }
}

// A request with a segment without memory fails, and what came before it was neither read nor written.
#[test]
fn a_part_without_memory_fails() {
    for (name, words, features) in WAYS {
        let program = Program::start(&format!("no_memory{name}"), 4 * MIB, words);
        expect_failures(&program, USUAL | features);
    }
}

fn expect_failures(program: &Program, features: u64) {
    let mut front = started(program, features);
    let bad = 32 * MIB;
    for kind in [0, 1] {
        front.write(8 * MIB, &vec![3; MIB]);
        let data = [(8 * MIB, 200_000), (bad, 100_000), (8 * MIB, MIB - 300_000)];
        let status = front.put_long(1, kind, 8, &data[..]);
        front.publish(0, 1);
        front.kick(0);
        // A status behind bytes that were not written does not count.
        assert_eq!(front.take_used(0), (1, kind));
        assert_eq!(front.read(status, 1), [1]);
        assert!(front.read(8 * MIB, MIB) == [3; MIB]);
        assert!(fs::read(&program.image).unwrap() == image_of(4 * MIB));
    }
}

// A request whose status has no memory is done all the same. Its length counts what was written.
#[test]
fn a_status_without_memory_is_not_written() {
    let len = MIB;
    let program = Program::start("no_status", len, &[]);
    let mut front = started(&program, USUAL);
    for (kind, written) in [(0, 512), (1, 0)] {
        front.write(8 * MIB, &[7; 512]);
        front.put_long(1, kind, 3, &[]);
        let segments = [
            (HEADERS + 0x1000, 16, false),
            (8 * MIB, 512, kind == 0),
            (32 * MIB, 1, true),
        ];
        front.put_segments(1, &segments);
        front.publish(0, 1);
        front.kick(0);
        assert_eq!(front.take_used(0), (1, written));
        if kind == 0 {
            assert!(front.read(8 * MIB, 512) == image_of(len)[3 * 512..4 * 512]);
        }
    }
    assert_eq!(front.read_disk(0, 3, 512), [7; 512]);
}

// The header may end and the status may lie in a segment of data.
#[test]
fn segments_need_not_end_with_the_data() {
    let len = 4 * MIB;
    let program = Program::start("framing", len, &[]);
    let mut front = started(&program, USUAL);
    let (count, header) = (
        300 * 1024,
        [&1_u32.to_le_bytes()[..], &[0; 4], &8_u64.to_le_bytes()].concat(),
    );
    let bytes: Vec<u8> = (0..count).map(|at| (at / 3) as u8).collect();
    front.write(HEADERS, &header[..10]);
    front.write(8 * MIB, &[&header[10..], &bytes[..]].concat());
    let status = 12 * MIB;
    let second = 6 + 1000;
    let rest = 16 + count - 10 - second;
    let segments = [
        (HEADERS, 10, false),
        (8 * MIB, second, false),
        (8 * MIB + second, rest, false),
    ];
    front.put_segments(1, &[&segments[..], &[(status, 1, true)]].concat());
    front.publish(0, 1);
    front.kick(0);
    assert_eq!(front.take_used(0), (1, 1));
    assert_eq!(front.read(status, 1), [0]);
    assert!(bytes_at(&program.image, 4096, count) == bytes);
    // They are read into two segments, and the status is the last byte of the second.
    front.write(HEADERS, &[0; 4]);
    front.write(HEADERS + 10, &header[10..]);
    front.write(10 * MIB, &vec![9; count + 2]);
    let segments = [(10 * MIB, count - 7, true), (10 * MIB + count - 7, 8, true)];
    front.put_segments(1, &[&[(HEADERS, 16, false)][..], &segments].concat());
    front.publish(0, 1);
    front.kick(0);
    assert_eq!(front.take_used(0), (1, count as u32 + 1));
    assert!(front.read(10 * MIB, count + 2) == [&bytes[..], &[0, 9]].concat());
}

// A request of several parts is begun when it has all its mappings, and fails as a whole if it lacks one.
#[test]
fn a_long_request_waits_for_a_mapping() {
    let len = 4 * MIB;
    let program = Program::start("waits_long", len, IOMMU);
    let mut front = started(&program, USUAL | ACCESS_PLATFORM);
    let missing = SHIFT + 9 * MIB as u64 + 0x1_0000;
    let to = front.io().pages.remove(&missing).unwrap();
    let page = |number: usize| (8 * MIB + 4096 * number, 4096);
    let pages: Vec<_> = (0..512).map(page).collect();
    for data in [&[(8 * MIB, 2 * MIB)][..], &pages] {
        front.write(8 * MIB, &vec![5; 2 * MIB]);
        let status = front.put_long(1, 0, 0, data);
        front.publish(0, 1);
        front.kick(0);
        assert_eq!(front.take_used(0), (1, 0));
        assert_eq!(front.read(status, 1), [1]);
        assert!(front.read(8 * MIB, 2 * MIB) == [5; 2 * MIB]);
    }
    let status = front.put_long(1, 0, 0, &pages);
    front.publish(0, 1);
    front.kick(0);
    front.hold(missing);
    assert_eq!(front.stop_ring(0), 2);
    assert_eq!(front.used_idx(0), 2);
    front.answer(missing);
    front.io().pages.insert(missing, to);
    front.restart_ring(0, 2);
    assert_eq!(front.take_used(0), (1, 2 * MIB as u32 + 1));
    assert_eq!(front.read(status, 1), [0]);
    assert!(front.read(8 * MIB, 2 * MIB) == image_of(len)[..2 * MIB]);
}
