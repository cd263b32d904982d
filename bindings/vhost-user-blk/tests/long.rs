//! Long requests: a message that changes what they need waits for those that are under way, and these are few.

mod front_end;

use front_end::log::{begin, pages, pages_of, started, taken, LOG_LEN, SHIFT};
use front_end::*;

const MIB: usize = 1 << 20;

// How many bytes a long request reads, and how many of them may be under way.
const LEN: usize = 256 << 20;
const MOST: u16 = 4;

// Without a table, and behind one.
const WAYS: [(&str, &[&str], u64); 2] = [("", &[], 0), ("_behind", &["--iommu"], ACCESS_PLATFORM)];

// Maps all of memory as one range, if there is a table.
fn map_all(front: &mut FrontEnd) {
    if front.io.is_some() {
        let all = iotlb(SHIFT, RAM as u64, USER, READ | WRITE, 2);
        assert!(front.is_done(IOTLB_MSG, &all, &[]));
    }
}

fn start(name: &str, words: &[&str], features: u64) -> (Program, FrontEnd) {
    let program = Program::start_on_a_hole(name, 4 << 30, words);
    let mut front = started(&program, USUAL | features);
    map_all(&mut front);
    (program, front)
}

// Publishes a read of this length into the same four mebibytes, again and again.
fn publish_long(front: &mut FrontEnd, head: u16) -> usize {
    let status = front.put_long(head, 0, 0, &[(8 * MIB, 4 * MIB); LEN / (4 * MIB)]);
    front.publish(0, head);
    status
}

fn expect_back(front: &mut FrontEnd, head: u16) {
    assert_eq!(front.take_used(0), (head.into(), LEN as u32 + 1));
}

#[test]
fn a_message_waits_for_few_requests() {
    for (name, words, features) in WAYS {
        let (program, mut front) = start(&format!("long{name}"), words, features);
        expect_few_before_a_stop(&program, &mut front);
    }
}

fn expect_few_before_a_stop(program: &Program, front: &mut FrontEnd) {
    for head in 0..64 {
        publish_long(front, head);
    }
    front.kick(0);
    program.wait_for_work();
    let before = front.used_idx(0);
    let base = front.stop_ring(0);
    assert_eq!(base, front.used_idx(0).into());
    assert!(base <= u32::from(before + MOST), "{before} and {base}");
    program.rest();
    assert_eq!(base, front.used_idx(0).into());
    (0..base as u16).for_each(|head| expect_back(front, head));
    map_all(front);
    front.restart_ring(0, base as u16);
    expect_back(front, base as u16);
}

#[test]
fn another_ring_waits_for_few_requests() {
    for (name, words, features) in WAYS {
        let words = [words, &["--queues", "2"]].concat();
        let (program, mut front) = start(&format!("long_ring{name}"), &words, features | 1 << 12);
        front.start_ring(64, 0);
        for head in 0..64 {
            publish_long(&mut front, head);
        }
        front.kick(0);
        program.wait_for_work();
        for _ in 0..3 {
            let before = front.used_idx(0);
            assert_eq!(front.read_disk(1, 3, 4096), [0; 4096]);
            let after = front.used_idx(0);
            assert!(after <= before + MOST, "{before} and {after}");
        }
    }
}

#[test]
fn the_end_waits_for_no_request() {
    for (name, words, features) in WAYS {
        let (program, mut front) = start(&format!("long_end{name}"), words, features);
        for head in 0..2 {
            front.put_endless(head);
            front.publish(0, head);
        }
        front.kick(0);
        program.wait_for_work();
        let took = work_of_its_end(&program);
        assert!(took < 100_000_000, "{took}");
        assert_eq!(front.used_idx(0), 0);
    }
}

// After each of these messages was answered, the request is done as the driver had it when it came.
#[test]
fn a_request_ends_before_its_memory_changes() {
    let program = Program::start_on_a_hole("long_memory", 4 << 30, &[]);
    let mut front = started(&program, USUAL);
    let half = RAM as u64 / 2;
    for turn in 0..3_u16 {
        publish_long(&mut front, turn);
        front.kick(0);
        program.wait_for_work();
        match turn {
            0 => {
                let ram = again(&front.ram);
                let table = FrontEnd::table(&[(half, half, half), (0, half, 0)]);
                assert!(front.is_done(SET_MEM_TABLE, &table, &[&ram, &ram]));
            }
            1 => assert!(front.is_done(SET_MEM_TABLE, &FrontEnd::table(&[]), &[])),
            _ => assert_eq!(front.stop_ring(0), 3),
        }
        assert_eq!(front.used_idx(0), turn + 1);
        expect_back(&mut front, turn);
        front.set_memory();
    }
    // A ring that is disabled ends what is under way.
    front.restart_ring(0, 3);
    publish_long(&mut front, 3);
    front.kick(0);
    program.wait_for_work();
    assert!(front.is_done(SET_VRING_ENABLE, &two(0, 0), &[]));
    expect_back(&mut front, 3);
}

#[test]
fn what_was_written_is_marked_before_a_ring_stops() {
    let program = Program::start_on_a_hole("long_log", 4 << 30, &[]);
    let mut front = started(&program, USUAL);
    front.write(8 * MIB, &vec![5; 4 * MIB]);
    let log = begin(&mut front, USUAL, LOG_LEN);
    program.rest();
    taken(&log);
    let status = publish_long(&mut front, 1);
    front.kick(0);
    program.wait_for_work();
    assert_eq!(front.stop_ring(0), 1);
    let wanted = pages_of(&[(8 * MIB, 4 * MIB), (status, 1)]);
    assert_eq!(taken(&log), &wanted | &pages(&[front.used_ring(0)]));
    assert!(front.read(8 * MIB, 4 * MIB) == vec![0; 4 * MIB]);
}

// The pieces of these requests have no room in one run. Meanwhile a part of a message has come.
#[test]
fn a_message_may_come_in_parts() {
    let program = Program::start_on_a_hole("long_parts", 4 << 30, &[]);
    let mut front = started(&program, USUAL);
    let bytes = message(SET_VRING_ENABLE, NEED_REPLY, &two(0, 1));
    for cut in [1, 11, 12, 19] {
        assert!(send(&front.socket, &bytes[..cut], &[]));
        for head in 0..8 {
            front.put_long(head, 0, 0, &[(8 * MIB, 512); 1000]);
            front.publish(0, head);
        }
        front.kick(0);
        (0..8).for_each(|head| assert_eq!(front.take_used(0), (head, 512_001)));
        assert!(send(&front.socket, &bytes[cut..], &[]));
        assert_eq!(front.reply(SET_VRING_ENABLE), [0; 8]);
    }
}

// The second part of a request has no memory, and it has more of them. The requests after it are served.
#[test]
fn a_part_without_memory_ends_its_request() {
    let program = Program::start_on_a_hole("long_lost", 4 << 30, &[]);
    let mut front = started(&program, USUAL);
    for (round, kind) in (0..).step_by(4).zip([0, 1, 0, 1]) {
        let data = [(8 * MIB, MIB), (32 * MIB, MIB), (8 * MIB, 2 * MIB)];
        let status = front.put_long(round, kind, 0, &data);
        for head in round + 1..round + 4 {
            front.put_long(head, kind, 0, &[(8 * MIB, 3 * MIB)]);
        }
        (round..round + 4).for_each(|head| front.publish(0, head));
        front.kick(0);
        let written = |len: usize| if kind == 0 { len as u32 } else { 0 };
        assert_eq!(front.take_used(0).0, round.into());
        assert_eq!(front.read(status, 1), [1]);
        for head in round + 1..round + 4 {
            assert_eq!(front.take_used(0), (head.into(), written(3 * MIB) + 1));
        }
    }
    assert_eq!(front.stop_ring(0), 16);
}
