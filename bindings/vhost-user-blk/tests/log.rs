//! The log of dirty pages: what the program marks there.

mod front_end;

use front_end::log::*;
use front_end::*;
use std::collections::BTreeSet;
use std::fs::File;
use std::os::fd::{AsRawFd, OwnedFd};
use std::os::unix::fs::FileExt;
use std::ptr::null_mut;
use std::sync::atomic::{AtomicBool, AtomicU8, Ordering::SeqCst};
use std::time::Instant;

const LEN: usize = 1 << 20;
const MIB: usize = 1 << 20;
#[test]
fn the_pages_that_are_written_are_marked() {
    for (name, features, words) in [
        ("log_plain", USUAL, &[][..]),
        ("log_refused", USUAL, IOMMU),
        ("log_table", USUAL | ACCESS_PLATFORM, IOMMU_8),
    ] {
        for event_idx in [0, EVENT_IDX] {
            let program = Program::start(&format!("{name}{event_idx}"), LEN, words);
            let features = features | event_idx;
            let mut front = started(&program, features);
            // What was written before is not marked.
            front.read_disk(0, 1, 512);
            let log = begin(&mut front, features, LOG_LEN);
            program.rest();
            let used = front.used_ring(0);
            taken(&log);
            let (data, status) = front.places(0, 0);
            front.read_disk(0, 2, 512);
            program.rest();
            // The data, the status and the used ring, and nothing else.
            assert_eq!(taken(&log), pages(&[data as u64, status as u64, used]));
            // A write of the disk leaves the data.
            front.write_disk(0, 2, &[1; 512]);
            program.rest();
            assert_eq!(taken(&log), pages(&[status as u64, used]));
            // Data of two pages.
            assert_eq!(front.request(0, 0, 2, 8192), (0, 8193));
            program.rest();
            let data = data as u64;
            assert_eq!(taken(&log), pages(&[data, data + PAGE, status as u64, used]));
            // The ring is stopped, and nothing is written any more.
            front.stop_ring(0);
            assert!(front.is_done(SET_FEATURES, &features.to_le_bytes(), &[]));
            taken(&log);
        }
    }
}

#[test]
fn writes_are_marked_as_long_as_it_was_asked_for() {
    let program = Program::start("log_ends", LEN, &[]);
    let mut front = started(&program, USUAL);
    let log = begin(&mut front, USUAL, LOG_LEN);
    front.read_disk(0, 1, 512);
    program.rest();
    assert!(!taken(&log).is_empty());
    assert!(front.is_done(SET_FEATURES, &USUAL.to_le_bytes(), &[]));
    program.rest();
    taken(&log);
    front.read_disk(0, 1, 512);
    program.rest();
    assert!(taken(&log).is_empty());
    // It may begin again, with another log.
    let other = begin(&mut front, USUAL, LOG_LEN);
    front.read_disk(0, 1, 512);
    program.rest();
    assert!(taken(&log).is_empty());
    assert!(taken(&other).contains(&(front.places(0, 0).0 as u64 / PAGE)));
    // Nothing but the log changes on a ring that runs.
    let other = USUAL & !INDIRECT_DESC;
    assert!(!front.is_done(SET_FEATURES, &other.to_le_bytes(), &[]));
    assert!(front.is_let_go());
}

// The whole memory needs bits as soon as writes are logged.
#[test]
fn a_log_has_a_bit_for_each_page() {
    let program = Program::start("log_bit", LEN, &[]);
    for (len, is_enough) in [(LOG_LEN - 1, false), (LOG_LEN, true)] {
        let mut front = started(&program, USUAL);
        let log = memfd((LOG_AT + LOG_LEN) as usize);
        front.send(SET_LOG_BASE, 0, &longs(&[len, LOG_AT]), &[&log]);
        assert!(front.reply(SET_LOG_BASE).is_empty());
        front.send(SET_FEATURES, 0, &(USUAL | LOG_ALL).to_le_bytes(), &[]);
        match is_enough {
            true => drop(front.read_disk(0, 1, 512)),
            false => assert!(front.is_let_go()),
        }
    }
    program.expect_said("the log has no bit for a page");
}

// A log whose file loses its bytes ends the connection, and not the program: the first log, the next one, one that was
// there before the memory, and the last page of a long one.
#[test]
fn a_log_that_goes_away_ends_the_connection() {
    let mut program = Program::start("log_lost", LEN, &[]);
    for case in ["first", "next", "older", "long"] {
        let (mut front, mut log) = if case == "long" {
            far_started(&program)
        } else {
            let mut front = started(&program, USUAL);
            let log = begin(&mut front, USUAL, LOG_LEN);
            (front, log)
        };
        front.read_disk(0, 1, 512);
        let (mut data, mut left) = (9 << 20, 0);
        match case {
            "next" => log = begin(&mut front, USUAL, LOG_LEN),
            "older" => {
                let file = memfd(RAM);
                front.move_memory(&file, 0);
                front.set_memory();
            }
            "long" => (data, left) = (FAR, LOG_AT + (FAR / 8) as u64 / PAGE),
            _ => (),
        }
        File::from(log).set_len(left).unwrap();
        front.put_long(1, 0, 1, &[(data, 512)]);
        front.publish(0, 1);
        front.kick(0);
        assert!(front.is_let_go(), "{case}");
        assert!(program.lives());
    }
    started(&program, USUAL).read_disk(0, 1, 512);
}

// Where the second half of the memory lies for the guest.
const FAR: usize = 4 << 30;
const HALF: usize = RAM / 2;

// The log of a memory whose second half lies there, while ring 0 runs.
fn far_started(program: &Program) -> (FrontEnd, OwnedFd) {
    let mut front = program.connect();
    front.negotiate(USUAL);
    let ram = again(&front.ram);
    let table = FrontEnd::table(&[(0, HALF as u64, 0), (FAR as u64, HALF as u64, HALF as u64)]);
    assert!(front.is_done(SET_MEM_TABLE, &table, &[&ram, &ram]));
    front.start_ring(64, 0);
    let log = begin(&mut front, USUAL, (FAR + HALF) as u64 / PAGE / 8);
    program.rest();
    taken(&log);
    (front, log)
}

#[test]
fn marks_are_by_guest_addresses() {
    let program = Program::start("log_far", LEN, &[]);
    let (mut front, log) = far_started(&program);
    let used = pages(&[front.used_ring(0)]);
    put_header(&front, 0, 3);
    // One part of the data, and several: in both halves, from and to anywhere in a page.
    for data in [
        &[(FAR + 4000, 200), (FAR + MIB + 5, 824)][..],
        &[
            (FAR + 100, 5000),
            (7 * MIB + 9, 300_000),
            (FAR + 2 * MIB - 1, 200_000),
            (3 * MIB, 19_288),
        ],
    ] {
        let (status, count) = (FAR + 5 * MIB + 7, data.iter().map(|it| it.1).sum::<usize>());
        let (written, found) = marked(&program, &mut front, &log, &chain_of(data, status));
        assert_eq!(written as usize, count + 1);
        let wanted = &(&pages_of(data) | &pages_of(&[(status, 1)])) | &used;
        assert_eq!(found, wanted);
        let at = |addr: usize| if addr < FAR { addr } else { addr - FAR + HALF };
        let bytes: Vec<u8> = data.iter().flat_map(|&(addr, len)| front.read(at(addr), len)).collect();
        assert!(bytes == image_of(LEN)[3 * 512..3 * 512 + count]);
    }
    // The status is the last byte of a segment, and alone in its page.
    put_header(&front, 0, 3);
    let (written, found) = marked(
        &program,
        &mut front,
        &log,
        &[(HEADERS, 16, false), (FAR + MIB, 8193, true)],
    );
    assert_eq!((written, found), (8193, &pages_of(&[(FAR + MIB, 8193)]) | &used));
    // The name, over the end of a page, and as much of it as there is room for.
    put_header(&front, 8, 0);
    for (len, wanted) in [(20, &[FAR as u64, (FAR + 4096) as u64][..]), (4, &[FAR as u64])] {
        let chain = chain_of(&[(FAR + 4090, len)], FAR + 4080);
        let (written, found) = marked(&program, &mut front, &log, &chain);
        assert_eq!((written as usize, found), (len + 1, &pages(wanted) | &used));
    }
}

#[test]
fn what_was_not_written_is_not_marked() {
    for (name, words) in [("log_fails", &[][..]), ("log_fails_iommu", IOMMU)] {
        expect_marks_of_failures(&Program::start(name, LEN, words));
    }
}

// All that a request may write is marked, and a part of it of which a byte has no memory is not begun.
fn expect_marks_of_failures(program: &Program) {
    let (mut front, log) = far_started(program);
    let used = pages(&[front.used_ring(0)]);
    let nowhere = FAR - MIB;
    put_header(&front, 0, 3);
    // A segment without memory, in the first part and in a later one, and one that ends without memory.
    for (good, bad) in [(5000, nowhere), (200_000, nowhere), (200_000, FAR + HALF - 5000)] {
        let (data, status) = ([(FAR + 77, good), (bad, 300_000 - good), (FAR, 7200)], FAR + 4 * MIB);
        let (written, found) = marked(program, &mut front, &log, &chain_of(&data, status));
        let reached = if bad == nowhere { 0 } else { 5000 };
        let wanted = &pages_of(&[(FAR + 77, good), (bad, reached), (status, 1)]) | &used;
        assert_eq!(written, 0);
        assert!(found.is_subset(&(&(&wanted | &pages_of(&data)) | &pages_of(&[(status, 1)]))));
        assert!(found.is_superset(&(&pages_of(&[(status, 1)]) | &used)));
        assert_eq!(front.read(HALF + 4 * MIB, 1), [1]);
    }
    expect_marks_of_refusals(program, (front, log));
}

fn expect_marks_of_refusals(program: &Program, (mut front, log): (FrontEnd, OwnedFd)) {
    let (used, nowhere) = (pages(&[front.used_ring(0)]), FAR - MIB);
    // A write of the disk, a flush and a request that is refused write their status alone, one without a place for it
    // nothing, and neither does one whose place has no memory.
    for (kind, sector, chain) in [
        (1, 3, &[(FAR, 512, false), (FAR + MIB, 1, true)][..]),
        (4, 0, &[(FAR + MIB, 1, true)]),
        (0, 1 << 50, &[(FAR, 512, true), (FAR + MIB, 1, true)]),
        (4, 0, &[(FAR + MIB, 0, true)]),
        (4, 0, &[(nowhere, 1, true)]),
    ] {
        put_header(&front, kind, sector);
        let chain = [&[(HEADERS, 16, false)], chain].concat();
        let (_, found) = marked(program, &mut front, &log, &chain);
        let (addr, len, _) = chain[chain.len() - 1];
        let status = if addr == nowhere {
            BTreeSet::new()
        } else {
            pages_of(&[(addr, len)])
        };
        let written = chain.iter().filter(|it| it.2).map(|it| (it.0, it.1));
        let may = pages_of(&written.collect::<Vec<_>>());
        assert!(found.is_superset(&(&status | &used)), "{kind} {sector}");
        assert!(found.is_subset(&(&may | &used)), "{kind} {sector}");
    }
}

// A front end with a log, and so many bytes of memory that no request touches.
fn with_memory(program: &Program, len: u64) -> FrontEnd {
    let mut front = program.connect();
    front.negotiate(USUAL);
    let (ram, far) = (again(&front.ram), memfd(len as usize));
    let table = FrontEnd::table(&[(0, RAM as u64, 0), (FAR as u64, len, 0)]);
    assert!(front.is_done(SET_MEM_TABLE, &table, &[&ram, &far]));
    front.start_ring(64, 0);
    begin(&mut front, USUAL, (FAR as u64 + len) / PAGE / 8 + 1);
    for place in 0..16 {
        front.put_request(0, 3 * place, 0, 1, 512);
    }
    front
}

// What a processor works for each of some requests, in nanoseconds.
fn work_of_a_request(program: &Program, front: &mut FrontEnd) -> u64 {
    let begun = program.processor_time();
    for _ in 0..20 {
        for place in 0..16 {
            front.publish(0, 3 * place);
        }
        front.kick(0);
        for place in 0..16 {
            assert_eq!(front.take_used(0), (3 * place, 513));
        }
    }
    program.rest();
    (program.processor_time() - begun) / 320
}

#[test]
fn a_mark_costs_nothing_of_the_other_pages() {
    let programs = ["log_few", "log_many"].map(|name| Program::start(name, LEN, &[]));
    let mut fronts = [(&programs[0], PAGE), (&programs[1], 4 << 30)].map(|(program, len)| with_memory(program, len));
    // The least of rounds that take turns: other work on this machine is in both.
    let mut least = [u64::MAX; 2];
    for _ in 0..12 {
        for (at, front) in fronts.iter_mut().enumerate() {
            least[at] = least[at].min(work_of_a_request(&programs[at], front));
        }
    }
    let [few, many] = least;
    assert!(many < 2 * few, "{few} and {many}");
}

// The address that a used ring has in the log may be another one than its own, which counts without an I/O table.
#[test]
fn a_used_ring_is_marked_at_its_own_address() {
    for (name, words) in [("log_own_address", &[][..]), ("log_address", IOMMU)] {
        let program = Program::start(name, LEN, words);
        let mut front = started(&program, USUAL);
        let log = begin(&mut front, USUAL, LOG_LEN);
        let other = 9 * MIB as u64;
        let mut ring = front.addresses(0, true);
        ring[32..40].copy_from_slice(&other.to_le_bytes());
        assert!(front.is_done(SET_VRING_ADDR, &ring, &[]));
        program.rest();
        taken(&log);
        front.read_disk(0, 1, 512);
        program.rest();
        let found = taken(&log);
        assert!(found.contains(&(front.used_ring(0) / PAGE)));
    }
}

// Several back ends mark pages in one log: each changes its own bits.
#[test]
fn a_mark_leaves_the_other_bits() {
    let program = Program::start("log_bits", LEN, &[]);
    let mut front = started(&program, USUAL);
    let log = begin(&mut front, USUAL, LOG_LEN);
    // A read whose data come in a hundred pieces to one page, and each is marked.
    let data = HEADERS + 3 * PAGE as usize;
    let status = front.put_long(1, 0, 0, &[(data, 512); 100]);
    let (byte, bit) = (data as u64 / PAGE / 8, 1 << 7);
    assert_eq!(status as u64 / PAGE / 8, byte);
    assert!(data as u64 / PAGE % 8 != 7 && status as u64 / PAGE % 8 != 7);
    // SAFETY: the system takes addresses that nothing has, and nothing else of this process reads or writes them. They
    // are there until the process ends.
    let marks = unsafe {
        let access = libc::PROT_READ | libc::PROT_WRITE;
        let at = libc::mmap(
            null_mut(),
            LOG_LEN as usize,
            access,
            libc::MAP_SHARED,
            log.as_raw_fd(),
            LOG_AT as libc::off_t,
        );
        assert_ne!(at, libc::MAP_FAILED);
        AtomicU8::from_ptr(at.cast::<u8>().add(byte as usize))
    };
    let is_over = AtomicBool::new(false);
    std::thread::scope(|scope| {
        let other = scope.spawn(|| {
            let (mut kept, begun) = (true, Instant::now());
            while kept && !is_over.load(SeqCst) && begun.elapsed() < LONG {
                marks.fetch_or(bit, SeqCst);
                kept = (0..20).all(|_| marks.load(SeqCst) & bit != 0);
                marks.fetch_and(!bit, SeqCst);
                kept &= (0..20).all(|_| marks.load(SeqCst) & bit == 0);
            }
            kept
        });
        for _ in 0..4000 {
            front.publish(0, 1);
            front.kick(0);
            assert_eq!(front.take_used(0), (1, 51_201));
        }
        is_over.store(true, SeqCst);
        assert!(other.join().unwrap(), "a mark changed the bit of another page");
    });
}

// New bits are told by a descriptor, also those of the next log, and bits that are there are not.
#[test]
fn new_bits_are_told() {
    let program = Program::start("log_call", LEN, &[]);
    let mut front = started(&program, USUAL);
    let mut log = begin(&mut front, USUAL, LOG_LEN);
    let call = eventfd();
    assert!(front.is_done(SET_LOG_FD, &[], &[&call]));
    for round in 0..4 {
        front.read_disk(0, 1, 512);
        program.rest();
        if round % 2 == 0 {
            assert!(take(&call) > 0, "round {round}");
        } else {
            assert_eq!(take(&call), 0, "round {round}");
        }
        if round == 1 {
            log = begin(&mut front, USUAL, LOG_LEN);
            program.rest();
            taken(&log);
            take(&call);
        }
    }
    // The status alone is new.
    let status = front.places(0, 0).1 as u64 / PAGE;
    assert!(taken(&log).contains(&status));
    front.read_disk(0, 1, 512);
    program.rest();
    let place = LOG_AT + status / 8;
    let mut byte = [0];
    File::from(again(&log)).read_exact_at(&mut byte, place).unwrap();
    File::from(again(&log))
        .write_all_at(&[byte[0] & !(1 << (status % 8))], place)
        .unwrap();
    take(&call);
    front.read_disk(0, 1, 512);
    program.rest();
    assert!(take(&call) > 0);
}
