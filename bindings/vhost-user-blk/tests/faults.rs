//! What fails around the program: the disk, the limits of the system, and whoever reads what it prints.

mod front_end;

use front_end::*;
use std::fs::{self, File};
use std::io::Read;
use std::os::fd::AsRawFd;
use std::os::unix::net::UnixStream;
use std::process::{Command, Stdio};
use std::thread::sleep;
use std::time::{Duration, Instant};

const LEN: usize = 1 << 20;

fn started(program: &Program, features: u64) -> FrontEnd {
    let mut front = program.connect();
    front.negotiate(features);
    front.set_memory();
    front.start_ring(64, 0);
    front
}

fn expect_well(program: Program) {
    let mut front = started(&program, USUAL);
    assert_eq!(front.read_disk(0, 2, 512), sectors(2, 512));
    drop(front);
    assert!(program.end(libc::SIGTERM).success());
}

// Ways to the disk that go through the C library.
const WAYS: [&str; 2] = ["none", "threads"];

// The program, whose disk moves less than it is asked to or is interrupted, and fails from a byte on. Without a
// compiler of C there is none.
fn with_faults(name: &str, way: &str, bad_from: u64, words: &[&str]) -> Option<(Program, Faults)> {
    let (name, words) = (&format!("{name}_{way}"), &[words, &["--aio", way]].concat());
    let folder = Program::prepare(name, LEN);
    let Some(faults) = Faults::new(&folder, bad_from) else {
        println!("{name} is left out: there is no compiler of C");
        return None;
    };
    let mut command = Program::command(Command::new(env!("CARGO_BIN_EXE_vhost-user-blk")), &folder, words);
    faults.precede(&mut command);
    Some((Program::spawn(&folder, command), faults))
}

// Whole sectors of an image.
fn sectors(from: usize, len: usize) -> Vec<u8> {
    image_of(LEN)[512 * from..][..len].to_vec()
}

#[test]
fn each_byte_is_moved_however_few_a_call_moves() {
    for way in WAYS {
        move_few_bytes("few_bytes", way, &[]);
        // Also while it looks for more.
        move_few_bytes("few_bytes_poll", way, &["--poll", "50"]);
    }
}

fn move_few_bytes(name: &str, way: &str, words: &[&str]) {
    let Some((program, _faults)) = with_faults(name, way, u64::MAX, words) else {
        return;
    };
    let mut front = started(&program, USUAL);
    let mut wanted = image_of(LEN);
    for round in 0..40 {
        let (sector, len) = (24 * round, 512 * (1 + round % 24));
        assert!(
            front.read_disk(0, sector as u64, len as u32) == sectors(sector, len),
            "{sector}"
        );
        let bytes: Vec<u8> = (0..len).map(|at| (at * 7 + round) as u8).collect();
        front.write_disk(0, sector as u64, &bytes);
        wanted[512 * sector..][..len].copy_from_slice(&bytes);
    }
    assert!(fs::read(&program.image).unwrap() == wanted);
}

// A read that fails leaves what was there, and no byte of another request.
#[test]
fn what_the_disk_refuses_fails() {
    WAYS.into_iter().for_each(refuse_sectors);
}

fn refuse_sectors(way: &str) {
    let bad = 1000;
    let Some((program, _faults)) = with_faults("bad_sectors", way, 512 * bad, &["--stats", "86400"]) else {
        return;
    };
    let mut front = started(&program, USUAL);
    let place = front.places(0, 0).0;
    for _ in 0..10 {
        front.read_disk(0, 3, 0x3000);
        front.write(place, &[0xaa; 0x3000]);
        assert_eq!(front.request(0, 0, bad, 0x3000), (1, 0));
        assert!(front.read(place, 0x3000) == [0xaa; 0x3000]);
        assert_eq!(front.request(0, 1, bad + 1, 512), (1, 1));
    }
    assert_eq!(front.request(0, 0, bad - 1, 512), (0, 513));
    assert_eq!(fs::read(&program.image).unwrap(), image_of(LEN));
    drop(front);
    let said = "21 reads of 123392 bytes, 10 writes of 0 bytes, 0 flushes, 0 others; 0 syncs, 20 errors";
    program.expect_said(&format!("served 31 requests: {said}\n"));
}

// A flush syncs once, and so does each write of a driver that knows no flush. Nothing else does.
#[test]
fn syncs_are_those_that_were_asked_for() {
    WAYS.into_iter().for_each(count_syncs);
}

fn count_syncs(way: &str) {
    for (name, words, features, of_a_write) in [
        ("flushes", &[][..], USUAL, 0),
        ("no_flush", &[][..], USUAL & !FLUSH, 1),
        ("stable", &["--write-through"][..], USUAL & !FLUSH, 1),
    ] {
        let Some((program, faults)) = with_faults(name, way, u64::MAX, words) else {
            return;
        };
        let mut front = started(&program, features);
        for round in 1..4 {
            front.write_disk(0, round, &[1; 1024]);
            assert_eq!(faults.syncs(), round * of_a_write, "{name}");
            front.read_disk(0, round, 512);
        }
        assert_eq!(faults.syncs(), 3 * of_a_write, "{name}");
        if features & FLUSH != 0 {
            for round in 1..4 {
                assert_eq!(front.request(0, 4, 0, 0), (0, 1));
                assert_eq!(faults.syncs(), round);
            }
        }
    }
}

#[test]
fn after_a_sync_that_failed_no_flush_succeeds() {
    WAYS.into_iter().for_each(fail_flushes);
}

fn fail_flushes(way: &str) {
    let Some((program, faults)) = with_faults("failed_flush", way, u64::MAX, &["--stats", "1"]) else {
        return;
    };
    let mut front = started(&program, USUAL);
    front.write_disk(0, 3, &[1; 512]);
    assert_eq!(front.request(0, 4, 0, 0), (0, 1));
    // The system would succeed again: it has dropped what it could not write.
    faults.fail_sync();
    for _ in 0..3 {
        assert_eq!(front.request(0, 4, 0, 0), (1, 1));
    }
    program.expect_said("the image cannot be made stable: Input/output error");
    program.expect_said("the image: a sync failed");
    drop(front);
    let mut front = started(&program, USUAL);
    assert_eq!(front.request(0, 4, 0, 0), (1, 1));
    // What need not be stable is served.
    front.write_disk(0, 5, &[2; 512]);
    assert_eq!(front.read_disk(0, 5, 512), [2; 512]);
    // Started again, the program flushes.
    let folder = program.folder.clone();
    assert!(program.end(libc::SIGTERM).success());
    let program = Program::start_again(&folder, &[]);
    assert_eq!(started(&program, USUAL).request(0, 4, 0, 0), (0, 1));
}

#[test]
fn after_a_sync_that_failed_no_write_is_stable() {
    WAYS.into_iter().for_each(fail_writes);
}

fn fail_writes(way: &str) {
    let Some((program, faults)) = with_faults("failed_write", way, u64::MAX, &["--write-through"]) else {
        return;
    };
    let mut front = started(&program, USUAL & !FLUSH);
    front.write_disk(0, 3, &[1; 512]);
    faults.fail_sync();
    for _ in 0..3 {
        assert_eq!(front.request(0, 1, 3, 512), (1, 1));
    }
    assert_eq!(front.read_disk(0, 2, 512), sectors(2, 512));
}

// A file may have 512 KiB.
#[test]
fn a_file_that_may_not_grow_fails_the_write() {
    let program = Program::start("file_size", LEN, &[]);
    let mut front = started(&program, USUAL);
    let before = program.limit(libc::RLIMIT_FSIZE, 512 << 10);
    front.write_disk(0, 1023, &[7; 512]);
    assert_eq!(front.request(0, 1, 1024, 512), (1, 1));
    assert_eq!(front.read_disk(0, 1023, 512), [7; 512]);
    program.limit(libc::RLIMIT_FSIZE, before);
    front.write_disk(0, 1024, &[8; 512]);
    drop(front);
    expect_well(program);
}

#[test]
fn a_front_end_waits_for_a_descriptor() {
    let program = Program::start("no_descriptors", LEN, &[]);
    drop(started(&program, USUAL));
    let before = program.limit(libc::RLIMIT_NOFILE, 0);
    let socket = UnixStream::connect(program.folder.join("s")).unwrap();
    program.expect_said("no front end can connect now: Too many open files");
    // It does not ask again and again.
    let worked = program.processor_time();
    sleep(Duration::from_millis(500));
    assert!(program.processor_time() - worked < 100_000_000);
    program.limit(libc::RLIMIT_NOFILE, before);
    let mut front = FrontEnd::new(socket);
    front.negotiate(USUAL);
    drop(front);
    expect_well(program);
}

// There is room for a connection, and for less than it needs.
#[test]
fn a_connection_that_lacks_descriptors_ends_alone() {
    let program = Program::start("few_descriptors", LEN, &[]);
    for most in 3..30 {
        let before = program.limit(libc::RLIMIT_NOFILE, most);
        let front = program.connect();
        let ((_mine, other), counter) = (UnixStream::pair().unwrap(), eventfd());
        for (request, payload, descriptor) in [
            (SET_BACKEND_REQ_FD, &[][..], other.as_raw_fd()),
            (SET_VRING_CALL, &[0; 8], counter.as_raw_fd()),
            (SET_VRING_KICK, &[0; 8], front.ram.as_raw_fd()),
        ] {
            // It may have been let go.
            send(&front.socket, &message(request, 0, payload), &[descriptor]);
        }
        program.rest();
        drop(front);
        program.limit(libc::RLIMIT_NOFILE, before);
        // It waits for front ends again.
        started(&program, USUAL).read_disk(0, 1, 512);
    }
    expect_well(program);
}

// The system gives the program no more memory, and what it has does not hold 256 queues. If the first allocation that
// fails is one of a few bytes, as it is once in some tries, Rust ends the program; else the connection ends.
#[test]
fn a_connection_that_lacks_memory_ends_alone() {
    for _ in 0..10 {
        let mut program = Program::start("no_memory", LEN, &["--queues", "256"]);
        let (_, mapped) = program.memory();
        let before = program.limit(libc::RLIMIT_AS, mapped);
        let mut front = program.connect();
        assert!(front.is_let_go());
        let (begun, words) = (Instant::now(), "the connection ended: setting it up: ");
        while program.lives() && !program.has_said(words) {
            assert!(begun.elapsed() < LONG, "it neither ends nor says so");
            sleep(Duration::from_millis(2));
        }
        // A few bytes may be lacking right after it said so, too.
        if program.ended(Duration::from_millis(300)).is_some() {
            continue;
        }
        program.limit(libc::RLIMIT_AS, before);
        return expect_well(program);
    }
    panic!("the program ends each time");
}

#[test]
fn nobody_has_to_read_what_it_prints() {
    let folder = Program::prepare("unread", LEN);
    let program = Command::new(env!("CARGO_BIN_EXE_vhost-user-blk"));
    let mut command = Program::command(program, &folder, &[]);
    let mut child = command.stdout(Stdio::piped()).spawn().unwrap();
    let mut lines = child.stdout.take().unwrap();
    while !folder.join("s").exists() {
        sleep(Duration::from_millis(2));
    }
    // More lines than the pipe and the program have room for.
    for _ in 0..3000 {
        let mut front = FrontEnd::new(UnixStream::connect(folder.join("s")).unwrap());
        front.socket.set_read_timeout(Some(LONG)).unwrap();
        front.ask_u64(GET_FEATURES);
    }
    // It ends, though the last lines are not read.
    let begun = Instant::now();
    // SAFETY: it takes numbers, of a child that was not waited for.
    assert_eq!(unsafe { libc::kill(child.id() as i32, libc::SIGTERM) }, 0);
    while child.try_wait().unwrap().is_none() {
        assert!(begun.elapsed() < LONG, "it does not end");
        sleep(Duration::from_millis(2));
    }
    assert!(child.wait().unwrap().success());
    let mut text = String::new();
    lines.read_to_string(&mut text).unwrap();
    // Whole lines, up to where there was no room.
    assert!(text.starts_with(&format!("{}: 2048 sectors", folder.join("disk.img").display())));
    assert!(text.len() < 1 << 18, "{} bytes", text.len());
}

// A signal that a process sends is no access that failed.
#[test]
fn memory_that_goes_away_is_survived_after_a_signal() {
    let mut program = Program::start("sent_signal", LEN, &[]);
    for _ in 0..2 {
        program.signal(libc::SIGBUS);
        let mut front = started(&program, USUAL);
        front.read_disk(0, 1, 512);
        program.signal(libc::SIGBUS);
        front.read_disk(0, 1, 512);
        File::from(again(&front.ram)).set_len(0).unwrap();
        front.kick(0);
        assert!(front.is_let_go());
        program.expect_said("guest memory disappeared");
        assert!(program.lives());
    }
    assert_eq!(fs::read(&program.image).unwrap(), image_of(LEN));
    expect_well(program);
}
