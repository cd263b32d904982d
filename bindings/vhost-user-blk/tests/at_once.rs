//! Many requests at once: in which order they end, what waits for a slow disk, and how the program ends meanwhile.

mod front_end;

use front_end::inflight::{read_of, set_up, SIZE};
use front_end::load::{started, Load};
use front_end::*;
use std::fs::{self, File};
use std::os::unix::process::CommandExt;
use std::path::Path;
use std::process::{Command, Stdio};
use std::sync::atomic::Ordering::SeqCst;
use std::thread::sleep;
use std::time::{Duration, Instant};

const LEN: usize = 1 << 20;

// From this sector on a slow disk is slow.
const SLOW: u64 = 1024;
const THREADS: &[&str] = &["--aio", "threads"];

fn millis(count: u64) -> Duration {
    Duration::from_millis(count)
}

fn command(folder: &Path, words: &[&str]) -> Command {
    Program::command(Command::new(env!("CARGO_BIN_EXE_vhost-user-blk")), folder, words)
}

// The program over a disk that is slow from a sector on. Without a compiler of C there is none.
fn slow(name: &str, time: Duration, words: &[&str]) -> Option<(Program, Faults)> {
    let folder = Program::prepare(name, LEN);
    let Some(faults) = Faults::new(&folder, u64::MAX) else {
        println!("{name} is left out: there is no compiler of C");
        return None;
    };
    faults.be_slow(512 * SLOW, time);
    let mut command = command(&folder, &[words, THREADS].concat());
    faults.precede(&mut command);
    Some((Program::spawn(&folder, command), faults))
}

// Has a request begin.
fn ask(front: &mut FrontEnd, ring: usize, head: u16, kind: u32, sector: u64) {
    front.put_request(ring, head, kind, sector, 512);
    front.publish(ring, head);
    front.kick(ring);
}

fn wait_for(what: &str, mut is_so: impl FnMut() -> bool) {
    let begun = Instant::now();
    while !is_so() {
        assert!(begun.elapsed() < LONG, "{what}");
        sleep(millis(1));
    }
}

fn expect_slow(faults: &Faults, count: u64) {
    wait_for("the disk is not asked", || faults.slow()[0] == count);
}

fn status_of(front: &FrontEnd, ring: usize, head: u16) -> u8 {
    front.read(front.places(ring, head).1, 1)[0]
}

// ---- the order of ends

// Without a region the used index alone says where a ring goes on after a kill: the first request is not to be lost.
#[test]
fn requests_of_a_ring_without_a_region_end_in_order() {
    for (name, words, has_region, is_in_order) in [
        ("order", &[][..], false, true),
        ("order_region", &[], true, false),
        ("order_any", &["--any-order"], false, false),
    ] {
        let Some((program, faults)) = slow(name, millis(300), words) else {
            return;
        };
        let mut front = program.connect();
        front.negotiate(USUAL);
        let region = has_region.then(|| front.new_region(1, SIZE));
        set_up(&mut front, USUAL, region.as_ref());
        front.start_ring(SIZE, 0);
        for _ in 0..2 {
            ask(&mut front, 0, 0, 0, SLOW);
            expect_slow(&faults, 1);
            for head in [3, 6] {
                ask(&mut front, 0, head, 0, 1);
            }
            let heads = [0; 3].map(|_| front.take_used(0));
            let wanted = if is_in_order { [0, 3, 6] } else { [3, 6, 0] };
            assert_eq!(heads, wanted.map(|head| (head, 513)), "{name}");
            for (head, sector) in [(0, SLOW), (3, 1), (6, 1)] {
                assert_eq!(status_of(&front, 0, head), 0);
                assert!(front.read(front.places(0, head).0, 512) == read_of(sector, 512));
            }
        }
        // One that is refused comes back at once, as ever.
        ask(&mut front, 0, 0, 0, SLOW);
        ask(&mut front, 0, 3, 11, 0);
        assert_eq!([0; 2].map(|_| front.take_used(0).0), [3, 0]);
    }
}

// Has a read of a sector begin in a packed ring, in its first round, in three slots from one on.
fn ask_packed(front: &mut FrontEnd, slot: u16, sector: u64) {
    const AVAIL: u16 = 0x80;
    let (data, status) = front.places(0, slot);
    let header = data - 0x1000;
    front.write(header, &[&[0; 8][..], &sector.to_le_bytes()].concat());
    let table = front.parts(0).0 + 16 * usize::from(slot);
    let parts = [(header, 16_u32, 1), (data, 512, 3), (status, 1, 2)];
    // The first one counts last.
    for (at, (addr, len, flags)) in parts.into_iter().enumerate().rev() {
        let bytes = [
            &(addr as u64).to_le_bytes()[..],
            &len.to_le_bytes(),
            &slot.to_le_bytes(),
        ];
        front.write(table + 16 * at, &bytes.concat());
        front.word(table + 16 * at + 14).store(flags | AVAIL, SeqCst);
    }
    front.kick(0);
}

// The id in a slot of a packed ring that is used in the first round.
fn used_packed(front: &FrontEnd, slot: u16) -> u16 {
    const BOTH: u16 = 0x8080;
    let at = front.parts(0).0 + 16 * usize::from(slot);
    wait_for("no request comes back", || {
        front.word(at + 14).load(SeqCst) & BOTH == BOTH
    });
    front.word(at + 12).load(SeqCst)
}

// The position of a packed ring does not say what is out, so no order would help a later program.
#[test]
fn requests_of_a_packed_ring_end_in_any_order() {
    let Some((program, faults)) = slow("order_packed", millis(300), &[]) else {
        return;
    };
    let mut front = program.connect();
    front.negotiate(USUAL | RING_PACKED);
    front.set_memory();
    front.start_packed_ring(SIZE, 0x8000_8000);
    ask_packed(&mut front, 0, SLOW);
    expect_slow(&faults, 1);
    ask_packed(&mut front, 3, 1);
    assert_eq!([0, 3].map(|slot| used_packed(&front, slot)), [3, 0]);
}

// The second ring has no part of the region.
#[test]
fn a_ring_beside_the_region_ends_in_order() {
    let Some((program, faults)) = slow("order_part", millis(300), &["--queues=2"]) else {
        return;
    };
    let mut front = program.connect();
    front.negotiate(USUAL | BLK_MQ);
    let region = front.new_region(1, SIZE);
    set_up(&mut front, USUAL, Some(&region));
    for ring in 0..2 {
        front.start_ring(SIZE, 0);
        ask(&mut front, ring, 0, 0, SLOW);
        expect_slow(&faults, 1);
        ask(&mut front, ring, 3, 0, 1);
        let heads = [0; 2].map(|_| front.take_used(ring).0);
        assert_eq!(heads, [[3, 0], [0, 3]][ring]);
    }
}

// A program that is killed among them is followed by one that serves what did not come back, and nothing else.
#[test]
fn no_request_is_lost_after_a_kill_without_a_region() {
    let Some((program, faults)) = slow("order_killed", millis(200), &[]) else {
        return;
    };
    let folder = program.folder.clone();
    let mut front = started(&program, 1);
    ask(&mut front, 0, 0, 0, 2);
    ask(&mut front, 0, 3, 0, SLOW);
    expect_slow(&faults, 1);
    ask(&mut front, 0, 6, 0, 3);
    ask(&mut front, 0, 9, 0, 4);
    sleep(millis(50));
    assert!(!program.end(libc::SIGKILL).success());
    assert_eq!(front.take_used(0), (0, 513));
    assert_eq!(front.used_idx(0), 1);
    let program = Program::start_again(&folder, &[]);
    front.connect_again(&program);
    front.negotiate(USUAL);
    front.set_memory();
    take(&front.rings[0].kick);
    front.restart_ring(0, 1);
    assert_eq!([0; 3].map(|_| front.take_used(0)), [3, 6, 9].map(|head| (head, 513)));
    program.rest();
    assert_eq!(front.used_idx(0), 4);
}

// ---- a slow disk

#[test]
fn a_slow_disk_holds_up_its_own_requests_alone() {
    let Some((program, faults)) = slow("slow", millis(1500), &["--queues", "2"]) else {
        return;
    };
    let mut front = started(&program, 2);
    ask(&mut front, 0, 0, 0, SLOW);
    expect_slow(&faults, 1);
    // Other requests, messages, and the stop of another ring.
    for sector in 1..20 {
        assert!(front.read_disk(1, sector, 512) == read_of(sector, 512));
        front.write_disk(1, sector, &[9; 512]);
        assert_eq!(front.request(1, 4, 0, 0), (0, 1));
        front.ask_u64(GET_FEATURES);
        assert!(front.is_done(SET_VRING_ENABLE, &two(1, 1), &[]));
    }
    assert_eq!(front.stop_ring(1), 57);
    assert_eq!((front.used_idx(0), faults.slow()), (0, [1, 1]), "they waited");
    // The stop of its ring waits for it.
    assert_eq!(front.stop_ring(0), 1);
    assert_eq!((front.used_idx(0), faults.slow()), (1, [0, 1]));
    assert_eq!(front.take_used(0), (0, 513));
}

#[test]
fn so_many_requests_of_a_ring_are_under_way() {
    for (name, words, rings, most) in [
        ("depth_3", &["--depth", "3"][..], 1, 3),
        ("depth_1", &["--depth=1", "--queues=2"], 2, 2),
        ("depth", &["--queues=2"], 2, 20),
    ] {
        let Some((program, faults)) = slow(name, millis(100), words) else {
            return;
        };
        let mut front = started(&program, rings);
        for ring in 0..rings {
            for place in 0..10 {
                front.put_request(ring, 3 * place, 0, SLOW + u64::from(place), 512);
                front.publish(ring, 3 * place);
            }
            front.kick(ring);
        }
        for ring in 0..rings {
            for place in 0..10 {
                assert_eq!(front.take_used(ring), (3 * u32::from(place), 513));
                assert!(front.read(front.places(ring, 3 * place).0, 512) == read_of(SLOW + u64::from(place), 512));
            }
        }
        assert_eq!(faults.slow(), [0, most], "{name}");
    }
}

// Two requests of 128 MiB are under way, and a third one has no turn.
#[test]
fn a_program_sleeps_while_requests_wait() {
    for (name, words) in [("asleep", &[][..]), ("asleep_poll", &["--poll=1000000"])] {
        let Some((program, faults)) = slow(name, millis(1000), words) else {
            return;
        };
        expect_sleep(&program, &faults);
    }
}

fn expect_sleep(program: &Program, faults: &Faults) {
    let image = File::options().write(true).open(&program.image).unwrap();
    image.set_len(256 << 20).unwrap();
    program.signal(libc::SIGHUP);
    program.expect_said("sectors now");
    let mut front = started(program, 1);
    // It looks for a while after requests that come soon.
    for _ in 0..20 {
        front.read_disk(0, 1, 512);
    }
    for head in 0..3 {
        front.put_long(head, 0, SLOW, &[(8 << 20, 4 << 20); 32]);
        front.publish(0, head);
    }
    front.kick(0);
    wait_for("the disk is not asked", || faults.slow()[0] > 0);
    sleep(millis(50));
    let asked = faults.slow(); // One that looks may find the first one alone.
    assert!(asked == [1, 1] || asked == [2, 2], "{asked:?}");
    let worked = program.processor_time();
    sleep(millis(600));
    let worked = program.processor_time() - worked;
    assert!(worked < 100_000_000, "it worked for {worked} ns");
    assert_eq!(faults.slow(), asked);
}

#[test]
fn a_program_sleeps_after_threads_served() {
    let Some((program, _faults)) = slow("threads_asleep", millis(20), &[]) else {
        return;
    };
    let mut front = started(&program, 1);
    for _ in 0..5 {
        front.read_disk(0, SLOW, 512);
    }
    let worked = program.processor_time();
    sleep(millis(400));
    let worked = program.processor_time() - worked;
    assert!(worked < 50_000_000, "it worked for {worked} ns");
}

#[test]
fn no_flush_succeeds_while_another_one_fails() {
    for is_failing in [false, true] {
        let Some((program, faults)) = slow(&format!("flushes_{is_failing}"), millis(1), &["--queues=2"]) else {
            return;
        };
        let mut front = started(&program, 2);
        faults.sync_slowly(millis(200));
        if is_failing {
            faults.fail_sync();
        }
        for ring in 0..2 {
            front.put_request(ring, 0, 4, 0, 0);
            front.publish(ring, 0);
            front.kick(ring);
            sleep(millis(50));
        }
        // The second one came after the first sync began.
        assert_eq!(faults.syncs(), 1);
        for ring in 0..2 {
            assert_eq!(front.take_used(ring), (0, 1));
            assert_eq!(status_of(&front, ring, 0), u8::from(is_failing));
        }
        assert_eq!(faults.syncs(), if is_failing { 1 } else { 2 });
    }
}

#[test]
fn what_is_under_way_is_said_with_times() {
    let Some((program, faults)) = slow("times", millis(1300), &["--stats=1"]) else {
        return;
    };
    let mut front = started(&program, 1);
    for head in [0, 3] {
        ask(&mut front, 0, head, 0, SLOW);
    }
    expect_slow(&faults, 2);
    program.expect_said("under way: 2\n");
    for _ in 0..2 {
        front.take_used(0);
    }
    program.expect_said("under way: 0; 2 reads, writes and flushes took: least 1.3 s, middle 1.");
    // They are told once.
    program.expect_said("under way: 0\n");
    // One of many does not count.
    for _ in 0..300 {
        front.read_disk(0, 1, 512);
    }
    ask(&mut front, 0, 0, 0, SLOW);
    front.take_used(0);
    drop(front);
    program.expect_said("the connection ended");
    assert!(program.has_said(" us, 99 of 100 within ") || program.has_said(" ns, 99 of 100 within "));
}

// Once requests come soon it looks for them: the last one is not notified. Then it sleeps.
#[test]
fn a_ring_is_looked_at_for_a_while() {
    for (name, words) in [
        ("poll", &["--poll=1000000"][..]),
        ("poll_threads", &["--poll=1000000", "--aio=threads"]),
        ("poll_none", &["--poll=1000000", "--aio=none"]),
    ] {
        let program = Program::start(name, LEN, words);
        let mut front = started(&program, 1);
        // The time doubles with each until it finds the next one: these are enough for 50 ms.
        for _ in 0..20 {
            front.read_disk(0, 1, 512);
            sleep(millis(50));
        }
        front.read_disk(0, 1, 512);
        front.put_request(0, 0, 0, 5, 512);
        front.publish(0, 0);
        assert_eq!(front.take_used(0), (0, 513));
        assert!(front.read(front.places(0, 0).0, 512) == read_of(5, 512));
        sleep(millis(2500));
        let worked = program.processor_time();
        sleep(millis(500));
        assert!(program.processor_time() - worked < 50_000_000, "it does not sleep");
    }
}

// ---- ends of the program, and of front ends

#[test]
fn the_end_waits_for_what_is_under_way() {
    let Some((mut program, faults)) = slow("drained", millis(700), &["--depth=1"]) else {
        return;
    };
    let mut front = started(&program, 1);
    // The second one has not begun.
    for (head, sector) in [(0, SLOW), (3, SLOW + 1)] {
        front.write(front.places(0, head).0, &[5; 512]);
        ask(&mut front, 0, head, 1, sector);
    }
    expect_slow(&faults, 1);
    program.signal(libc::SIGTERM);
    assert!(program.ended(millis(200)).is_none(), "it does not wait");
    assert!(program.ended(LONG).expect("it does not end").success());
    assert_eq!(front.take_used(0), (0, 1));
    assert_eq!((status_of(&front, 0, 0), front.used_idx(0)), (0, 1));
    let mut wanted = image_of(LEN);
    wanted[512 * SLOW as usize..][..512].fill(5);
    assert!(fs::read(&program.image).unwrap() == wanted);
    assert!(front.is_let_go());
}

#[test]
fn the_end_waits_so_long_at_most() {
    for (drain, least) in [("0", 0), ("1", 900)] {
        let folder = Program::prepare(&format!("drain_{drain}"), LEN);
        let Some(faults) = Faults::new(&folder, u64::MAX) else {
            return;
        };
        faults.be_slow(512 * SLOW, millis(30_000));
        let mut command = command(&folder, &[THREADS, &["--drain", drain]].concat());
        faults.precede(&mut command);
        let said = folder.join("said");
        command.stderr(File::create(&said).unwrap());
        let mut program = Program::spawn(&folder, command);
        let mut front = started(&program, 1);
        ask(&mut front, 0, 0, 1, SLOW);
        expect_slow(&faults, 1);
        let begun = Instant::now();
        program.signal(libc::SIGTERM);
        let status = program.ended(millis(10_000)).expect("it does not end");
        assert!(begun.elapsed() >= millis(least), "{:?}", begun.elapsed());
        assert_eq!((status.code(), front.used_idx(0)), (Some(1), 0));
        let text = fs::read_to_string(&said).unwrap();
        let wanted = format!("1 request to the disk is under way after {drain} s");
        assert!(text.contains(&wanted), "{text}");
        assert!(!folder.join("s").exists());
    }
}

// Guest memory is unmapped after the last access.
#[test]
fn a_front_end_goes_while_requests_are_under_way() {
    let Some((program, faults)) = slow("gone", millis(600), &["--depth=2"]) else {
        return;
    };
    let mut front = started(&program, 1);
    for head in [0, 3, 6, 9] {
        front.write(front.places(0, head).0, &[6; 512]);
        ask(&mut front, 0, head, 1, SLOW + u64::from(head));
    }
    expect_slow(&faults, 2);
    drop(front);
    let mut front = started(&program, 1);
    assert_eq!(faults.slow()[0], 0, "it did not wait");
    assert!(front.read_disk(0, 1, 512) == read_of(1, 512));
    // What had not begun was dropped.
    let mut wanted = image_of(LEN);
    for sector in [SLOW, SLOW + 3] {
        wanted[512 * sector as usize..][..512].fill(6);
    }
    assert!(fs::read(&program.image).unwrap() == wanted);
    assert!(program.end(libc::SIGTERM).success());
}

// A read into memory that goes away, and a write from it: the ring stays, or goes too and is looked at.
#[test]
fn memory_goes_away_under_a_request() {
    let Some((program, faults)) = slow("lost", millis(400), &[]) else {
        return;
    };
    for (kind, left) in [(0, 10 << 20), (1, 10 << 20), (1, 0)] {
        let mut front = started(&program, 1);
        front.read_disk(0, 1, 512);
        front.write(12 << 20, &[3; 4096]);
        front.put_long(0, kind, SLOW, &[(12 << 20, 4096)]);
        front.publish(0, 0);
        front.kick(0);
        expect_slow(&faults, 1);
        File::from(again(&front.ram)).set_len(left).unwrap();
        front.kick(0);
        assert!(front.is_let_go());
        program.expect_said("the connection ended: guest memory disappeared");
        if left > 0 {
            assert_eq!(front.used_idx(0), 1);
        }
        wait_for("the disk is busy", || faults.slow()[0] == 0);
        // No zeros that took the place of its memory.
        assert!(fs::read(&program.image).unwrap() == image_of(LEN), "{kind} {left}");
    }
    assert!(started(&program, 1).read_disk(0, SLOW, 512) == read_of(SLOW, 512));
    assert!(program.end(libc::SIGTERM).success());
}

// ---- ways to the disk

// Has the system refuse to make rings, as a container does.
fn refuse_rings(command: &mut Command) {
    let step = |code: u32, jt, jf, k| libc::sock_filter {
        code: code as u16,
        jt,
        jf,
        k,
    };
    let refused = libc::SECCOMP_RET_ERRNO | libc::EPERM as u32;
    let filter = [
        // The number of the call comes first.
        step(libc::BPF_LD | libc::BPF_W | libc::BPF_ABS, 0, 0, 0),
        step(
            libc::BPF_JMP | libc::BPF_JEQ | libc::BPF_K,
            0,
            1,
            libc::SYS_io_uring_setup as u32,
        ),
        step(libc::BPF_RET | libc::BPF_K, 0, 0, refused),
        step(libc::BPF_RET | libc::BPF_K, 0, 0, libc::SECCOMP_RET_ALLOW),
    ];
    let set = move || {
        let program = libc::sock_fprog {
            len: filter.len() as u16,
            filter: filter.as_ptr().cast_mut(),
        };
        // SAFETY: these are calls of the system alone, which read the filter.
        let done = unsafe {
            libc::prctl(libc::PR_SET_NO_NEW_PRIVS, 1, 0, 0, 0) == 0
                && libc::prctl(libc::PR_SET_SECCOMP, libc::SECCOMP_MODE_FILTER, &program) == 0
        };
        done.then_some(()).ok_or_else(std::io::Error::last_os_error)
    };
    // SAFETY: what is done between fork and exec are two calls of the system, and no allocation.
    unsafe { command.pre_exec(set) };
}

#[test]
fn threads_do_what_the_kernel_refuses() {
    let folder = Program::prepare("refused_rings", LEN);
    let mut command = command(&folder, &[]);
    refuse_rings(&mut command);
    let program = Program::spawn(&folder, command);
    let why = "threads, since io_uring is not to be had: Operation not permitted (os error 1)\n";
    program.expect_said(&format!("the image is read and written by {why}"));
    let mut front = started(&program, 1);
    front.write_disk(0, 5, &[8; 1024]);
    assert_eq!(front.read_disk(0, 5, 1024), [8; 1024]);
    assert_eq!(front.request(0, 4, 0, 0), (0, 1));
    assert!(program.end(libc::SIGTERM).success());
    // It was asked for.
    let mut command = self::command(&folder, &["--aio", "io_uring"]);
    refuse_rings(&mut command);
    let output = command.stdout(Stdio::null()).output().unwrap();
    assert_eq!(output.status.code(), Some(1));
    let text = String::from_utf8(output.stderr).unwrap();
    assert!(text.contains("--aio io_uring: Operation not permitted"), "{text}");
}

#[test]
fn the_way_is_said_once() {
    for (name, words, said) in [
        ("way_threads", THREADS, "the image is read and written by threads\n"),
        ("way_none", &["--aio=none"], ""),
    ] {
        let program = Program::start(name, LEN, words);
        for _ in 0..2 {
            started(&program, 1).read_disk(0, 1, 512);
        }
        program.expect_said("the connection ended");
        assert_eq!(program.has_said("the image is read"), !said.is_empty());
        program.expect_said(said);
    }
}

// ---- all at once

// Whether it has all been moved right, also if calls move less than they are asked to.
#[test]
fn each_byte_is_where_it_belongs() {
    for (name, words, has_faults) in [
        ("load", &["--queues=4"][..], false),
        ("load_shallow", &["--queues=4", "--depth=2"], false),
        ("load_threads", &["--queues=4", "--aio=threads"], false),
        ("load_faults", &["--queues=4", "--aio=threads"], true),
        ("load_refused", &["--queues=4"], true),
    ] {
        let folder = Program::prepare(name, LEN);
        let faults = has_faults.then(|| Faults::new(&folder, u64::MAX)).flatten();
        let mut command = command(&folder, words);
        if let Some(faults) = &faults {
            faults.precede(&mut command);
        }
        let program = Program::spawn(&folder, command);
        let mut load = Load::new(&program, 4, 5);
        load.go(300);
        assert_eq!(load.front.request(0, 4, 0, 0), (0, 1));
        assert!(fs::read(&program.image).unwrap() == load.disk, "{name}");
        let submits = faults.as_ref().map_or(u64::MAX, Faults::submits);
        assert!(submits > 50 || !program.has_said("by io_uring"), "{name}: {submits}");
        drop(load);
        assert!(program.end(libc::SIGTERM).success());
    }
}
