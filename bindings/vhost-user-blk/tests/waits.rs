//! Front ends that would have the program wait for them: by descriptors whose flags they change after they sent them,
//! and by descriptors of other kinds, which keep a connection from ending.

mod front_end;

use front_end::*;
use std::fs::{self, File};
use std::hint::spin_loop;
use std::io::Write;
use std::os::fd::{AsRawFd, OwnedFd};
use std::os::unix::net::UnixStream;
use std::path::PathBuf;
use std::sync::atomic::{fence, Ordering::SeqCst};
use std::thread::sleep;
use std::time::{Duration, Instant};

const LEN: usize = 1 << 20;

// What is prompt on a machine that has other work.
const PROMPT: Duration = Duration::from_secs(30);

fn started(program: &Program, features: u64) -> FrontEnd {
    let mut front = program.connect();
    front.socket.set_read_timeout(Some(PROMPT)).unwrap();
    front.negotiate(features);
    front.set_memory();
    front.start_ring(64, 0);
    front
}

// The program serves the next front end, and ends when it is asked to.
fn expect_well(mut program: Program) {
    let mut front = started(&program, USUAL);
    assert_eq!(front.read_disk(0, 2, 512), image_of(LEN)[2 * 512..3 * 512]);
    program.signal(libc::SIGTERM);
    assert!(program.ended(PROMPT).expect("it ends").success());
}

fn publish(front: &mut FrontEnd, head: u16) {
    front.put_request(0, 0, 0, 1, 512);
    front.publish(0, head);
    front.kick(0);
}

// A driver that publishes as soon as a request comes back, and notifies only if it is asked to: what it publishes while
// the program is about to wait is not lost.
#[test]
fn the_program_looks_again_before_it_waits() {
    let program = Program::start("second_look", LEN, &[]);
    for features in [USUAL, USUAL | EVENT_IDX] {
        let mut front = started(&program, features);
        let (flags, begun) = (front.used_ring(0) as usize, Instant::now());
        front.put_request(0, 0, 0, 1, 512);
        for index in 0..20_000_u16 {
            front.publish(0, 0);
            fence(SeqCst);
            let is_asked = match features & EVENT_IDX {
                0 => front.word(flags).load(SeqCst) & 1 == 0,
                _ => front.avail_event(0) == index,
            };
            if is_asked {
                front.kick(0);
            }
            let published = Instant::now();
            while front.used_idx(0) == index {
                assert!(published.elapsed() < LONG, "request {index} is lost");
                spin_loop();
            }
            if begun.elapsed() > Duration::from_secs(3) {
                break;
            }
        }
    }
}

// A kick that has nothing to read, and whose reads wait.
#[test]
fn an_empty_kick_is_not_waited_for() {
    let program = Program::start("empty_kick", LEN, &[]);
    let mut front = started(&program, USUAL);
    front.read_disk(0, 1, 512);
    program.rest();
    take(&front.rings[0].kick);
    set_waiting(&front.rings[0].kick, true);
    assert_eq!(front.stop_ring(0), 1);
    // The same of a pipe, and the ring is let go of as the connection ends.
    for is_stopped in [true, false] {
        front.restart_ring(0, 1);
        let [read, _write] = pipe();
        assert!(front.is_done(SET_VRING_KICK, &0_u64.to_le_bytes(), &[&read]));
        program.rest();
        set_waiting(&read, true);
        if is_stopped {
            assert_eq!(front.stop_ring(0), 1);
        }
        set_waiting(&front.rings[0].kick, false);
    }
    drop(front);
    expect_well(program);
}

// What a ring leaves in its kick goes to nobody else.
#[test]
fn a_kick_is_taken_as_a_ring_stops() {
    let program = Program::start("taken_kick", LEN, &[]);
    let mut front = started(&program, USUAL);
    let counter = again(&front.rings[0].kick);
    front.read_disk(0, 1, 512);
    assert_eq!(front.stop_ring(0), 1);
    assert!(!can_read(&counter, Duration::ZERO));
    front.restart_ring(0, 1);
    let [read, write] = pipe();
    assert!(front.is_done(SET_VRING_KICK, &0_u64.to_le_bytes(), &[&read]));
    front.rings[0].kick = again(&write);
    front.read_disk(0, 1, 512);
    assert_eq!(front.stop_ring(0), 2);
    assert!(!can_read(&read, Duration::ZERO));
}

// The same if it came with the message that stops the ring: the program finds both when it looks.
#[test]
fn a_kick_that_comes_with_the_stop_is_taken() {
    let program = Program::start("late_kick", LEN, &[]);
    let mut front = started(&program, USUAL);
    let (counter, [read, write]) = (again(&front.rings[0].kick), pipe());
    for (base, kick, other) in [(1, &counter, &counter), (2, &read, &write)] {
        assert!(front.is_done(SET_VRING_KICK, &0_u64.to_le_bytes(), &[kick]));
        front.rings[0].kick = again(other);
        front.read_disk(0, 1, 512);
        program.rest();
        program.signal(libc::SIGSTOP);
        front.send(GET_VRING_BASE, 0, &two(0, 0), &[]);
        front.kick(0);
        program.signal(libc::SIGCONT);
        assert_eq!(front.reply(GET_VRING_BASE), two(0, base));
        assert!(!can_read(kick, Duration::ZERO), "base {base}");
        front.rings[0].kick = eventfd();
        front.restart_ring(0, base as u16);
    }
}

// A pipe has room for 8,192 notifications. Some come together.
#[test]
fn a_pipe_notifies_again_and_again() {
    let program = Program::start("pipe_kick", LEN, &[]);
    let mut front = started(&program, USUAL);
    let [read, write] = pipe();
    assert!(front.is_done(SET_VRING_KICK, &0_u64.to_le_bytes(), &[&read]));
    set_waiting(&write, false);
    front.rings[0].kick = write;
    for round in 0..10_000 {
        if round % 2 == 0 {
            File::from(again(&front.rings[0].kick)).write_all(&[0; 32]).unwrap();
        }
        front.read_disk(0, 1, 512);
    }
    drop(front);
    expect_well(program);
}

fn full_pipe(write: &OwnedFd) {
    set_waiting(write, false);
    let mut file = File::from(again(write));
    while file.write(&[0; 8]).is_ok() {}
    set_waiting(write, true);
}

// How often threads of a program began to wait.
fn waits_of(program: &Program) -> u64 {
    let tasks = fs::read_dir(format!("/proc/{}/task", program.pid())).unwrap();
    let waits = |path: PathBuf| {
        let text = fs::read_to_string(path.join("status")).unwrap();
        let line = text.lines().find_map(|it| it.strip_prefix("voluntary_ctxt_switches:"));
        line.unwrap().trim().parse::<u64>().unwrap()
    };
    tasks.map(|task| waits(task.unwrap().path())).sum()
}

// Waits until all threads of a program sleep, also the one that looks at writes.
fn wait_for_sleep(program: &Program) {
    let begun = Instant::now();
    loop {
        let before = waits_of(program);
        sleep(Duration::from_millis(300));
        if waits_of(program) < before + 3 {
            return;
        }
        assert!(begun.elapsed() < PROMPT, "it does not sleep");
    }
}

#[test]
fn a_program_with_nothing_to_do_sleeps() {
    let program = Program::start("asleep", LEN, &[]);
    let mut front = started(&program, USUAL);
    front.read_disk(0, 1, 512);
    wait_for_sleep(&program);
}

// Shares a log, and a counter that is told of new bits.
fn share_log(front: &mut FrontEnd, counter: &OwnedFd) {
    let log = memfd(RAM / 4096 / 8);
    let size = [RAM as u64 / 4096 / 8, 0].map(u64::to_le_bytes).concat();
    front.send(SET_LOG_BASE, 0, &size, &[&log]);
    assert!(front.reply(SET_LOG_BASE).is_empty());
    assert!(front.is_done(SET_LOG_FD, &[], &[counter]));
    assert!(front.is_done(SET_FEATURES, &(USUAL | LOG_ALL).to_le_bytes(), &[]));
}

#[test]
fn a_full_descriptor_ends_its_connection_alone() {
    for name in ["call", "call pipe", "err", "log"] {
        let program = Program::start(&format!("full_{}", name.replace(' ', "_")), LEN, &[]);
        let mut front = started(&program, USUAL);
        front.read_disk(0, 1, 512);
        let [_read, write] = pipe();
        let counter = eventfd();
        match name {
            "call pipe" => assert!(front.is_done(SET_VRING_CALL, &0_u64.to_le_bytes(), &[&write])),
            "log" => share_log(&mut front, &counter),
            _ => (),
        }
        program.rest();
        if name == "call" {
            wait_for_sleep(&program);
        }
        let waits = match name {
            "call" => &front.rings[0].call,
            "err" => &front.rings[0].err,
            _ => &counter,
        };
        fill(waits);
        set_waiting(waits, true);
        full_pipe(&write);
        let begun = Instant::now();
        // A head past the ring is an error of the driver.
        publish(&mut front, if name == "err" { 64 } else { 0 });
        assert!(front.is_let_go(), "{name}");
        assert!(begun.elapsed() < PROMPT, "{name}");
        program.expect_said("the connection ended: a full descriptor of the front end made the program wait");
        drop(front);
        expect_well(program);
    }
}

// A counter that is full, and does not wait, was notified.
#[test]
fn a_full_counter_was_notified() {
    let program = Program::start("full_counter", LEN, &[]);
    let mut front = started(&program, USUAL);
    for done in 1..=100 {
        fill(&front.rings[0].call);
        publish(&mut front, 0);
        let begun = Instant::now();
        while front.used_idx(0) != done {
            assert!(begun.elapsed() < PROMPT, "no request comes back");
        }
    }
    drop(front);
    expect_well(program);
}

// Requests with a descriptor, what the descriptor is, and what the program says of it.
#[test]
fn descriptors_of_other_kinds_are_refused() {
    let program = Program::start("kinds", LEN, &[]);
    let file: OwnedFd = File::open(&program.image).unwrap().into();
    let null: OwnedFd = File::options().read(true).write(true).open("/dev/null").unwrap().into();
    let socket: OwnedFd = UnixStream::pair().unwrap().0.into();
    // SAFETY: it takes a number.
    let epoll = unsafe { libc::epoll_create1(libc::EPOLL_CLOEXEC) };
    // SAFETY: the system has just opened it.
    let epoll = unsafe { <OwnedFd as std::os::fd::FromRawFd>::from_raw_fd(epoll) };
    for (request, named) in [
        (SET_VRING_KICK, "the descriptor of kicks"),
        (SET_VRING_CALL, "the descriptor of calls"),
        (SET_VRING_ERR, "the descriptor of errors"),
        (SET_LOG_FD, "the descriptor of the log"),
    ] {
        for (descriptor, kind) in [
            (&file, "a file or a device"),
            (&null, "a file or a device"),
            (&socket, "a socket"),
            (&epoll, "of an unknown kind"),
        ] {
            let mut front = started(&program, USUAL);
            let payload: &[u8] = if request == SET_LOG_FD { &[] } else { &[0; 8] };
            assert!(!front.is_done(request, payload, &[descriptor]), "{named} {kind}");
            assert!(front.is_let_go(), "{named} {kind}");
            program.expect_said(&format!(
                "the connection ended: {named}: it is {kind}, and has to be an eventfd or a pipe"
            ));
        }
    }
    // The channel is a socket, and memory and the log are files.
    let counter = eventfd();
    let table = FrontEnd::table(&[(0, 4096, 0)]);
    let log = [4096, 0].map(u64::to_le_bytes).concat();
    for (request, payload, named, descriptor) in [
        (
            SET_BACKEND_REQ_FD,
            &[][..],
            "the back end's channel: it is an eventfd, and has to be a socket",
            &counter,
        ),
        (
            SET_MEM_TABLE,
            &table,
            "the table of memory: it is a socket, and has to be a file or a device",
            &socket,
        ),
        (
            SET_LOG_BASE,
            &log,
            "the log: it is of an unknown kind, and has to be a file or a device",
            &epoll,
        ),
    ] {
        let mut front = started(&program, USUAL);
        front.send(request, 0, payload, &[descriptor]);
        assert!(front.is_let_go(), "{named}");
        program.expect_said(&format!("the connection ended: {named}"));
    }
    expect_well(program);
}

// A front end that has the program hold its own end of the connection, and goes: the hang-up comes when the last one
// who holds the end lets go of it.
#[test]
fn a_front_end_that_sends_its_own_end_can_go() {
    let program = Program::start("own_end", LEN, &[]);
    for request in [SET_VRING_ERR, SET_VRING_CALL, SET_VRING_KICK, SET_BACKEND_REQ_FD] {
        let front = started(&program, USUAL);
        let own = OwnedFd::from(front.socket.try_clone().unwrap());
        let payload: &[u8] = if request == SET_BACKEND_REQ_FD { &[] } else { &[0; 8] };
        front.send(request, 0, payload, &[&own]);
        drop((front, own));
        started(&program, USUAL).read_disk(0, 1, 512);
    }
    expect_well(program);
}

// The same with a message that never comes as a whole, and with an end that lies in another socket.
#[test]
fn no_socket_is_held_for_the_rest_of_a_message() {
    let program = Program::start("held_end", LEN, &[]);
    for len in [1, 4, 11, 12, 19] {
        for is_inside in [false, true] {
            let front = started(&program, USUAL);
            let (mine, other) = UnixStream::pair().unwrap();
            let held = if is_inside { &other } else { &front.socket };
            if is_inside {
                assert!(send(&mine, &[0], &[front.socket.as_raw_fd()]));
            }
            let whole = message(SET_VRING_ERR, 0, &[0; 8]);
            assert!(send(&front.socket, &whole[..len], &[held.as_raw_fd()]));
            drop((front, mine, other));
            started(&program, USUAL).read_disk(0, 1, 512);
        }
    }
    expect_well(program);
}

// An end that came on the back end's channel is not kept.
#[test]
fn no_socket_is_held_for_the_channel() {
    let program = Program::start("channel_end", LEN, &[]);
    let mut front = started(&program, USUAL);
    let (mine, other) = UnixStream::pair().unwrap();
    assert!(front.is_done(SET_BACKEND_REQ_FD, &[], &[&other.into()]));
    assert!(send(&mine, &[0; 5], &[front.socket.as_raw_fd()]));
    drop((front, mine));
    expect_well(program);
}

// Five descriptors come with each of two bytes, or nine with a table of eight regions: the last one would be lost.
#[test]
fn no_message_has_more_than_eight_descriptors() {
    let program = Program::start("many_descriptors", LEN, &[]);
    let mut front = started(&program, USUAL);
    let files: Vec<_> = (0..9).map(|_| memfd(4096)).collect();
    let files: Vec<_> = files.iter().collect();
    let regions: Vec<_> = (0..8).map(|at| (4096 * at, 4096, 0)).collect();
    let table = FrontEnd::table(&regions);
    assert!(front.is_done(SET_MEM_TABLE, &table, &files[..8]));
    front.send(SET_MEM_TABLE, 0, &table, &files);
    assert!(front.is_let_go());
    let mut front = started(&program, USUAL);
    let five = [front.rings[0].kick.as_raw_fd(); 5];
    for byte in &message(SET_VRING_ERR, 0, &[0; 8])[..2] {
        assert!(send(&front.socket, &[*byte], &five));
    }
    assert!(front.is_let_go());
    expect_well(program);
}

// The rest of a message never comes, and what came may hold the front end's own end.
#[test]
fn what_may_hold_others_is_not_held() {
    let program = Program::start("held_others", LEN, &[]);
    let mut front = started(&program, USUAL);
    // SAFETY: it takes a number.
    let epoll = unsafe { libc::epoll_create1(libc::EPOLL_CLOEXEC) };
    // SAFETY: the system has just opened it.
    let epoll = unsafe { <OwnedFd as std::os::fd::FromRawFd>::from_raw_fd(epoll) };
    assert!(send(
        &front.socket,
        &message(SET_VRING_ERR, 0, &[0; 8])[..4],
        &[epoll.as_raw_fd()]
    ));
    assert!(front.is_let_go());
    expect_well(program);
}

#[test]
fn a_pipe_with_a_path_notifies() {
    let program = Program::start("named_pipe", LEN, &[]);
    let mut front = started(&program, USUAL);
    let path = program.folder.join("pipe");
    let name = std::ffi::CString::new(path.to_str().unwrap()).unwrap();
    // SAFETY: the name is a text that ends with 0.
    assert_eq!(unsafe { libc::mkfifo(name.as_ptr(), 0o600) }, 0);
    let pipe: OwnedFd = File::options().read(true).write(true).open(path).unwrap().into();
    assert!(front.is_done(SET_VRING_KICK, &0_u64.to_le_bytes(), &[&pipe]));
    front.rings[0].kick = pipe;
    for _ in 0..3 {
        front.read_disk(0, 1, 512);
    }
    drop(front);
    expect_well(program);
}

// A front end that asks again and again, and reads no reply.
#[test]
fn replies_that_nobody_reads_end_the_connection() {
    let program = Program::start("unread_replies", LEN, &[]);
    let (front, asked) = (started(&program, USUAL), message(GET_FEATURES, 0, &[]));
    let count = (0..)
        .take_while(|_| send(&front.socket, &asked, &[]))
        .take(1 << 20)
        .count();
    assert!(count < 1 << 20);
    program.expect_said("the connection ended: replying: ");
    expect_well(program);
}
