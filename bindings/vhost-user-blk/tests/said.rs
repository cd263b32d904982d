//! What the program says: what was negotiated, what was served, and its last line.

mod front_end;

use front_end::log::{begin, taken, LOG_LEN};
use front_end::*;
use std::os::unix::net::UnixStream;
use std::time::Duration;

const LEN: usize = 4 << 20;

fn started(program: &Program) -> FrontEnd {
    let mut front = program.connect();
    front.negotiate(USUAL);
    front.set_memory();
    front.start_ring(64, 0);
    front
}

#[test]
fn what_was_served_is_said_again_and_again() {
    let program = Program::start("said_served", LEN, &["--stats", "1"]);
    let mut front = started(&program);
    program.expect_said(
        "features: FLUSH, INDIRECT_DESC, PROTOCOL_FEATURES, VERSION_1; \
         protocol features: MQ, LOG_SHMFD, REPLY_ACK, BACKEND_REQ, CONFIG, INFLIGHT_SHMFD\nring 0 is started\n",
    );
    // A request of two parts is one.
    front.put_long(0, 0, 3, &[(8 << 20, (1 << 20) + 512)]);
    front.publish(0, 0);
    front.kick(0);
    assert_eq!(front.take_used(0).1, (1 << 20) + 513);
    front.write_disk(0, 1, &[1; 1024]);
    for _ in 0..2 {
        assert_eq!(front.request(0, 4, 0, 0), (0, 1));
    }
    assert_eq!(front.request(0, 8, 0, 20), (0, 21));
    let said = "1 reads of 1049088 bytes, 1 writes of 1024 bytes, 2 flushes, 1 others; 2 syncs, 0 errors";
    program.expect_said(&format!("served 5 requests: {said}\n"));
    front.write_disk(0, 1, &[1; 1024]);
    let said = "1 reads of 1049088 bytes, 2 writes of 2048 bytes, 2 flushes, 1 others; 2 syncs, 0 errors";
    program.expect_said(&format!("served 6 requests: {said}\n"));
    assert!(!program.has_said("log: "));
}

#[test]
fn a_broken_ring_is_said() {
    let program = Program::start("said_broken", LEN, &[]);
    let mut front = started(&program);
    // A head past the ring.
    front.publish(0, 64);
    front.kick(0);
    program.expect_said("ring 0 failed, and waits to be started again\n");
}

// Another log has other pages: data and status, and the used ring.
#[test]
fn pages_of_a_log_are_said_at_the_end() {
    let program = Program::start("said_log", LEN, &["--stats", "86400"]);
    let mut front = started(&program);
    for _ in 0..2 {
        let log = begin(&mut front, USUAL, LOG_LEN);
        front.read_disk(0, 1, 512);
        assert_eq!(taken(&log).len(), 3);
    }
    drop(front);
    program.expect_said("log: 3 pages\n");
}

#[test]
fn the_last_line_is_said() {
    for _ in 0..5 {
        let mut program = Program::start("said_last", LEN, &["--stats", "86400"]);
        let mut front = started(&program);
        front.read_disk(0, 1, 512);
        program.signal(libc::SIGTERM);
        assert!(program.ended(LONG).expect("it ends").success());
        program.expect_said("served 1 requests: ");
        program.expect_said("the connection ended: the program was asked to stop\n");
    }
}

// The front end holds the open file of the channel, too, and writes there.
#[test]
fn a_channel_that_is_replaced_is_watched_no_more() {
    let program = Program::start("said_channel", LEN, &[]);
    let mut front = started(&program);
    let [first, second] = [(), ()].map(|()| UnixStream::pair().unwrap());
    let held = first.1.try_clone().unwrap();
    assert!(front.is_done(SET_BACKEND_REQ_FD, &[], &[&first.1.into()]));
    assert!(front.is_done(SET_BACKEND_REQ_FD, &[], &[&second.1.into()]));
    assert!(send(&first.0, &[0; 7], &[]));
    std::thread::sleep(Duration::from_millis(100));
    program.rest();
    front.read_disk(0, 1, 512);
    drop(held);
}

// A notification of the first ring waits. The second ring's driver is told nothing any more.
#[test]
fn after_a_notification_waited_there_is_none() {
    let program = Program::start("said_waited", LEN, &["--queues", "2"]);
    let mut front = started(&program);
    front.start_ring(64, 0);
    for ring in 0..2 {
        front.read_disk(ring, 1, 512);
    }
    program.rest();
    take(&front.rings[1].call);
    fill(&front.rings[0].call);
    set_waiting(&front.rings[0].call, true);
    program.signal(libc::SIGSTOP);
    for ring in 0..2 {
        front.put_request(ring, 0, 0, 1, 512);
        front.publish(ring, 0);
        front.kick(ring);
    }
    program.signal(libc::SIGCONT);
    assert!(front.is_let_go());
    assert_eq!(take(&front.rings[1].call), 0);
}
