//! What comes while writes are logged, between the marks of a request and its return.

mod front_end;

use front_end::log::*;
use front_end::*;

const LEN: usize = 1 << 20;
const BATCH: u16 = 20;

// A batch of reads that the program begins with.
fn publish(front: &mut FrontEnd) {
    for head in 0..BATCH {
        front.put_request(0, 3 * head, 0, u64::from(head), 512);
        front.publish(0, 3 * head);
    }
    front.kick(0);
}

fn take_all(front: &mut FrontEnd) {
    for _ in 0..BATCH {
        let (head, written) = front.take_used(0);
        assert_eq!(written, 513);
        assert_eq!(front.read(front.places(0, head as u16).1, 1), [0]);
    }
}

#[test]
fn messages_are_answered_while_requests_wait_for_their_marks() {
    let mut program = Program::start("logged_messages", LEN, &[]);
    let mut front = started(&program, USUAL);
    begin(&mut front, USUAL, LOG_LEN);
    for _ in 0..300 {
        publish(&mut front);
        for _ in 0..4 {
            assert_ne!(front.ask_u64(GET_FEATURES) & LOG_ALL, 0);
        }
        take_all(&mut front);
    }
    assert!(program.lives());
}

#[test]
fn a_ring_stops_while_its_requests_wait_for_their_marks() {
    let program = Program::start("logged_stops", LEN, &[]);
    let mut front = started(&program, USUAL);
    begin(&mut front, USUAL, LOG_LEN);
    for _ in 0..100 {
        publish(&mut front);
        let base = front.stop_ring(0) as u16;
        // What was popped was returned before the answer.
        assert_eq!(front.used_idx(0), base);
        front.restart_ring(0, base);
        take_all(&mut front);
    }
}
