//! A disk whose image gets another size while it is served.

mod front_end;

use front_end::*;
use std::fs::{self, File};
use std::io::{ErrorKind, Read};
use std::os::unix::net::UnixStream;
use std::time::Duration;

const SECTOR: u64 = 512;
const LEN: usize = 64 * SECTOR as usize;
const CONFIG: u64 = 1 << 9;

fn resize(program: &Program, sectors: u64) {
    let image = File::options().write(true).open(&program.image).unwrap();
    image.set_len(sectors * SECTOR).unwrap();
    program.signal(libc::SIGHUP);
}

// The capacity that the configuration has.
fn capacity(front: &mut FrontEnd) -> u64 {
    let asked = [&[0, 8, 0].map(u32::to_le_bytes).concat()[..], &[0; 8]].concat();
    let config = front.ask(GET_CONFIG, &asked);
    u64::from_le_bytes(config[12..].try_into().unwrap())
}

// The status of a request of one sector.
fn status_of(front: &mut FrontEnd, kind: u32, sector: u64) -> u8 {
    front.request(0, kind, sector, SECTOR as u32).0
}

fn begin(program: &Program) -> FrontEnd {
    let mut front = program.connect();
    front.negotiate(USUAL);
    front.set_memory();
    front.start_ring(16, 0);
    front
}

fn give_channel(front: &mut FrontEnd) -> UnixStream {
    let (mine, other) = UnixStream::pair().unwrap();
    assert!(front.is_done(SET_BACKEND_REQ_FD, &[], &[&other.into()]));
    mine.set_read_timeout(Some(LONG)).unwrap();
    mine
}

// All that came on the channel until now.
fn left_on(mut channel: UnixStream) -> usize {
    channel.set_nonblocking(true).unwrap();
    match channel.read(&mut [0; 100]) {
        Err(error) if error.kind() == ErrorKind::WouldBlock => 0,
        count => count.unwrap(),
    }
}

#[test]
fn a_front_end_is_told_of_each_new_size() {
    let program = Program::start("grows", LEN, &[]);
    let mut front = begin(&program);
    let mut channel = give_channel(&mut front);
    assert_eq!(capacity(&mut front), 64);
    assert_eq!((status_of(&mut front, 0, 63), status_of(&mut front, 0, 64)), (0, 1));
    for sectors in [4096, 100, 70_000] {
        resize(&program, sectors);
        let mut message = [0; 12];
        channel.read_exact(&mut message).unwrap();
        // CONFIG_CHANGE_MSG, version 1, no payload and no reply.
        assert_eq!(message[..], [2, 1, 0].map(u32::to_le_bytes).concat());
        assert_eq!(capacity(&mut front), sectors);
        for kind in 0..2 {
            let ends = [sectors - 1, sectors].map(|sector| status_of(&mut front, kind, sector));
            assert_eq!(ends, [0, 1], "kind {kind} at the end of {sectors} sectors");
        }
    }
    // What was written at the new end is there.
    let (data, _) = front.places(0, 0);
    front.write(data, &[0x5a; SECTOR as usize]);
    assert_eq!(status_of(&mut front, 1, 69_999), 0);
    assert_eq!(
        fs::read(&program.image).unwrap()[69_999 * SECTOR as usize..],
        [0x5a; SECTOR as usize]
    );
    assert_eq!(left_on(channel), 0);
}

#[test]
fn the_same_size_is_not_told() {
    let program = Program::start("same", LEN, &[]);
    let mut front = begin(&program);
    let channel = give_channel(&mut front);
    // A part of a sector is none.
    let image = File::options().write(true).open(&program.image).unwrap();
    image.set_len(LEN as u64 + 511).unwrap();
    for _ in 0..3 {
        program.signal(libc::SIGHUP);
        std::thread::sleep(Duration::from_millis(20));
        assert_eq!(capacity(&mut front), 64);
    }
    program.rest();
    assert_eq!(left_on(channel), 0);
}

#[test]
fn a_new_size_counts_without_a_channel() {
    let program = Program::start("no_channel", LEN, &[]);
    let mut front = begin(&program);
    resize(&program, 80);
    program.expect_said("the image has 80 sectors now");
    assert_eq!((status_of(&mut front, 0, 79), status_of(&mut front, 0, 80)), (0, 1));
    // The front end does not want to read the configuration.
    let mut front = {
        drop(front);
        begin(&program)
    };
    let protocol = front.ask_u64(GET_PROTOCOL_FEATURES) & !CONFIG;
    assert!(front.is_done(SET_PROTOCOL_FEATURES, &protocol.to_le_bytes(), &[]));
    let channel = give_channel(&mut front);
    resize(&program, 90);
    program.expect_said("the image has 90 sectors now");
    assert_eq!(status_of(&mut front, 0, 89), 0);
    assert_eq!(left_on(channel), 0);
}

#[test]
fn a_new_size_between_connections_is_that_of_the_next_one() {
    let mut program = Program::start("between", LEN, &[]);
    drop(begin(&program));
    program.expect_said("the front end closed it");
    resize(&program, 128);
    program.expect_said("the image has 128 sectors now");
    assert_eq!(capacity(&mut begin(&program)), 128);
    // A front end that has closed its channel is served on.
    let mut front = begin(&program);
    drop(give_channel(&mut front));
    resize(&program, 130);
    program.expect_said("the image has 130 sectors now");
    assert_eq!((capacity(&mut front), status_of(&mut front, 0, 129)), (130, 0));
    assert!(program.lives());
}
