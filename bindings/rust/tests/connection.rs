//! A connection over a socket, without memory or rings: those are tried by the program vhost-user-blk.

use std::io::{self, Read, Write};
use std::os::fd::{AsRawFd, BorrowedFd};
use std::os::unix::net::UnixStream;
use vm_memory_proved::back_end::Part;
use vm_memory_proved::block_device::BlockDevice;
use vm_memory_proved::connection::{Connection, Device, Ended, Event};
use vm_memory_proved::vhost_user::Refusal;
use vm_memory_proved::{Pieces, Watchdog};

// It serves nothing, and says what it is to watch.
#[derive(Default)]
struct Idle(Vec<(i32, Event)>);

impl Device for Idle {
    fn serve(&mut self, _part: &Part<'_>, _pieces: Pieces<'_>) -> io::Result<()> {
        Err(io::ErrorKind::Unsupported.into())
    }

    fn watch(&mut self, descriptor: BorrowedFd<'_>, event: Event) -> io::Result<()> {
        self.0.push((descriptor.as_raw_fd(), event));
        Ok(())
    }

    fn unwatch(&mut self, descriptor: BorrowedFd<'_>) {
        self.0.retain(|it| it.0 != descriptor.as_raw_fd());
    }
}

const DISK: BlockDevice = BlockDevice {
    sectors: 0x1122_3344,
    queues: 3,
    read_only: false,
    write_through: false,
    iotlb_limit: None,
};

// What it offers.
const ALL: u64 = 0x5_7400_1246;

// A message of the version 1.
fn message(request: u32, payload: &[u8]) -> Vec<u8> {
    let head = [request, 1, payload.len() as u32].map(u32::to_le_bytes).concat();
    [&head, payload].concat()
}

// Has a front end say something, and returns how the connection ended, or its reply of some bytes.
fn said(disk: &BlockDevice, parts: &[&[u8]], reply: usize) -> Result<Vec<u8>, String> {
    let (mine, mut front) = UnixStream::pair().unwrap();
    let (mut device, watchdog) = (Idle::default(), Watchdog::start().unwrap());
    let number = mine.as_raw_fd();
    let made = Connection::new(mine, disk.open().unwrap(), disk.queues, &watchdog, &mut device);
    let mut connection = made.unwrap();
    assert_eq!(device.0, [(number, Event::Socket)]);
    assert_eq!(connection.time_to_wait(), None);
    for part in parts {
        front.write_all(part).unwrap();
        let taken = connection.take(Event::Socket, &mut device);
        taken
            .and_then(|()| connection.run(&mut device))
            .map_err(|it| it.to_string())?;
    }
    front.set_nonblocking(true).unwrap();
    let mut bytes = vec![0; reply];
    front.read_exact(&mut bytes).map_err(|it| it.to_string())?;
    Ok(bytes)
}

fn number(reply: Result<Vec<u8>, String>) -> u64 {
    u64::from_le_bytes(reply.unwrap()[12..].try_into().unwrap())
}

#[test]
fn each_byte_of_a_message_may_come_alone() {
    let asked = message(1, &[]);
    for cut in 1..12 {
        assert_eq!(number(said(&DISK, &[&asked[..cut], &asked[cut..]], 20)), ALL);
    }
    // Nothing is replied before.
    assert!(said(&DISK, &[&asked[..11]], 1).is_err());
}

#[test]
fn a_disk_offers_what_it_has() {
    let of = |disk: &BlockDevice| number(said(disk, &[&message(1, &[])], 20));
    assert_eq!(of(&DISK), ALL);
    assert_eq!(of(&BlockDevice { queues: 1, ..DISK }), ALL & !(1 << 12));
    let read_only = true;
    assert_eq!(of(&BlockDevice { read_only, ..DISK }), ALL | 1 << 5);
    let write_through = true;
    assert_eq!(of(&BlockDevice { write_through, ..DISK }), ALL & !(1 << 9));
}

#[test]
fn an_end_says_why() {
    let refused = said(&DISK, &[&message(99, &[])], 1);
    assert_eq!(
        refused,
        Err(format!("message 99 breaks the protocol: {}", Refusal::Request))
    );
    for (ended, text) in [
        (Ended::Gone, "the front end closed it"),
        (Ended::HungUp, "the program was asked to stop"),
        (Ended::failed("the log")("it is short"), "the log: it is short"),
        (Ended::MemoryLost, "guest memory disappeared"),
    ] {
        assert_eq!(ended.to_string(), text);
    }
    let (mine, front) = UnixStream::pair().unwrap();
    let (mut device, watchdog) = (Idle::default(), Watchdog::start().unwrap());
    let made = Connection::new(mine, DISK.open().unwrap(), 3, &watchdog, &mut device);
    drop(front);
    let ended = made.unwrap().take(Event::Socket, &mut device);
    assert!(matches!(ended, Err(Ended::Gone)));
}
