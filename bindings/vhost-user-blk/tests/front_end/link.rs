//! A connection's end of a front end.

use super::protocol::{message, NEED_REPLY};
use super::system::{receive, send};
use super::LONG;
use std::io::{ErrorKind, Read};
use std::os::fd::{AsRawFd, OwnedFd, RawFd};
use std::os::unix::net::UnixStream;

pub struct Link {
    pub socket: UnixStream,
}

impl Link {
    pub fn new(socket: UnixStream) -> Link {
        socket.set_read_timeout(Some(LONG)).unwrap();
        Link { socket }
    }

    pub fn send(&self, request: u32, flags: u32, payload: &[u8], descriptors: &[&OwnedFd]) {
        let descriptors: Vec<RawFd> = descriptors.iter().map(|it| it.as_raw_fd()).collect();
        assert!(send(&self.socket, &message(request, flags, payload), &descriptors));
    }

    /// The payload of the reply to a request.
    pub fn reply(&mut self, request: u32) -> Vec<u8> {
        let mut header = [0; 12];
        self.socket.read_exact(&mut header).expect("no reply comes");
        let number = |at: usize| u32::from_le_bytes(header[at..at + 4].try_into().unwrap());
        assert_eq!((number(0), number(4)), (request, 5));
        let mut payload = vec![0; number(8) as usize];
        self.socket.read_exact(&mut payload).unwrap();
        payload
    }

    /// The payload of the reply to a request, and the descriptor that comes with it.
    pub fn ask_for_file(&mut self, request: u32, payload: &[u8]) -> (Vec<u8>, Option<OwnedFd>) {
        self.send(request, 0, payload, &[]);
        let mut header = [0; 12];
        let file = receive(&self.socket, &mut header);
        let number = |at: usize| u32::from_le_bytes(header[at..at + 4].try_into().unwrap());
        assert_eq!((number(0), number(4)), (request, 5));
        let mut payload = vec![0; number(8) as usize];
        self.socket.read_exact(&mut payload).unwrap();
        (payload, file)
    }

    pub fn ask(&mut self, request: u32, payload: &[u8]) -> Vec<u8> {
        self.send(request, 0, payload, &[]);
        self.reply(request)
    }

    pub fn ask_u64(&mut self, request: u32) -> u64 {
        u64::from_le_bytes(self.ask(request, &[]).try_into().unwrap())
    }

    /// Sends a request, and returns whether it was done.
    pub fn is_done(&mut self, request: u32, payload: &[u8], descriptors: &[&OwnedFd]) -> bool {
        self.send(request, NEED_REPLY, payload, descriptors);
        self.reply(request) == 0_u64.to_le_bytes()
    }

    /// Whether the other end closes the connection. What it says before is read.
    pub fn is_let_go(&mut self) -> bool {
        let mut rest = [0; 512];
        loop {
            match self.socket.read(&mut rest) {
                Ok(0) => return true,
                Ok(_) => (),
                Err(error) => return error.kind() == ErrorKind::ConnectionReset,
            }
        }
    }
}
