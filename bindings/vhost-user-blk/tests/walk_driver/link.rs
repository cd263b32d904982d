//! The program, and messages of a front end that cuts them as it likes.

use super::memory::Region;
use super::{patience, Numbers};
use crate::front_end::{eventfd, message, send, set_waiting, table, Faults, Link, Program};
use crate::front_end::{GET_FEATURES, NEED_REPLY, NO_DESCRIPTOR, SET_MEM_TABLE};
use std::os::fd::{AsRawFd, OwnedFd, RawFd};
use std::path::Path;
use std::process::Command;
use std::thread;

/// Starts the program, which serves one request after another, as the model does. `WALKS_PROGRAM` names another one, as
/// one with a bug that the walks have to find.
pub fn start(folder: &Path, options: &[&str], faults: Option<&Faults>) -> Program {
    let program = std::env::var_os("WALKS_PROGRAM").unwrap_or(env!("CARGO_BIN_EXE_vhost-user-blk").into());
    let options = &[options, &["--aio", "none"]].concat();
    let mut command = Program::command(Command::new(program), folder, options);
    if let Some(faults) = faults {
        faults.precede(&mut command);
    }
    Program::spawn(folder, command)
}

pub fn connect(program: &Program) -> Link {
    let link = Link::new(program.socket());
    link.socket.set_read_timeout(Some(patience())).unwrap();
    link
}

/// A counter whose reads and writes wait, or do not.
pub fn counter(numbers: &mut Numbers) -> OwnedFd {
    let counter = eventfd();
    set_waiting(&counter, numbers.one_in(2));
    counter
}

impl Link {
    // Sends a message as a whole, or in two parts of which the first one has the descriptors.
    fn tell(&self, numbers: &mut Numbers, bytes: &[u8], descriptors: &[RawFd]) {
        let first = match numbers.below(8) {
            // Descriptors come with their whole message: the other end may not keep a socket for later.
            0 if bytes.len() > 12 && descriptors.is_empty() => 1 + numbers.below(bytes.len() as u64 - 1) as usize,
            _ => bytes.len(),
        };
        assert!(send(&self.socket, &bytes[..first], descriptors));
        if first < bytes.len() {
            thread::yield_now();
            assert!(send(&self.socket, &bytes[first..], &[]));
        }
    }

    /// Sends a request that has a reply of its own, and returns that.
    pub fn inquire(&mut self, numbers: &mut Numbers, request: u32, payload: &[u8], descriptors: &[RawFd]) -> Vec<u8> {
        self.tell(numbers, &message(request, 0, payload), descriptors);
        self.reply(request)
    }

    pub fn inquire_u64(&mut self, numbers: &mut Numbers, request: u32) -> u64 {
        let reply = self.inquire(numbers, request, &[], &[]);
        u64::from_le_bytes(reply.try_into().unwrap())
    }

    /// Sends a request that has to be done.
    pub fn order(&mut self, numbers: &mut Numbers, request: u32, payload: &[u8], descriptors: &[RawFd]) {
        self.tell(numbers, &message(request, NEED_REPLY, payload), descriptors);
        assert_eq!(self.reply(request), [0; 8], "message {request} is not done");
    }

    /// Whether the other end did all that it had to do before this.
    pub fn catch_up(&mut self, numbers: &mut Numbers) {
        self.inquire_u64(numbers, GET_FEATURES);
    }

    /// Sends a table of memory, with its regions in any order.
    pub fn set_memory(&mut self, numbers: &mut Numbers, regions: &[&Region]) {
        let mut regions = regions.to_vec();
        numbers.mix(&mut regions);
        let rows: Vec<_> = regions
            .iter()
            .map(|it| [it.guest, it.len, it.user, it.offset])
            .collect();
        let descriptors: Vec<RawFd> = regions.iter().map(|it| it.descriptor()).collect();
        self.order(numbers, SET_MEM_TABLE, &table(&rows), &descriptors);
    }

    /// Sends a ring's notifier.
    pub fn set_notifier(&mut self, numbers: &mut Numbers, request: u32, ring: usize, counter: Option<&OwnedFd>) {
        let value = ring as u64 | if counter.is_none() { NO_DESCRIPTOR } else { 0 };
        let descriptors: Vec<RawFd> = counter.iter().map(|it| it.as_raw_fd()).collect();
        self.order(numbers, request, &value.to_le_bytes(), &descriptors);
    }
}
