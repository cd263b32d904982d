//! The I/O addresses of a guest: what they lead to, and the channel on which the device asks for that.

use super::memory::Memory;
use super::stream::Stream;
use super::{Numbers, PAGE};
use crate::front_end::{acknowledged, iotlb, send, Link, IOTLB_MSG};
use std::collections::{BTreeMap, BTreeSet, VecDeque};
use std::io::{ErrorKind, Read};
use std::os::unix::net::UnixStream;
use std::thread;

pub use crate::front_end::{READ, WRITE};

const MISS: u8 = 1;
const UPDATE: u8 = 2;
const INVALIDATE: u8 = 3;

/// A MISS that has no reply yet.
#[derive(Clone, Copy, Debug)]
pub struct Asked {
    iova: u64,
    access: u8,
    /// The ring that needs the address.
    pub ring: usize,
}

pub struct Iommu {
    pub channel: UnixStream,
    /// Where each page of I/O addresses leads, and for which access.
    pub pages: BTreeMap<u64, (u64, u8)>,
    // What came of a message.
    part: Vec<u8>,
    // The pages of I/O addresses that the device's table has, if it has room for all.
    known: BTreeSet<u64>,
    // MISSes that have no reply yet, at most one of each ring.
    asked: VecDeque<Asked>,
    // How many of these have their mapping already, or it is held.
    updated: usize,
    // Without memory nothing can be mapped, and what is asked for is answered later.
    has_memory: bool,
    /// They get none for now.
    pub holds: bool,
    pub misses: u64,
}

impl Iommu {
    pub fn new(channel: UnixStream) -> Iommu {
        channel.set_nonblocking(true).unwrap();
        Iommu {
            channel,
            pages: BTreeMap::new(),
            part: Vec::new(),
            known: BTreeSet::new(),
            asked: VecDeque::new(),
            updated: 0,
            has_memory: false,
            holds: false,
            misses: 0,
        }
    }

    /// A new connection has another channel, and nothing was asked on it.
    pub fn renew(&mut self, channel: UnixStream) {
        channel.set_nonblocking(true).unwrap();
        self.channel = channel;
        self.part.clear();
        self.asked.clear();
        self.holds = false;
        self.set_memory(false);
    }

    /// The MISS whose mapping or refusal is held back.
    pub fn held(&self) -> Option<Asked> {
        self.asked.front().filter(|_| self.holds).copied()
    }

    /// Whether a MISS of a ring has no reply: the ring cannot ask for another address.
    pub fn has_asked(&self, ring: usize) -> bool {
        self.asked.iter().any(|it| it.ring == ring)
    }

    /// Whether the device's table lacks a page of a stream.
    pub fn lacks(&self, stream: &Stream) -> bool {
        let pieces = stream.pieces.iter().filter(|it| it.1 > 0);
        let mut pages = pieces.flat_map(|&(from, len)| from / PAGE..=(from + u64::from(len) - 1) / PAGE);
        pages.any(|page| !self.known.contains(&(page * PAGE)))
    }

    /// The device's table has nothing.
    pub fn forget(&mut self) {
        self.known.clear();
    }

    /// Memory was announced, or there is none.
    pub fn set_memory(&mut self, has_memory: bool) {
        self.has_memory = has_memory;
        self.updated = 0;
        self.forget();
    }

    /// What is asked for and has no reply, and how many MISSes there were.
    pub fn state(&self) -> (bool, &VecDeque<Asked>, u64) {
        (self.holds, &self.asked, self.misses)
    }

    /// Takes back mappings of some addresses.
    pub fn invalidate(&mut self, link: &mut Link, numbers: &mut Numbers, iova: u64, len: u64) {
        let payload = iotlb(iova, len, 0, 0, INVALIDATE);
        link.order(numbers, IOTLB_MSG, &payload, &[]);
        // Not `iova + len`, which may be 2^64.
        self.known.retain(|&it| it < iova || it - iova >= len);
    }

    /// Takes back all of them, as QEMU does it.
    pub fn invalidate_all(&mut self, link: &mut Link, numbers: &mut Numbers) {
        self.invalidate(link, numbers, 0, 0xfee0_0000);
        self.invalidate(link, numbers, 0xfef0_0000, 0xffff_ffff_0110_0000);
    }

    /// Takes what the device asked for. Each address is one ring's.
    pub fn take_misses(&mut self, ring_of: impl Fn(u64) -> Option<usize>) {
        let mut bytes = [0; 512];
        loop {
            match self.channel.read(&mut bytes) {
                Ok(0) => return,
                Ok(count) => self.part.extend(&bytes[..count]),
                Err(error) if error.kind() == ErrorKind::WouldBlock => break,
                Err(error) => panic!("{error}"),
            }
        }
        while self.part.len() >= 44 {
            let message: Vec<u8> = self.part.drain(..44).collect();
            self.take(&message, &ring_of);
        }
    }

    /// Answers what the device asked for.
    pub fn serve(&mut self, link: &mut Link, numbers: &mut Numbers, memory: &Memory) {
        if !self.has_memory {
            return;
        }
        // Replies have the order of what was asked. If the first one is held, the others get their mappings alone.
        while !self.holds && !self.asked.is_empty() {
            let it = self.asked.pop_front().expect("it is not empty");
            if self.updated == 0 {
                self.update(link, numbers, memory, it);
            }
            self.updated = self.updated.saturating_sub(1);
            self.reply(numbers, it.iova);
        }
        for at in self.updated.max(1)..self.asked.len() {
            self.update(link, numbers, memory, self.asked[at]);
        }
        self.updated = self.asked.len();
    }

    /// Answers what was held, too.
    pub fn release(&mut self, link: &mut Link, numbers: &mut Numbers, memory: &Memory) {
        if let Some(held) = self.held().filter(|_| self.has_memory) {
            self.update(link, numbers, memory, held);
        }
        self.holds = false;
        self.serve(link, numbers, memory);
    }

    fn take(&mut self, message: &[u8], ring_of: impl Fn(u64) -> Option<usize>) {
        let number = |at: usize| u32::from_le_bytes(message[at..at + 4].try_into().unwrap());
        let iova = u64::from_le_bytes(message[12..20].try_into().unwrap());
        let (access, kind) = (message[36], message[37]);
        assert_eq!((number(0), number(8)), (1, 32));
        assert!((READ..=READ | WRITE).contains(&access), "{access} is no access");
        assert_eq!(kind, MISS);
        self.misses += 1;
        let ring = ring_of(iova).unwrap_or_else(|| panic!("{iova:#x} is asked for, which no ring needs"));
        assert!(!self.has_asked(ring), "ring {ring} asks for {iova:#x} before a reply");
        self.asked.push_back(Asked { iova, access, ring });
    }

    // Maps the page that was asked for and nothing else.
    fn update(&mut self, link: &mut Link, numbers: &mut Numbers, memory: &Memory, asked: Asked) {
        let Asked { iova, access, .. } = asked;
        let page = iova / PAGE * PAGE;
        let Some((guest, allowed)) = self.pages.get(&page).copied() else {
            return;
        };
        // Each page is there for what its user does, but for those that fail on purpose.
        assert!(
            allowed & access == access || allowed == READ,
            "{iova:#x} is asked for {access}"
        );
        let payload = iotlb(page, PAGE, memory.user(guest), allowed, UPDATE);
        link.order(numbers, IOTLB_MSG, &payload, &[]);
        self.known.insert(page);
    }

    // The reply to a MISS, in pieces.
    fn reply(&self, numbers: &mut Numbers, iova: u64) {
        let is_known = self.pages.contains_key(&(iova / PAGE * PAGE));
        let reply = acknowledged(MISS.into(), u64::from(!is_known));
        let mut rest = &reply[..];
        while !rest.is_empty() {
            let count = match numbers.below(3) {
                0 => 1 + numbers.below(rest.len() as u64) as usize,
                _ => rest.len(),
            };
            assert!(send(&self.channel, &rest[..count], &[]));
            rest = &rest[count..];
            thread::yield_now();
        }
    }
}
