//! A back end that is cut off before any of its stores, a driver that goes on meanwhile, and back ends that follow.

pub mod driver;
pub mod machine;
pub mod packed;
pub mod play;
pub mod split;
pub mod watch;

use crate::guest::Guest;
use std::os::fd::OwnedFd;
use vm_memory_proved::memfd;

pub const PAGE: usize = 0x1000;

/// The memory of the guest: the ring and what requests have beside their data, and the data, which nobody moves.
pub const RAM: usize = 3 * PAGE;
pub const DATA: usize = 2 * PAGE;

/// How many bytes of it a crash leaves, and of the region of requests in flight.
pub const KEPT: usize = 2 * PAGE;
pub const REGION: usize = PAGE;

/// Where a back end begins, and what it has.
#[derive(Clone, Copy, Debug)]
pub struct Case {
    pub is_packed: bool,
    /// How many descriptors the ring has.
    pub size: u16,
    /// For how many the region is.
    pub descriptors: u16,
    /// The number of the ring, and how many rings the region is for.
    pub ring: u32,
    pub rings: u16,
    pub event_idx: bool,
    /// The index at which a split ring begins, or the place of a packed one: a slot, and the wrap counter on top.
    pub base: u16,
}

impl Case {
    /// How many bytes of the region a ring has.
    pub fn part(&self) -> usize {
        let unit = if self.is_packed { 32 } else { 16 };
        (unit + unit * usize::from(self.descriptors)).next_multiple_of(64)
    }
}

/// What outlives a back end: files of guest memory and of the region, and their bytes.
pub struct Shared {
    pub files: [OwnedFd; 2],
    pub ram: Guest,
    pub region: Guest,
}

impl Shared {
    pub fn new() -> Shared {
        let files = [RAM, REGION].map(|len| memfd(len as u64).unwrap());
        let [ram, region] = [(&files[0], RAM), (&files[1], REGION)].map(|(file, len)| Guest::of_file(file, len));
        Shared { files, ram, region }
    }

    /// Has the bytes that a crash left.
    pub fn load(&self, image: &[u8]) {
        let (ram, region) = image.split_at(KEPT);
        self.ram.write(0, ram);
        self.region.write(0, region);
    }

    pub fn word(&self, at: usize) -> u16 {
        u16::from_le_bytes(self.ram.read(at, 2).try_into().unwrap())
    }
}
