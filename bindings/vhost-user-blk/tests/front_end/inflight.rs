//! The region of requests in flight that a front end keeps.

use super::log::SHIFT;
use super::packed::{Driver, Place};
use super::*;

/// How many descriptors the rings have.
pub const SIZE: u16 = 64;

#[derive(Debug)]
pub struct Region {
    pub file: OwnedFd,
    pub size: u64,
    pub offset: u64,
    pub rings: u16,
    pub descriptors: u16,
    /// Whether it is for packed rings.
    pub is_packed: bool,
}

/// What the region of a split ring says in front of its descriptors, as the protocol has it.
#[derive(Clone, Copy, Debug, PartialEq, Eq)]
pub struct Head {
    pub version: u16,
    pub descriptors: u16,
    pub last_batch_head: u16,
    pub used_idx: u16,
}

/// What the region of a packed ring says in front of its entries: positions as a base has them.
#[derive(Clone, Copy, Debug, PartialEq, Eq)]
pub struct PackedHead {
    pub version: u16,
    pub descriptors: u16,
    pub free_head: u16,
    pub old_free_head: u16,
    pub used: u16,
    pub old_used: u16,
}

impl Region {
    /// How many bytes a ring has of it.
    pub fn part_len(&self) -> u64 {
        let unit = if self.is_packed { 32 } else { 16 };
        (unit + unit * u64::from(self.descriptors)).next_multiple_of(64)
    }

    pub fn read(&self, from: u64, len: usize) -> Vec<u8> {
        let mut bytes = vec![0; len];
        File::from(again(&self.file))
            .read_exact_at(&mut bytes, self.offset + from)
            .unwrap();
        bytes
    }

    pub fn write(&self, from: u64, bytes: &[u8]) {
        File::from(again(&self.file))
            .write_all_at(bytes, self.offset + from)
            .unwrap();
    }

    pub fn head(&self, ring: u64) -> Head {
        let bytes = self.read(ring * self.part_len(), 16);
        let word = |at: usize| u16::from_le_bytes([bytes[at], bytes[at + 1]]);
        Head {
            version: word(8),
            descriptors: word(10),
            last_batch_head: word(12),
            used_idx: word(14),
        }
    }

    pub fn packed_head(&self, ring: u64) -> PackedHead {
        let bytes = self.read(ring * self.part_len(), 22);
        let word = |at: usize| u16::from_le_bytes([bytes[at], bytes[at + 1]]);
        let place = |slot: usize, wrap: usize| word(slot) | u16::from(bytes[wrap]) << 15;
        PackedHead {
            version: word(8),
            descriptors: word(10),
            free_head: word(12),
            old_free_head: word(14),
            used: place(16, 20),
            old_used: place(18, 21),
        }
    }

    /// An entry of a packed ring.
    pub fn entry(&self, ring: u64, index: u16) -> Vec<u8> {
        assert!(index < self.descriptors, "there is no entry {index}");
        self.read(ring * self.part_len() + 32 + 32 * u64::from(index), 32)
    }

    /// Expects that a packed ring has nothing in flight, and is at a place.
    pub fn expect_settled(&self, ring: u64, at: Place) {
        let head = self.packed_head(ring);
        let (free_head, used) = (head.free_head, at.bits());
        let wanted = PackedHead {
            version: 1,
            descriptors: self.descriptors,
            free_head,
            old_free_head: free_head,
            used,
            old_used: used,
        };
        assert_eq!(head, wanted);
        // Each entry is free, once.
        let (mut index, mut free) = (free_head, vec![false; self.descriptors.into()]);
        while index != self.descriptors {
            let entry = self.entry(ring, index);
            assert_eq!(entry[0], 0);
            let was_there = std::mem::replace(&mut free[usize::from(index)], true);
            assert!(!was_there, "entry {index} is free twice");
            index = u16::from_le_bytes([entry[2], entry[3]]);
        }
        assert!(free.iter().all(|it| *it), "{free:?}");
    }

    // The ids of the chains that a packed ring has in flight, in the order of their counts. The last entry of each has
    // its id.
    fn packed_in_flight(&self, ring: u64) -> Vec<u16> {
        let word = |entry: &[u8], at: usize| u16::from_le_bytes([entry[at], entry[at + 1]]);
        let all = (0..self.descriptors).map(|index| self.entry(ring, index));
        let mut found: Vec<_> = all.filter(|entry| entry[0] == 1).collect();
        found.sort_by_key(|entry| u64::from_le_bytes(entry[8..16].try_into().unwrap()));
        let id = |entry: &Vec<u8>| word(&self.entry(ring, word(entry, 4)), 16);
        found.iter().map(id).collect()
    }

    /// The heads that are in flight, or the ids of a packed ring's chains, in the order of their counts.
    pub fn in_flight(&self, ring: u64) -> Vec<u16> {
        if self.is_packed {
            return self.packed_in_flight(ring);
        }
        let entry = |head: u16| self.read(ring * self.part_len() + 16 + 16 * u64::from(head), 16);
        let all = (0..self.descriptors).map(|head| (entry(head), head));
        let mut found: Vec<_> = all.filter(|(entry, _)| entry[0] == 1).collect();
        found.sort_by_key(|(entry, _)| u64::from_le_bytes(entry[8..].try_into().unwrap()));
        found.into_iter().map(|(_, head)| head).collect()
    }

    /// The payload of a SET_INFLIGHT_FD.
    pub fn payload(&self) -> Vec<u8> {
        inflight(self.size, self.offset, self.rings, self.descriptors)
    }
}

impl FrontEnd {
    /// Has the back end make a region.
    pub fn new_region(&mut self, rings: u16, descriptors: u16) -> Region {
        let asked = inflight(0, 0, rings, descriptors);
        let (reply, file) = self.ask_for_file(GET_INFLIGHT_FD, &asked);
        let number = |at: usize| u64::from_le_bytes(reply[at..at + 8].try_into().unwrap());
        let region = Region {
            file: file.expect("no descriptor comes with the reply"),
            size: number(0),
            offset: number(8),
            rings,
            descriptors,
            is_packed: self.is_packed,
        };
        assert_eq!(reply, region.payload());
        region
    }

    /// Gives the back end a region, and returns whether it was taken.
    pub fn give_region(&mut self, region: &Region) -> bool {
        let file = again(&region.file);
        self.is_done(SET_INFLIGHT_FD, &region.payload(), &[&file])
    }
}

/// Gives a region before the rings are started, as QEMU does.
pub fn set_up(front: &mut FrontEnd, features: u64, region: Option<&Region>) {
    if let Some(region) = region {
        assert!(front.give_region(region));
    }
    front.set_memory();
    if features & ACCESS_PLATFORM != 0 {
        front.translate(SHIFT);
        // In one range.
        let all = iotlb(SHIFT, RAM as u64, USER, READ | WRITE, 2);
        assert!(front.is_done(IOTLB_MSG, &all, &[]));
    }
}

/// A front end with a region and a ring that begins at an index.
pub fn started(program: &Program, features: u64, base: u16) -> (FrontEnd, Region) {
    let mut front = program.connect();
    front.negotiate(features);
    let region = front.new_region(1, SIZE);
    set_up(&mut front, features, Some(&region));
    front.start_ring(SIZE, base);
    (front, region)
}

/// A driver of a packed ring that begins at a place, and the region of its front end.
pub fn started_packed(program: &Program, features: u64, first: Place) -> (Driver, Region) {
    let mut front = program.connect();
    front.negotiate(features);
    let region = front.new_region(1, SIZE);
    set_up(&mut front, features, Some(&region));
    (Driver::at(front, SIZE, first), region)
}

/// What the disk has from a sector on.
pub fn read_of(sector: u64, len: usize) -> Vec<u8> {
    image_of(1 << 20)[512 * sector as usize..][..len].to_vec()
}
