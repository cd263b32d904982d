//! A packed ring as its driver has it.

use super::driver::{Segment, AVAIL, DESC, USED};
use super::{Case, Shared};
use crate::ring::{Numbers, NEXT, WRITE};

const IS_AVAIL: u16 = 1 << 7;
const IS_USED: u16 = 1 << 15;

// A side's place: a slot, and its wrap counter.
#[derive(Clone, Copy, Debug, PartialEq, Eq)]
struct Place {
    slot: u16,
    wrap: bool,
}

impl Place {
    fn of(bits: u16) -> Place {
        Place {
            slot: bits & 0x7fff,
            wrap: bits >> 15 == 1,
        }
    }

    fn moved(self, size: u16, count: u16) -> Place {
        match self.slot + count {
            slot if slot < size => Place { slot, ..self },
            slot => Place {
                slot: slot - size,
                wrap: !self.wrap,
            },
        }
    }

    // The flags of a slot that is available, and of one that is used.
    fn available(self) -> u16 {
        if self.wrap {
            IS_AVAIL
        } else {
            IS_USED
        }
    }

    fn used(self) -> u16 {
        if self.wrap {
            IS_AVAIL | IS_USED
        } else {
            0
        }
    }
}

#[derive(Clone, Debug)]
pub struct Packed {
    size: u16,
    avail: Place,
    used: Place,
    room: u16,
}

fn row(segment: &Segment, id: u16, flags: u16) -> [u8; 16] {
    let mut bytes = [0; 16];
    bytes[..8].copy_from_slice(&(segment.addr as u64).to_le_bytes());
    bytes[8..12].copy_from_slice(&segment.len.to_le_bytes());
    bytes[12..14].copy_from_slice(&id.to_le_bytes());
    bytes[14..].copy_from_slice(&(segment.flags | flags).to_le_bytes());
    bytes
}

fn desc(slot: u16) -> usize {
    DESC + 16 * usize::from(slot)
}

// Both positions of a base.
fn both(bits: u16) -> u32 {
    u32::from(bits) | u32::from(bits) << 16
}

impl Packed {
    /// Each slot was used in the round before the one that comes to it next.
    pub fn new(case: &Case, shared: &Shared) -> Packed {
        let first = Place::of(case.base);
        for slot in 0..case.size {
            let wrap = if slot < first.slot { first.wrap } else { !first.wrap };
            shared
                .ram
                .write(desc(slot) + 14, &Place { slot, wrap }.used().to_le_bytes());
        }
        // Each side wants all notifications.
        for area in [AVAIL, USED] {
            shared.ram.write(area, &[0; 4]);
        }
        Packed {
            size: case.size,
            avail: first,
            used: first,
            room: case.size,
        }
    }

    /// How many slots are free.
    pub fn room(&self) -> u16 {
        self.room
    }

    /// A table of these descriptors. Ids mean nothing in it.
    pub fn table(segments: &[Segment]) -> Vec<u8> {
        let rows = segments.iter().map(|it| row(it, 0x5555, 0));
        rows.collect::<Vec<_>>().concat()
    }

    /// Publishes a chain, the flags of its first descriptor last.
    pub fn publish(&mut self, shared: &Shared, id: u16, segments: &[Segment]) {
        for (at, segment) in segments.iter().enumerate().rev() {
            let place = self.avail.moved(self.size, at as u16);
            let next = if at + 1 < segments.len() { NEXT } else { 0 };
            let row = row(segment, id, next | place.available());
            shared.ram.write(desc(place.slot), &row);
        }
        let count = segments.len() as u16;
        self.avail = self.avail.moved(self.size, count);
        self.room -= count;
    }

    /// The id that comes back next, if there is one, and how many bytes were written.
    pub fn next(&self, shared: &Shared) -> Option<(u32, u32)> {
        let row = shared.ram.read(desc(self.used.slot), 16);
        let word = |at: usize| u16::from_le_bytes([row[at], row[at + 1]]);
        if word(14) & (IS_AVAIL | IS_USED) != self.used.used() {
            return None;
        }
        let len = u32::from_le_bytes(row[8..12].try_into().unwrap());
        assert_eq!(word(14) & WRITE != 0, len > 0);
        Some((word(12).into(), len))
    }

    /// It was taken, and its slots can be used again.
    pub fn pass(&mut self, slots: u16) {
        self.used = self.used.moved(self.size, slots);
        self.room += slots;
    }

    /// Where the ring goes on is in the region, and what a front end says is stale, unless the region is fresh.
    pub fn base(case: &Case, shared: &Shared, numbers: &mut Numbers) -> u32 {
        let stale = numbers.below(case.size.into()) as u16 | (numbers.below(2) as u16) << 15;
        let version = shared.region.read(case.part() * case.ring as usize + 8, 2);
        both(if version == [0; 2] { case.base } else { stale })
    }

    pub fn expect_settled(&self, case: &Case, part: &[u8]) {
        let word = |at: usize| u16::from_le_bytes([part[at], part[at + 1]]);
        assert_eq!((word(8), word(10)), (1, case.descriptors));
        // The used position and the old one: their slots, and then their wrap counters.
        let wrap = u8::from(self.used.wrap);
        assert_eq!(
            (word(16), word(18), &part[20..22]),
            (self.used.slot, self.used.slot, &[wrap; 2][..])
        );
        assert_eq!(self.used, self.avail);
        // Each entry is free, once.
        assert_eq!(word(12), word(14));
        let (mut at, mut free) = (word(12), vec![false; case.descriptors.into()]);
        while at != case.descriptors {
            let entry = 32 + 32 * usize::from(at);
            assert_eq!(part[entry], 0);
            assert!(
                !std::mem::replace(&mut free[usize::from(at)], true),
                "{at} is free twice"
            );
            at = word(entry + 2);
        }
        assert!(free.iter().all(|it| *it), "{free:?}");
    }
}
