//! A split ring as its driver has it.

use super::driver::{Segment, AVAIL, DESC, USED};
use super::{Case, Shared};
use crate::ring::{Numbers, NEXT};

#[derive(Clone, Debug)]
pub struct Split {
    size: u16,
    next_avail: u16,
    next_used: u16,
}

fn row(segment: &Segment, next: Option<u16>) -> [u8; 16] {
    let flags = segment.flags | if next.is_some() { NEXT } else { 0 };
    let mut bytes = [0; 16];
    bytes[..8].copy_from_slice(&(segment.addr as u64).to_le_bytes());
    bytes[8..12].copy_from_slice(&segment.len.to_le_bytes());
    bytes[12..14].copy_from_slice(&flags.to_le_bytes());
    bytes[14..].copy_from_slice(&next.unwrap_or(0x5555).to_le_bytes());
    bytes
}

fn used_idx(shared: &Shared) -> u16 {
    shared.word(USED + 2)
}

impl Split {
    pub fn new(case: &Case, shared: &Shared) -> Split {
        for part in [AVAIL, USED] {
            shared.ram.write(part, &[0; 2]);
            shared.ram.write(part + 2, &case.base.to_le_bytes());
        }
        Split {
            size: case.size,
            next_avail: case.base,
            next_used: case.base,
        }
    }

    /// A table of these descriptors.
    pub fn table(segments: &[Segment]) -> Vec<u8> {
        let next = |at: usize| (at + 1 < segments.len()).then_some(at as u16 + 1);
        let rows = segments.iter().enumerate().map(|(at, it)| row(it, next(at)));
        rows.collect::<Vec<_>>().concat()
    }

    /// Publishes a chain, whose descriptors have these numbers.
    pub fn publish(&mut self, shared: &Shared, ids: &[u16], segments: &[Segment]) {
        for (at, (id, segment)) in ids.iter().zip(segments).enumerate() {
            let next = ids.get(at + 1).copied();
            shared.ram.write(DESC + 16 * usize::from(*id), &row(segment, next));
        }
        let slot = AVAIL + 4 + 2 * usize::from(self.next_avail % self.size);
        shared.ram.write(slot, &ids[0].to_le_bytes());
        self.next_avail = self.next_avail.wrapping_add(1);
        shared.ram.write(AVAIL + 2, &self.next_avail.to_le_bytes());
    }

    /// The head that comes back next, if there is one, and how many bytes were written.
    pub fn next(&self, shared: &Shared) -> Option<(u32, u32)> {
        if used_idx(shared) == self.next_used {
            return None;
        }
        let entry = USED + 4 + 8 * usize::from(self.next_used % self.size);
        let entry = shared.ram.read(entry, 8);
        let number = |at: usize| u32::from_le_bytes(entry[at..at + 4].try_into().unwrap());
        Some((number(0), number(4)))
    }

    /// It was taken.
    pub fn pass(&mut self) {
        self.next_used = self.next_used.wrapping_add(1);
    }

    /// The used index, or any base: where the ring goes on is in the region and in the ring.
    pub fn base(shared: &Shared, numbers: &mut Numbers) -> u16 {
        let stale = numbers.any() as u16;
        if numbers.one_in(2) {
            used_idx(shared)
        } else {
            stale
        }
    }

    pub fn expect_settled(case: &Case, shared: &Shared, part: &[u8]) {
        assert_eq!(part[8..12], [1_u16, case.descriptors].map(u16::to_le_bytes).concat());
        assert_eq!(part[14..16], used_idx(shared).to_le_bytes());
        let marks = part[16..]
            .chunks_exact(16)
            .take(case.descriptors.into())
            .map(|it| it[0]);
        assert_eq!(marks.max(), Some(0));
    }
}
