//! A driver whose requests are reads of a sector each, which it never reads twice, and some that are refused and so
//! come back before others that were popped earlier.

use super::packed::Packed;
use super::split::Split;
use super::{Case, Shared, DATA, PAGE};
use crate::ring::{Numbers, INDIRECT, WRITE};

// Where the parts of a ring lie: its descriptors, what the driver writes, and what the device writes.
pub const DESC: usize = 0;
pub const AVAIL: usize = 0x200;
pub const USED: usize = 0x300;

// Of each id the header of its request, its status and its table.
const OWN: usize = 0x80;
const STATUS: usize = 0x10;
const TABLE: usize = 0x20;

/// How many bytes a request reads.
pub const LEN: u32 = 512;

const READ: u32 = 0;
const UNSUPPORTED: u32 = 11;

/// What a descriptor says of a segment. Its flags are without NEXT.
#[derive(Clone, Copy, Debug)]
pub struct Segment {
    pub addr: usize,
    pub len: u32,
    pub flags: u16,
}

#[derive(Clone, Debug)]
struct Out {
    ids: Vec<u16>,
    slots: u16,
    // None if it is refused.
    sector: Option<u64>,
}

#[derive(Clone, Debug)]
enum Ring {
    Split(Split),
    Packed(Packed),
}

#[derive(Clone, Debug)]
pub struct Driver {
    ring: Ring,
    size: u16,
    free: Vec<u16>,
    // In the order in which they were published.
    out: Vec<Out>,
    /// The sector of the next read: how many there were.
    pub next_sector: u64,
    /// How many requests there were.
    pub published: u64,
}

fn own(id: u16) -> usize {
    PAGE + OWN * usize::from(id)
}

impl Driver {
    /// A driver with an empty ring, whose entries have other bytes than those of a run.
    pub fn new(case: &Case, shared: &Shared) -> Driver {
        shared.ram.write(0, &[0xa5; PAGE]);
        let ring = match case.is_packed {
            true => Ring::Packed(Packed::new(case, shared)),
            false => Ring::Split(Split::new(case, shared)),
        };
        Driver {
            ring,
            size: case.size,
            free: (0..case.size).collect(),
            out: Vec::new(),
            next_sector: 0,
            published: 0,
        }
    }

    /// The sectors of the reads that are out, in the order in which they were published.
    pub fn out(&self) -> Vec<u64> {
        self.out.iter().filter_map(|it| it.sector).collect()
    }

    /// Where a front end has the ring start after a crash.
    pub fn base(&self, case: &Case, shared: &Shared, numbers: &mut Numbers) -> u32 {
        match &self.ring {
            Ring::Split(_) => Split::base(shared, numbers).into(),
            Ring::Packed(_) => Packed::base(case, shared, numbers),
        }
    }

    /// Nothing is out, and this part of a region says so.
    pub fn expect_settled(&self, case: &Case, shared: &Shared, part: &[u8]) {
        assert!(self.out.is_empty(), "{:?} do not come back", self.out);
        match &self.ring {
            Ring::Split(_) => Split::expect_settled(case, shared, part),
            Ring::Packed(ring) => ring.expect_settled(case, part),
        }
    }

    /// Publishes a request, if there is room for one.
    pub fn publish(&mut self, shared: &Shared, numbers: &mut Numbers) -> bool {
        let is_indirect = self.size < 3 || numbers.one_in(2);
        let slots = if is_indirect { 1 } else { 3 };
        let (count, has_room) = match &self.ring {
            Ring::Split(_) => (slots, true),
            Ring::Packed(ring) => (1, ring.room() >= slots),
        };
        if self.free.len() < usize::from(count) || !has_room {
            return false;
        }
        let mut take = || {
            let place = numbers.below(self.free.len() as u64) as usize;
            self.free.swap_remove(place)
        };
        let ids: Vec<_> = (0..count).map(|_| take()).collect();
        let sector = (!numbers.one_in(4)).then_some(self.next_sector);
        self.next_sector += u64::from(sector.is_some());
        self.published += 1;
        let segments = self.put(shared, ids[0], sector, is_indirect);
        match &mut self.ring {
            Ring::Split(ring) => ring.publish(shared, &ids, &segments),
            Ring::Packed(ring) => ring.publish(shared, ids[0], &segments),
        }
        self.out.push(Out { ids, slots, sector });
        true
    }

    // Puts the header of a request, and its table if it has one. Returns what its descriptors say.
    fn put(&self, shared: &Shared, id: u16, sector: Option<u64>, is_indirect: bool) -> Vec<Segment> {
        let own = own(id);
        let kind = if sector.is_some() { READ } else { UNSUPPORTED };
        let mut header = [0; 17];
        header[..4].copy_from_slice(&kind.to_le_bytes());
        header[8..16].copy_from_slice(&sector.unwrap_or(0).to_le_bytes());
        // No device writes this status.
        header[16] = 0xa5;
        shared.ram.write(own, &header);
        let segment = |addr, len, flags| Segment { addr, len, flags };
        let parts = vec![
            segment(own, 16, 0),
            segment(DATA, LEN, WRITE),
            segment(own + STATUS, 1, WRITE),
        ];
        if !is_indirect {
            return parts;
        }
        let table = match &self.ring {
            Ring::Split(_) => Split::table(&parts),
            Ring::Packed(_) => Packed::table(&parts),
        };
        shared.ram.write(own + TABLE, &table);
        vec![segment(own + TABLE, 48, INDIRECT)]
    }

    /// Takes at most so many requests that came back. Each has to be out.
    pub fn take(&mut self, shared: &Shared, most: usize) {
        for _ in 0..most {
            let came = match &self.ring {
                Ring::Split(ring) => ring.next(shared),
                Ring::Packed(ring) => ring.next(shared),
            };
            let Some((id, len)) = came else {
                return;
            };
            let place = self.out.iter().position(|it| u32::from(it.ids[0]) == id);
            let place = place.unwrap_or_else(|| panic!("{id} comes back, which is not out"));
            let out = self.out.remove(place);
            let status = shared.ram.read(own(out.ids[0]) + STATUS, 1)[0];
            // The data before the status of one that is refused are not written.
            let wanted = if out.sector.is_some() { (LEN + 1, 0) } else { (0, 2) };
            assert_eq!((len, status), wanted);
            match &mut self.ring {
                Ring::Split(ring) => ring.pass(),
                Ring::Packed(ring) => ring.pass(out.slots),
            }
            self.free.extend(out.ids);
        }
    }

    /// What is to be read in the guest's view: what came back, and was not taken yet, is not.
    pub fn not_back(&self, shared: &Shared) -> Vec<u64> {
        let mut seen = self.clone();
        seen.take(shared, usize::MAX);
        seen.out()
    }

    /// It works between a crash and the next start, or between two runs.
    pub fn go_on(&mut self, shared: &Shared, numbers: &mut Numbers) {
        if numbers.one_in(2) {
            self.take(shared, numbers.below(4) as usize);
        }
        let count = match numbers.below(6) {
            0 | 1 => 0,
            // The ring gets full.
            2 => usize::from(self.size),
            _ => numbers.below(3) as usize,
        };
        for _ in 0..count {
            if !self.publish(shared, numbers) {
                return;
            }
        }
    }
}
