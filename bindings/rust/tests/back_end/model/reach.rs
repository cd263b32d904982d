//! What the slow back end has of I/O addresses: what the front end said, as far as a table of few ranges has it, what
//! rings have of their own places, and what is fetched for them, piece by piece, as mappings come.

use super::super::memory::Memory;
use super::super::queue::{DeviceQueue, Popped};
use super::super::table::{Change, Lead, Range, Table, READ, WRITE};
use super::mappings::Tally;
use crate::slow::{Image, Segment};

/// How many more ranges than a ring has entries at most a request may lead to.
const MORE_PIECES: usize = 1024;

/// A range of I/O addresses that is wanted for an access.
#[derive(Clone, Copy, Debug)]
pub struct Want {
    pub iova: u64,
    pub len: u64,
    pub access: u8,
}

/// What ranges are fetched for.
#[derive(Clone, Debug)]
pub enum Goal {
    /// The parts of the ring.
    Ring,
    /// Rows of an indirect table.
    Rows,
    /// All bytes of a chain. The queue goes on like the second one after it.
    Chain(Popped, DeviceQueue),
    /// Its status alone: it fails.
    Status(Popped, DeviceQueue),
}

#[derive(Clone, Copy, Debug, PartialEq, Eq)]
pub enum State {
    /// For a mapping of this address that permits this.
    Waits(u64, u8),
    Stops,
    Whole,
}

#[derive(Clone, Debug)]
pub struct Fetch {
    pub goal: Goal,
    pub wants: Vec<Want>,
    /// What was found, each byte once and in order.
    pub taken: Vec<Range>,
    pub state: State,
}

/// What a ring has.
#[derive(Clone, Debug, Default)]
pub struct Reach {
    /// All its parts were found.
    pub is_reached: bool,
    /// What was found of its parts, and of an indirect table that is being read.
    pub pages: Vec<Range>,
    pub rows: Vec<Range>,
    pub fetch: Option<Fetch>,
}

/// What is known of I/O addresses.
#[derive(Debug)]
pub struct Behind {
    pub table: Table,
    pub rings: Vec<Reach>,
    /// How many ranges are kept of a request at most.
    pub most: usize,
}

impl Reach {
    /// What it has of its ring and of indirect tables.
    pub fn all(&self) -> impl Iterator<Item = &Range> {
        self.pages.iter().chain(&self.rows)
    }
}

impl Behind {
    pub fn new(limit: u32, rings: usize, max_size: usize) -> Behind {
        Behind {
            table: Table::with_limit(limit),
            rings: vec![Reach::default(); rings],
            most: max_size + MORE_PIECES,
        }
    }

    /// What rings have of their own places and of indirect tables, whatever the table has: what permits more comes
    /// last.
    pub fn own(&self) -> Table {
        let mut own = Table::default();
        let all: Vec<&Range> = self.rings.iter().flat_map(Reach::all).collect();
        for access in [READ, WRITE, READ | WRITE] {
            for it in all.iter().filter(|it| it.access == access) {
                own.change(&Change::Map(**it));
            }
        }
        own
    }

    /// The bytes that rings have, at their I/O addresses.
    pub fn image(own: &Table, memory: &Memory) -> Image {
        let of = |it: &Range| (it.iova, memory.bytes(it.to, it.len));
        Image::of(own.ranges.iter().map(of).collect())
    }

    /// What was stored there goes to guest memory.
    pub fn store(own: &Table, image: &Image, memory: &mut Memory) {
        for (it, (_, bytes)) in own.ranges.iter().zip(image.ranges()) {
            let before = memory.bytes(it.to, it.len);
            if it.access & WRITE == 0 || *bytes == before {
                continue;
            }
            for (at, byte) in bytes.iter().enumerate().filter(|(at, byte)| before[*at] != **byte) {
                memory.image().set(it.to + at as u64, *byte);
            }
        }
    }

    /// Where addresses lead that rings have and may write.
    pub fn places(own: &Table, (from, len): (u64, u64)) -> Vec<(u64, u64)> {
        let end = from.saturating_add(len);
        let parts = own.ranges.iter().filter_map(|it| it.part(from, end));
        let parts: Vec<Range> = parts.filter(|it| it.access & WRITE != 0).collect();
        let count: u64 = parts.iter().map(|it| it.len).sum();
        if count < len {
            return Vec::new();
        }
        parts.iter().map(|it| (it.to, it.len)).collect()
    }

    pub fn look_up(table: &Table, most: usize, fetch: &mut Fetch, tally: &mut Tally) {
        let mut skipped: u64 = fetch.taken.iter().map(|it| it.len).sum();
        for want in &fetch.wants {
            let mut from = skipped.min(want.len);
            skipped -= from;
            while from < want.len {
                if fetch.taken.len() >= most {
                    tally.too_many += 1;
                    fetch.state = State::Stops;
                    return;
                }
                let iova = want.iova + from;
                match table.lead(iova, want.len - from, want.access) {
                    Lead::To(to, len) => {
                        let access = want.access;
                        fetch.taken.push(Range { iova, len, to, access });
                        from += len;
                    }
                    Lead::Missed => {
                        fetch.state = State::Waits(iova, want.access);
                        return;
                    }
                    Lead::Forbidden => {
                        tally.barred += 1;
                        fetch.state = State::Stops;
                        return;
                    }
                }
            }
        }
        fetch.state = State::Whole;
    }
}

/// What is wanted of a ring: what is only read comes first, and what is read and written last.
pub fn ring_wants(queue: &DeviceQueue, log: Option<u64>) -> Vec<Want> {
    let [desc, avail, used] = queue.parts;
    let (size, event) = (u64::from(queue.size), if queue.event_idx { 2 } else { 0 });
    let want = |iova, len, access| Want { iova, len, access };
    let used_len = queue.used().end - used;
    let log = log.filter(|it| *it != used).map(|log| want(log, used_len, WRITE));
    let mut wants = match queue.is_packed {
        false => vec![want(desc, 16 * size, READ), want(avail, 4 + 2 * size + event, READ)],
        true => vec![want(avail, 4, READ), want(used, 4, WRITE)],
    };
    wants.extend(log);
    wants.push(match queue.is_packed {
        false => want(used, used_len, READ | WRITE),
        true => want(desc, 16 * size, READ | WRITE),
    });
    wants
}

pub fn chain_wants(segments: &[Segment]) -> Vec<Want> {
    let of = |it: &Segment| Want {
        iova: it.addr,
        len: it.len,
        access: if it.is_written { WRITE } else { READ },
    };
    segments.iter().filter(|it| it.len > 0).map(of).collect()
}

pub fn status_want(segments: &[Segment]) -> Option<Want> {
    let last = segments.iter().rfind(|it| it.is_written && it.len > 0)?;
    let (iova, access) = (last.addr + (last.len - 1), WRITE);
    Some(Want { iova, len: 1, access })
}

/// The segments to which a chain leads.
pub fn segments_of(taken: &[Range]) -> Vec<Segment> {
    let of = |it: &Range| Segment {
        addr: it.to,
        len: it.len,
        is_written: it.access == WRITE,
    };
    taken.iter().map(of).collect()
}
