//! What the front end of a guest with an IOMMU knows: what it said of I/O addresses, and what it is asked.

use super::super::acts::Act;
use super::super::driver::RINGS;
use super::super::model::Tally;
use super::super::space::{Frame, Space, SMALL};
use super::super::table::{Change, Range, Table};
use super::World;
use crate::front_end::*;
use crate::ring::Numbers;
use std::collections::VecDeque;
use vm_memory_proved::back_end::State;

const ALL: u64 = u64::MAX;

/// What happened behind an IOMMU.
#[derive(Clone, Copy, Debug, Default)]
pub struct Counted {
    pub connections: u64,
    /// Questions, those for what the guest does not map, and those that were refused.
    pub asked: u64,
    pub unmapped: u64,
    pub refused: u64,
    pub updates: u64,
    pub invalidates: u64,
    /// Messages on the table that waited for what was under way.
    pub waits: u64,
    pub moved: u64,
    /// Channels that were kept or lost.
    pub channels: u64,
    /// Times at which all was asked for and returned, and the questions that this took.
    pub calms: u64,
    pub answers: u64,
    /// Both rings waited, and other messages came while one did.
    pub both: u64,
    pub others: u64,
    pub tally: Tally,
}

/// A question that has no reply.
#[derive(Clone, Copy, Debug)]
pub struct Asked {
    ring: u32,
    pub iova: u64,
    /// An UPDATE went out for it.
    pub is_mapped: bool,
}

/// Two frames change places, with their bytes or without.
#[derive(Clone, Copy, Debug)]
pub struct Swap {
    pub one: usize,
    pub other: usize,
    pub has_bytes: bool,
}

pub struct Front {
    pub asked: VecDeque<Asked>,
    // Regions of memory, as they were announced last: guest address, size, user address.
    announced: Vec<[u64; 3]>,
    // What was said of I/O addresses and not taken back, and the message on that which is under way.
    said: Table,
    pending: Option<Change>,
    /// What is done when that took effect, or after one more such message.
    pub swap: Option<Swap>,
    pub moving: Option<Swap>,
    pub has_channel: bool,
    /// It replies to nothing for some time.
    pub is_silent: bool,
}

impl Front {
    pub fn new() -> Front {
        Front {
            asked: VecDeque::new(),
            announced: Vec::new(),
            said: Table::default(),
            pending: None,
            swap: None,
            moving: None,
            has_channel: false,
            is_silent: false,
        }
    }

    /// What is said, and what is said when the message that is under way takes effect.
    pub fn said(&self, space: &Space) -> Vec<Table> {
        if !space.is_on {
            return Vec::new();
        }
        let mut all = vec![self.said.clone()];
        if let Some(change) = self.pending {
            let mut next = self.said.clone();
            next.change(&change);
            all.push(next);
        }
        all
    }

    /// Whether a question has no reply.
    pub fn is_asked(&self) -> bool {
        !self.asked.is_empty()
    }

    /// All was unmapped.
    pub fn forget(&mut self) {
        self.said = Table::default();
    }

    // Where bytes of the front end's own memory are guest memory.
    fn guest(&self, user: u64, len: u64) -> Option<u64> {
        let has = |it: &&[u64; 3]| it[2] <= user && user - it[2] < it[1] && len <= it[1] - (user - it[2]);
        self.announced.iter().find(has).map(|it| it[0] + (user - it[2]))
    }

    /// How many bytes from there on are guest memory of one region.
    pub fn room(&self, user: u64) -> u64 {
        let has = |it: &&[u64; 3]| it[2] <= user && user - it[2] < it[1];
        self.announced.iter().find(has).map_or(0, |it| it[1] - (user - it[2]))
    }
}

/// The limit of the table, or 0 if there is no IOMMU, and the I/O addresses.
pub fn any_space(numbers: &mut Numbers) -> (u32, Space) {
    if numbers.one_in(2) {
        return (0, Space::plain());
    }
    let limit = [8, 8, 9, 12, 16, 64, u32::MAX][numbers.below(7) as usize];
    let grain = match numbers.below(12) {
        0 => SMALL,
        1 | 2 => 0x400,
        _ => 0x1000,
    };
    let mut space = Space::new(numbers, grain);
    let count = space.frames.len() as u64;
    if grain == SMALL {
        let data: Vec<usize> = (0..space.frames.len())
            .filter(|it| space.offset(*it) >= RINGS)
            .collect();
        for two in data.chunks_exact(2) {
            space.frames.swap(two[0], two[1]);
        }
        // The table has them all.
        return (u32::MAX, space);
    }
    // From neighbours to no neighbours.
    for _ in 0..numbers.below(3) * numbers.below(count) {
        let [one, other] = [0, 1].map(|_| numbers.below(count) as usize);
        space.frames.swap(one, other);
    }
    (limit, space)
}

impl World<'_> {
    /// A message was sent.
    pub(super) fn hear(&mut self, message: &[u8]) {
        let is_other = matches!(
            message[0].into(),
            SET_MEM_TABLE | SET_FEATURES | GET_VRING_BASE | SET_LOG_BASE
        );
        self.counts.behind.others += u64::from(is_other && self.front.is_asked());
        let word = |at: usize| u64::from_le_bytes(message[at..at + 8].try_into().unwrap());
        match message[0].into() {
            SET_MEM_TABLE if message.len() >= 20 => {
                self.space.is_said = false;
                let rows = message[20..].chunks_exact(32);
                let of = |row: &[u8]| [0, 8, 16].map(|at| u64::from_le_bytes(row[at..at + 8].try_into().unwrap()));
                self.front.announced = rows.map(of).collect();
            }
            SET_BACKEND_REQ_FD => {
                self.front.asked.clear();
                self.front.has_channel = true;
                self.counts.behind.channels += 1;
            }
            IOTLB_MSG => {
                self.space.is_said &= message[37] == 2;
                let [iova, len, user] = [12, 20, 28].map(word);
                let guest = self.front.guest(user, len);
                self.front.pending = match (message[37], iova, len) {
                    (2, ..) => guest.map(|to| {
                        let access = message[36];
                        Change::Map(Range { iova, len, to, access })
                    }),
                    (_, 0, 0) => Some(Change::Unmap(0, ALL)),
                    _ => Some(Change::Unmap(iova, iova.saturating_add(len))),
                };
                self.counts.behind.waits += u64::from(self.model.is_waiting());
            }
            _ => (),
        }
    }

    /// Both ran. A message that was under way may have taken effect.
    pub(super) fn heard(&mut self) {
        if self.state != State::Free {
            return;
        }
        if let Some(change) = self.front.pending.take() {
            self.front.said.change(&change);
        }
        if let Some(swap) = self.front.swap.take() {
            self.swap(swap);
        }
    }

    /// Nothing is asked between a message and its reply.
    pub(super) fn expect_order(&self, acts: &[Act], has_more: bool) {
        let Some(first) = acts.iter().position(|it| matches!(it, Act::Ask(..))) else {
            return;
        };
        let is_answer = |it: &Act| !matches!(it, Act::Ask(..) | Act::Serve(_) | Act::Interrupt(_) | Act::Broke(_));
        let is_busy = self.state == State::Busy && !has_more;
        assert!(!is_busy && !acts[first..].iter().any(is_answer), "{acts:?}");
    }

    /// A ring asks for a mapping: no more than one question of it has no reply, and no message is under way.
    pub(super) fn asked(&mut self, ring: u32, iova: u64) {
        self.counts.behind.asked += 1;
        assert!(self.front.has_channel);
        assert!(
            self.front.asked.iter().all(|it| it.ring != ring),
            "ring {ring} asks twice"
        );
        self.front.asked.push_back(Asked {
            ring,
            iova,
            is_mapped: false,
        });
        self.counts.behind.both += u64::from(self.front.asked.len() == 2);
    }

    /// Nothing else comes until all is done.
    pub(super) fn settle_alone(&mut self) {
        let was_calm = std::mem::replace(&mut self.is_calm, true);
        self.settle();
        self.is_calm = was_calm;
    }

    /// Frames change places.
    pub(super) fn swap(&mut self, it: Swap) {
        self.space.is_said = false;
        let grain = self.space.grain;
        let [one, other] = [it.one, it.other].map(|number| self.space.frames[number]);
        if it.has_bytes {
            let read = |it: Frame| self.all.guests[it.file].read(it.offset as usize, grain as usize);
            let all = [read(one), read(other)];
            let mut bytes = World::bytes(&self.all.guests, &mut self.model, &self.space);
            bytes.put_there(one.file, one.offset, &all[1]);
            bytes.put_there(other.file, other.offset, &all[0]);
        } else if [it.one, it.other].iter().any(|it| self.space.offset(*it) < RINGS) {
            self.watch.lose_all();
        }
        let frames = &mut self.space.frames;
        frames[it.one] = Frame {
            access: one.access,
            ..other
        };
        frames[it.other] = Frame {
            access: other.access,
            ..one
        };
        self.counts.behind.moved += 1;
    }
}
