//! Messages on the table in the slow back end, and the back end's own channel.

use super::super::rings::Phase;
use super::super::table::{Change, Range};
use super::reach::State;
use super::{long, word, Ended, Model, Until};
use crate::front_end::{REPLY, REPLY_ACK};
use std::collections::VecDeque;
use vm_memory_proved::vhost_user::{Refusal, Region};

/// How often something happened.
#[derive(Clone, Copy, Debug, Default)]
pub struct Tally {
    /// Ranges were evicted.
    pub evicted: u64,
    /// Chains were given back.
    pub dropped: u64,
    /// Requests had too many pieces, or a piece whose mapping forbids the access.
    pub too_many: u64,
    pub barred: u64,
}

impl Tally {
    pub fn add(&mut self, other: &Tally) {
        self.evicted += other.evicted;
        self.dropped += other.dropped;
        self.too_many += other.too_many;
        self.barred += other.barred;
    }
}

/// A ring, an I/O address, and the access that it is needed for.
pub type Miss = (usize, u64, u8);

/// The questions of rings for mappings: each ring has at most one that is to be sent, or has no reply.
#[derive(Debug, Default)]
pub struct Questions {
    /// The rings of those that were sent, and whether they wait for the reply.
    sent: VecDeque<(usize, bool)>,
    due: VecDeque<Miss>,
}

impl Questions {
    fn want(&mut self, miss: Miss) {
        let is_sent = self.sent.iter().any(|it| it.0 == miss.0);
        if !is_sent && self.due.iter().all(|it| it.0 != miss.0) {
            self.due.push_back(miss);
        }
    }

    // A ring waits for nothing any more.
    fn drop(&mut self, ring: usize) {
        self.due.retain(|it| it.0 != ring);
        for it in self.sent.iter_mut().filter(|it| it.0 == ring) {
            it.1 = false;
        }
    }

    pub fn is_due(&self) -> bool {
        !self.due.is_empty()
    }

    /// The question that is sent now.
    fn take(&mut self) -> Option<Miss> {
        let miss = self.due.pop_front()?;
        self.sent.push_back((miss.0, true));
        Some(miss)
    }
}

// What is wrong with a reply: it is to a MISS or a CONFIG_CHANGE_MSG, and has one number.
fn broken_reply(message: &[u8]) -> Vec<Refusal> {
    let mut broken = Vec::new();
    let flags = word(message, 4);
    if flags & 3 != 1 {
        broken.push(Refusal::Version);
    }
    if flags & REPLY == 0 {
        broken.push(Refusal::Direction);
    }
    if ![1, 2].contains(&word(message, 0)) {
        broken.push(Refusal::Request);
    }
    if message.len() != 20 || word(message, 8) != 8 {
        broken.push(Refusal::PayloadSize);
    }
    broken
}

impl Model {
    // ---- messages

    // What a message on the table changes, if the back end can do that.
    fn change_of(&self, message: &[u8]) -> Option<Change> {
        let payload = &message[12..];
        let [iova, size, user] = [0, 8, 16].map(|at| long(payload, at));
        if payload[25] == 2 {
            let has_end = |from: u64| u128::from(from) + u128::from(size) < 1 << 64;
            let has = |it: &&Region| {
                it.user_address <= user
                    && user - it.user_address <= it.size
                    && size <= it.size - (user - it.user_address)
            };
            let it = self.protocol.regions.iter().find(has).filter(|_| has_end(iova))?;
            return Some(Change::Map(Range {
                iova,
                len: size,
                to: it.guest_address + (user - it.user_address),
                access: payload[24],
            }));
        }
        match (iova, size) {
            (0, 0) => Some(Change::Unmap(0, u64::MAX)),
            (_, 0) => None,
            _ if size - 1 > u64::MAX - iova => None,
            _ => Some(Change::Unmap(iova, iova.saturating_add(size))),
        }
    }

    /// What a message on the table waits for: all that is under way, if some of that would lead elsewhere after it.
    pub(super) fn until_of_table(&self, message: &[u8]) -> Until {
        let (Some(behind), Some(change)) = (&self.behind, self.change_of(message)) else {
            return Until::Now;
        };
        let is_used = self.rings.rings.iter().zip(&behind.rings).any(|(ring, reach)| {
            let is_busy = !ring.under_way.is_empty();
            let kept = ring.under_way.values().flat_map(|it| &it.kept);
            is_busy && kept.chain(&reach.pages).any(|it| change.moves(it))
        });
        if is_used {
            Until::AllRings
        } else {
            Until::Now
        }
    }

    /// A message on the table takes effect. Returns whether it could.
    pub(super) fn apply(&mut self, message: &[u8]) -> bool {
        let Some(change) = self.change_of(message) else {
            return false;
        };
        for index in 0..self.rings.rings.len() {
            self.change(index, &change);
        }
        self.tally.evicted += self.behind().table.change(&change);
        if matches!(change, Change::Map(_)) {
            for index in 0..self.rings.rings.len() {
                self.resume(index);
            }
        }
        true
    }

    // What a ring has leads elsewhere from now on. Its next chain is given back.
    fn change(&mut self, index: usize, change: &Change) {
        let reach = self.reach(index);
        let moves = |all: &[Range]| all.iter().any(|it| change.moves(it));
        let is_taken = reach.fetch.as_ref().is_some_and(|it| moves(&it.taken));
        let (has_pages, has_rows) = (moves(&reach.pages), moves(&reach.rows));
        if has_pages {
            reach.is_reached = false;
            reach.pages.clear();
        }
        if has_pages || has_rows {
            reach.rows.clear();
        }
        if has_pages || has_rows || is_taken {
            self.give_back_next(index);
        }
    }

    /// The chain that is being taken is the next one again.
    pub(super) fn give_back_next(&mut self, index: usize) {
        if self.reach(index).fetch.take().is_some() {
            self.tally.dropped += 1;
            self.questions.drop(index);
            self.rings.rings[index].is_notified |= self.rings.rings[index].phase != Phase::Stopped;
        }
    }

    // A ring that waits may go on.
    fn resume(&mut self, index: usize) {
        let fetch = self.reach(index).fetch.as_ref();
        if !fetch.is_some_and(|it| matches!(it.state, State::Waits(..))) {
            return;
        }
        if !self.go_on(index) {
            self.questions.drop(index);
            self.rings.rings[index].is_notified = true;
        }
    }

    /// A ring was stopped. After the last one nothing is known of I/O addresses: the front end does not say what
    /// changes meanwhile.
    pub(super) fn stopped(&mut self) {
        if self.rings.rings.iter().all(|it| it.phase == Phase::Stopped) {
            self.forget_all();
        }
    }

    /// A ring is stopped: nothing is fetched for it.
    pub(super) fn drop_fetch(&mut self, index: usize) {
        if self.behind.is_some() {
            self.reach(index).fetch = None;
            self.questions.drop(index);
        }
    }

    /// All that is known of I/O addresses is forgotten.
    pub(super) fn forget_all(&mut self) {
        let all = Change::Unmap(0, u64::MAX);
        for behind in self.behind.iter_mut().chain(&mut self.aside) {
            behind.table.change(&all);
            for reach in &mut behind.rings {
                reach.is_reached = false;
                reach.pages.clear();
                reach.rows.clear();
            }
        }
        for index in 0..self.rings.rings.len() {
            if self.behind.is_some() {
                self.give_back_next(index);
            }
        }
    }

    // ---- the back end's own channel

    /// A ring asks for what it waits for.
    pub(super) fn want(&mut self, index: usize) {
        if let Some((iova, access)) = self.waits_of(index) {
            self.questions.want((index, iova, access));
        }
    }

    pub(super) fn can_ask(&self) -> bool {
        self.has_channel && self.protocol.protocol_features & REPLY_ACK != 0
    }

    fn waits_of(&self, index: usize) -> Option<(u64, u8)> {
        match self.behind.as_ref()?.rings[index].fetch.as_ref()?.state {
            State::Waits(iova, access) => Some((iova, access)),
            _ => None,
        }
    }

    /// What a ring still waits for does not come.
    pub(super) fn stops(&mut self, index: usize) {
        if let Some(fetch) = &mut self.reach(index).fetch {
            if matches!(fetch.state, State::Waits(..)) {
                fetch.state = State::Stops;
            }
        }
    }

    /// A reply came on the channel, to the first question that has none, or something else. Returns whether that was
    /// due: if not, the connection is over.
    pub fn answered(&mut self, message: &[u8]) -> bool {
        let mut broken = broken_reply(message);
        let is_due = broken.is_empty() && word(message, 0) == 1;
        let Some((index, is_awaited)) = is_due.then(|| self.questions.sent.pop_front()).flatten() else {
            if broken.is_empty() {
                broken.push(Refusal::Direction);
            }
            self.end(Ended::Refused(broken));
            return false;
        };
        if self.waits_of(index).is_some() && is_awaited && long(message, 12) != 0 {
            self.stops(index);
        }
        // It asks again if it still waits.
        self.rings.rings[index].is_notified = true;
        true
    }

    /// The channel is gone, or another one took its place: no answer comes any more.
    pub fn channel_changed(&mut self, has_one: bool) {
        self.has_channel = has_one;
        self.questions = Questions::default();
        for index in 0..self.rings.rings.len() {
            self.rings.rings[index].is_notified |= self.waits_of(index).is_some();
        }
    }

    /// What is asked now. Nothing is while a message is under way.
    pub(super) fn asks(&mut self) -> Option<Miss> {
        if !self.is_free() {
            return None;
        }
        self.questions.take()
    }
}
