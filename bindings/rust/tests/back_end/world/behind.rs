//! Events behind an IOMMU: the front end says what I/O addresses lead to, replies to what it is asked, takes mappings
//! back, and loses the channel.

use super::super::driver::RINGS;
use super::super::messages::Sent;
use super::super::space::SMALL;
use super::super::table::Range;
use super::front::Swap;
use super::World;
use crate::front_end::*;

impl World<'_> {
    /// Something that happens only behind an IOMMU.
    pub(super) fn any_behind(&mut self) {
        let is_free = self.model.can_take();
        if is_free && !self.front.has_channel && self.due.is_empty() && self.numbers.one_in(6) {
            return self.send((message(SET_BACKEND_REQ_FD, 0, &[]), 1));
        }
        match self.numbers.below(100) {
            // The front end reads, and replies to the first question, mostly if it was answered.
            0..=39 => self.reply(),
            40..=89 if is_free && self.is_unanswered() => self.answer_asked(),
            40..=79 if is_free && !self.parts.is_empty() => self.take_back_used(),
            80..=89 if is_free && self.space.grain == SMALL && self.numbers.one_in(10) => self.say_all(),
            90..=96 if is_free => self.change_table(),
            97 if self.numbers.one_in(60) => self.wrong_reply(),
            98 if self.numbers.one_in(10) => self.lose_channel(),
            // For some time it does not reply.
            99 if self.numbers.one_in(4) => self.front.is_silent = !self.front.is_silent,
            _ => (),
        }
    }

    fn change_table(&mut self) {
        let sent = self.table_message();
        self.send(sent);
    }

    // A question is answered, and its reply comes at once, soon, or later.
    fn answer_asked(&mut self) {
        self.change_table();
        match self.numbers.below(3) {
            0 => self.reply(),
            1 => {
                self.settle();
                self.reply();
            }
            _ => (),
        }
    }

    // What is under way is mostly concerned.
    fn take_back_used(&mut self) {
        let sent = match self.numbers.below(4) {
            0 => self.table_message(),
            1 => self.move_frames(),
            _ => self.invalidate(),
        };
        self.send(sent);
    }

    fn lose_channel(&mut self) {
        self.counts.behind.channels += 1;
        self.front.asked.clear();
        self.front.has_channel = false;
        self.back_end.channel_lost();
        self.model.channel_changed(false);
    }

    fn is_unanswered(&self) -> bool {
        self.front.moving.is_some() || self.front.asked.iter().any(|it| !it.is_mapped)
    }

    // Whether the guest maps an address.
    fn is_mapped(&self, iova: u64) -> bool {
        let found = self.space.find(iova).map(|(number, _)| number);
        found.is_some_and(|it| self.space.frames[it].access != 0 && self.front.room(self.space.user(it)) > 0)
    }

    fn reply(&mut self) {
        self.back_end.sent(40);
        self.model.sent(40);
        if self.front.is_silent {
            return;
        }
        while let Some(it) = self.front.asked.front().copied() {
            let value = match it.is_mapped {
                true => u64::from(self.numbers.one_in(200)),
                false if !self.is_mapped(it.iova) => {
                    self.counts.behind.unmapped += 1;
                    u64::from(!self.numbers.one_in(8))
                }
                false if self.numbers.one_in(60) => u64::from(self.numbers.one_in(4)),
                false => return,
            };
            self.counts.behind.refused += u64::from(value != 0);
            self.reply_with(value);
        }
    }

    pub(super) fn reply_with(&mut self, value: u64) {
        self.front.asked.pop_front();
        let bytes = reply(1, &longs(&[value]));
        assert!(self.back_end.answered(&bytes));
        assert!(self.model.answered(&bytes));
    }

    // A reply to nothing, or none at all.
    fn wrong_reply(&mut self) {
        let bytes = match self.numbers.below(3) {
            _ if self.front.asked.is_empty() => reply(1, &longs(&[0])),
            0 => message(1, 0, &longs(&[0])),
            1 => reply(1, &words(&[0])),
            _ => reply(2, &longs(&[0])),
        };
        assert!(!self.back_end.answered(&bytes));
        assert!(!self.model.answered(&bytes));
    }

    fn take_back(&self, number: usize) -> Sent {
        let payload = iotlb(self.space.start(number), self.space.grain, 0, 0, 3);
        (message(IOTLB_MSG, NEED_REPLY, &payload), 0)
    }

    // A message on the table.
    fn table_message(&mut self) -> Sent {
        if let Some(swap) = self.front.moving.take() {
            self.front.swap = Some(swap);
            return self.take_back(swap.other);
        }
        let place = self.front.asked.iter().position(|it| !it.is_mapped);
        if let Some(place) = place.filter(|_| !self.numbers.one_in(12)) {
            if let Some(sent) = self.answer_to(place) {
                return sent;
            }
        }
        match self.numbers.below(20) {
            0..=6 => {
                let number = self.any_number();
                match self.update(number, 0) {
                    Some(sent) => sent,
                    None => self.invalidate(),
                }
            }
            7 => self.forbid(),
            8 | 9 => self.move_frames(),
            10 if self.numbers.one_in(40) => self.wrong_update(),
            _ => self.invalidate(),
        }
    }

    fn any_number(&mut self) -> usize {
        self.numbers.below(self.space.frames.len() as u64) as usize
    }

    fn any_start(&mut self) -> u64 {
        let number = self.any_number();
        self.space.start(number)
    }

    // An UPDATE that covers what a question asks for, if the guest maps that.
    fn answer_to(&mut self, place: usize) -> Option<Sent> {
        let it = self.front.asked[place];
        let (number, offset) = self.space.find(it.iova)?;
        let sent = self.update(number, offset)?;
        self.front.asked[place].is_mapped = true;
        Some(sent)
    }

    // An UPDATE that covers a byte of a frame, and more or less of it, if the guest maps that.
    fn update(&mut self, number: usize, offset: u64) -> Option<Sent> {
        let frame = self.space.frames[number];
        let (start, user) = (self.space.start(number), self.space.user(number));
        let most = self.space.run(number).min(self.front.room(user));
        if frame.access == 0 || most <= offset {
            return None;
        }
        let grain = self.space.grain;
        let (from, len) = match self.numbers.below(12) {
            // From the address on, up to the end of the frame, or a few bytes.
            0 => (offset, grain - offset),
            1 => (offset, 1 + self.numbers.below(grain - offset)),
            2 => (offset, 1 + self.numbers.below(64)),
            // Neighbours, too.
            3..=5 => (0, most),
            6 => (0, grain * (1 + self.numbers.below(most.div_ceil(grain)))),
            _ => (0, grain),
        };
        let len = len.min(most - from);
        let asks = if self.numbers.one_in(3) { NEED_REPLY } else { 0 };
        self.front.moving = None;
        self.counts.behind.updates += 1;
        let payload = iotlb(start + from, len, user + from, frame.access, 2);
        Some((message(IOTLB_MSG, asks, &payload), 0))
    }

    // All is said, so that nothing is missed.
    fn say_all(&mut self) {
        for number in 0..self.space.frames.len() {
            let (user, grain) = (self.space.user(number), self.space.grain);
            let is_mapped = self.space.frames[number].access == 3 && self.front.room(user) >= grain;
            if !is_mapped || !self.model.can_take() {
                return;
            }
            self.front.moving = None;
            let payload = iotlb(self.space.start(number), grain, user, 3, 2);
            self.send((message(IOTLB_MSG, 0, &payload), 0));
            self.settle_alone();
        }
        self.space.is_said = true;
        for _ in 0..3 {
            self.publish();
            self.settle_alone();
        }
    }

    // An INVALIDATE: of all, of a range, or of some that is in use or half taken.
    fn invalidate(&mut self) -> Sent {
        let (from, len) = match self.numbers.below(10) {
            0 => (0, 0),
            1 => {
                let number = self.any_number();
                let iova = self.space.start(number);
                (iova, 1 + self.numbers.below(3 * self.space.grain))
            }
            2..=3 => (self.any_start(), self.space.grain),
            _ => match self.used() {
                Some(it) if self.numbers.one_in(2) => (it.iova, it.len),
                Some(it) => (it.iova + self.numbers.below(it.len), 1),
                None => (self.any_start(), self.space.grain),
            },
        };
        self.counts.behind.invalidates += 1;
        let asks = if self.numbers.one_in(2) { NEED_REPLY } else { 0 };
        (message(IOTLB_MSG, asks, &iotlb(from, len, 0, 0, 3)), 0)
    }

    // A range that a request under way, a ring, or a chain that is being taken has.
    fn used(&mut self) -> Option<Range> {
        let behind = self.model.behind.as_ref()?;
        let rings = self.model.rings.rings.iter();
        let kept = rings.flat_map(|it| it.under_way.values()).flat_map(|it| &it.kept);
        let taken = behind.rings.iter().flat_map(|it| &it.fetch).flat_map(|it| &it.taken);
        let all: Vec<Range> = match self.numbers.below(4) {
            0 | 1 => kept.copied().collect(),
            2 => taken.copied().collect(),
            _ => behind.rings.iter().flat_map(|it| it.all()).copied().collect(),
        };
        let count = all.len() as u64;
        (count > 0).then(|| all[self.numbers.below(count) as usize])
    }

    // A frame that mostly has data, and no ring.
    fn any_data(&mut self) -> usize {
        loop {
            let number = self.any_number();
            if self.space.offset(number) >= RINGS || self.numbers.one_in(60) {
                return number;
            }
        }
    }

    // The guest permits something else from now on, and takes back what it permitted.
    fn forbid(&mut self) -> Sent {
        let is_calm = self.numbers.one_in(2);
        let forbidden = self.space.frames.iter().position(|it| it.access != 3);
        let (number, access) = match forbidden.filter(|_| is_calm) {
            Some(number) => (number, 3),
            None => (self.any_data(), self.numbers.below(3) as u8),
        };
        self.space.frames[number].access = access;
        if self.numbers.one_in(3) {
            if let Some(sent) = self.update(number, 0) {
                return sent;
            }
        }
        self.take_back(number)
    }

    // Two frames change places: mostly they are taken back first.
    fn move_frames(&mut self) -> Sent {
        if self.numbers.one_in(3) {
            // It says where one leads now, and takes nothing back before.
            let used = self.used().and_then(|it| self.space.find(it.iova));
            let is_data = |it: &usize| self.space.offset(*it) >= RINGS;
            let used = used.map(|it| it.0).filter(is_data).filter(|_| !self.numbers.one_in(4));
            let (one, other) = (used.unwrap_or_else(|| self.any_data()), self.any_data());
            let has_bytes = false;
            self.swap(Swap { one, other, has_bytes });
            return self.update(one, 0).unwrap_or_else(|| self.take_back(one));
        }
        let [one, other] = [0, 1].map(|_| self.any_number());
        let has_bytes = true;
        self.front.moving = Some(Swap { one, other, has_bytes });
        self.take_back(one)
    }

    // An UPDATE that no back end can do.
    fn wrong_update(&mut self) -> Sent {
        let start = self.any_start();
        let payload = match self.numbers.below(4) {
            0 => iotlb(start, 0x1000, 0x1234_5000, 3, 2),
            1 => iotlb(start, 0x1000, self.space.user(0), 0, 2),
            2 => iotlb(start, 0, self.space.user(0), 3, 2),
            _ => iotlb(start | 1, 0, 0, 0, 3),
        };
        (message(IOTLB_MSG, NEED_REPLY, &payload), 0)
    }
}
