//! From time to time a front end that answers everything: then all that was published is served.

use super::super::messages::Sent;
use super::super::rings::Phase;
use super::World;
use crate::front_end::*;

impl World<'_> {
    /// From now on each question is answered, parts end, and nothing else comes: then each chain is returned.
    pub(super) fn calm_down(&mut self) {
        if !self.space.is_on || !self.is_set_up || self.is_over {
            return;
        }
        self.is_calm = true;
        self.rest();
        while let Some(sent) = self.due.pop_front() {
            self.send_calmly(sent);
        }
        self.space.frames.iter_mut().for_each(|it| it.access = 3);
        self.send_calmly((message(IOTLB_MSG, NEED_REPLY, &iotlb(0, 0, 0, 0, 3)), 0));
        if !self.front.has_channel {
            self.send_calmly((message(SET_BACKEND_REQ_FD, 0, &[]), 1));
        }
        for index in 0..2 {
            self.send_calmly((message(SET_VRING_ENABLE, 0, &words(&[index, 1])), 0));
        }
        for index in 0..2 {
            self.back_end.kick(index);
            self.model.kick(index);
        }
        self.rest();
        self.expect_all_served();
        self.is_calm = false;
    }

    fn send_calmly(&mut self, sent: Sent) {
        if !self.is_over {
            assert!(self.model.can_take(), "a message waits, and nothing is under way");
            self.send(sent);
            self.rest();
        }
    }

    // All parts end, and all questions are answered.
    fn rest(&mut self) {
        for round in 0.. {
            assert!(round < 100_000, "it does not go on");
            self.settle();
            self.back_end.sent(1 << 16);
            self.model.sent(1 << 16);
            if !self.parts.is_empty() {
                self.end_parts();
            } else if self.is_over || self.front.asked.is_empty() {
                return;
            } else {
                assert!(self.model.can_take(), "a message waits, and nothing is under way");
                self.answer_calmly();
            }
        }
    }

    fn answer_calmly(&mut self) {
        self.counts.behind.answers += 1;
        let it = self.front.asked[0];
        let found = self.space.find(it.iova).filter(|_| !it.is_mapped);
        let user = found.map(|(number, _)| self.space.user(number));
        match found.zip(user) {
            Some(((number, offset), user))
                if self.front.room(user) > offset && self.space.frames[number].access != 0 =>
            {
                let len = self.space.run(number).min(self.front.room(user));
                let payload = iotlb(self.space.start(number), len, user, self.space.frames[number].access, 2);
                self.front.asked[0].is_mapped = true;
                self.front.moving = None;
                self.send((message(IOTLB_MSG, 0, &payload), 0));
            }
            _ => self.reply_with(u64::from(!it.is_mapped)),
        }
    }

    fn expect_all_served(&mut self) {
        if self.is_over {
            return;
        }
        let Some(behind) = &self.model.behind else { return };
        self.counts.behind.calms += 1;
        for (index, ring) in self.model.rings.rings.iter().enumerate() {
            if ring.phase != Phase::Started || !ring.enabled {
                continue;
            }
            assert!(!ring.kicked && ring.under_way.is_empty() && behind.rings[index].fetch.is_none());
            assert!(
                self.watch.is_served(index),
                "ring {index} has chains that were not returned"
            );
        }
    }
}
