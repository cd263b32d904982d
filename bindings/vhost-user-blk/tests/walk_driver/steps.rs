//! The steps of a walk.

use super::dirty::Log;
use super::link::{connect, counter};
use super::request::MOST;
use super::walk::{Walk, RINGS};
use crate::front_end::*;
use std::os::fd::AsRawFd;
use std::time::Instant;

impl Walk {
    /// Goes so many steps, as long as there is time, and looks at everything at the end.
    pub fn go(&mut self, steps: u64, until: Option<Instant>) {
        for step in 0..steps {
            if until.is_some_and(|until| Instant::now() > until) {
                break;
            }
            let kind = self.numbers.below(48);
            if std::env::var_os("WALKS_SAY").is_some() {
                println!("step {step}: {kind}");
            }
            self.step(kind);
        }
        self.calm();
        if let Some(faults) = &self.faults {
            // A sync fails once, and then none succeeds.
            faults.fail_sync();
            self.model.sync_failed = true;
            self.model.syncs = 0;
            for index in 0..RINGS {
                self.publish(index, 40, 2048);
            }
            self.settle();
            self.check();
        }
    }

    fn step(&mut self, kind: u64) {
        let index = self.numbers.below(RINGS as u64) as usize;
        match kind {
            0..=7 => self.publish_few(index),
            8..=10 => self.publish_many(index),
            11..=13 => self.publish_long(index),
            14..=17 => {
                self.settle();
                self.quiet();
            }
            18..=20 => self.stop_or_start(index),
            21..=23 => self.turn(index),
            24 => self.new_table(),
            25 => self.plug(),
            26 => self.empty_table(),
            27..=29 => self.change_log(),
            30 => self.invalidate(),
            31..=33 => self.hold(),
            34 => self.hold_one_ring(index),
            35 => self.release(),
            36 => self.renew(index),
            37 => self.leave(),
            38 => self.reset(),
            39 => self.collect(),
            40 => self.publish_slowly(index),
            41 => self.long_and(index, |walk| walk.plug()),
            42 => self.long_and(index, |walk| walk.new_table()),
            43 => self.long_and(index, |walk| walk.turn(index)),
            44 => self.long_and(index, |walk| walk.stop_or_start(index)),
            45 => self.long_and(index, |walk| walk.leave()),
            46 => self.long_and(index, |walk| walk.change_log()),
            _ => self.pump(),
        }
    }

    // If the device has nothing that it could do, everything is compared.
    fn quiet(&mut self) {
        let has_work = |it: usize| self.is_active(it) && self.rings[it].ring.pending() > 0;
        if self.is_held() || !(0..RINGS).any(has_work) {
            self.check();
        }
    }

    // All rings run, and nothing is out.
    fn calm(&mut self) {
        self.release();
        if !self.has_memory {
            self.set_memory();
        }
        for index in 0..RINGS {
            if !self.rings[index].is_started {
                self.start_ring(index);
            }
            if !self.rings[index].is_enabled {
                self.enable(index, true);
            }
        }
        self.settle();
        self.check();
    }

    fn publish_few(&mut self, index: usize) {
        let count = 1 + self.numbers.below(8) as usize;
        self.publish(index, count, 8 << 10);
        if !self.numbers.one_in(8) && self.rings[index].is_started {
            self.kick(index);
        }
    }

    fn publish_many(&mut self, index: usize) {
        let count = 60 + self.numbers.below(140) as usize;
        self.publish(index, count, 4 << 10);
        if self.rings[index].is_started {
            self.kick(index);
        }
    }

    fn publish_long(&mut self, index: usize) {
        let count = 1 + self.numbers.below(4) as usize;
        self.publish(index, count, MOST);
        if self.rings[index].is_started {
            self.kick(index);
        }
    }

    // One after another, each with its notification.
    fn publish_slowly(&mut self, index: usize) {
        for _ in 0..6 {
            self.publish(index, 1, 1024);
            if self.rings[index].is_started {
                self.kick(index);
            }
            if self.numbers.one_in(2) {
                self.settle_rest();
            }
        }
    }

    // In the middle of long requests something else happens.
    fn long_and(&mut self, index: usize, step: impl Fn(&mut Walk)) {
        self.publish_long(index);
        self.publish_many(index);
        self.pump();
        step(self);
        if self.numbers.one_in(2) {
            self.settle_rest();
            self.quiet();
        }
    }

    fn stop_or_start(&mut self, index: usize) {
        if self.rings[index].is_started {
            return self.stop_ring(index);
        }
        self.start_ring(index);
    }

    fn turn(&mut self, index: usize) {
        let is_enabled = !self.rings[index].is_enabled;
        self.enable(index, is_enabled);
    }

    // ---- memory

    // No ring is served in `step`.
    fn alone(&mut self, step: impl Fn(&mut Walk)) {
        let enabled: Vec<usize> = (0..RINGS).filter(|&it| self.rings[it].is_enabled).collect();
        enabled.iter().for_each(|&index| self.enable(index, false));
        // What is under way comes back.
        self.served.rest();
        self.harvest_all();
        step(self);
        if self.numbers.one_in(2) {
            self.check();
        }
        enabled.iter().for_each(|&index| self.enable(index, true));
    }

    // Some of memory lies in other files or in other places of them.
    fn new_table(&mut self) {
        self.alone(|walk| {
            match walk.places.is_translated && walk.numbers.one_in(3) {
                // The same memory lies elsewhere for the front end.
                true => walk.memory.rotate(),
                false => walk.memory.shuffle(&mut walk.numbers),
            }
            walk.set_memory();
            walk.memory.spoil();
        });
    }

    // There is more memory, or less, while the rings run.
    fn plug(&mut self) {
        if self.memory.regions.len() < 8 && self.has_memory {
            self.is_plugged = !self.is_plugged;
            self.set_memory();
        }
    }

    // There is none for a while.
    fn empty_table(&mut self) {
        if !self.has_memory {
            return;
        }
        self.link.set_memory(&mut self.numbers, &[]);
        self.io.iter_mut().for_each(|io| io.set_memory(false));
        self.has_memory = false;
        self.harvest_all();
        let index = self.numbers.below(RINGS as u64) as usize;
        match self.numbers.below(4) {
            0 => self.publish_few(index),
            1 => self.turn(index),
            2 => self.stop_or_start(index),
            _ => (),
        }
        self.rest();
        assert_eq!(self.harvest_all(), 0, "requests are served without memory");
        if self.numbers.one_in(2) {
            self.check();
        }
        if self.numbers.one_in(2) {
            self.memory.shuffle(&mut self.numbers);
            self.memory.spoil();
        }
        self.set_memory();
    }

    // ---- the log

    fn change_log(&mut self) {
        match self.numbers.below(3) {
            _ if self.log.is_none() => self.begin_log(),
            0 => self.end_log(),
            1 => self.tell_log(),
            _ => self.next_log(),
        }
    }

    // Has the back end take the log that is there.
    fn share_log(&mut self) {
        let log = Log::new(&mut self.numbers, self.memory.end(), self.log_call.take());
        let payload = longs(&[log.size, log.offset]);
        let reply = self
            .link
            .inquire(&mut self.numbers, SET_LOG_BASE, &payload, &[log.file.as_raw_fd()]);
        assert!(reply.is_empty() || reply == payload);
        self.log = Some(log);
    }

    // While a log is there its features and addresses say so.
    fn agree_on_log(&mut self) {
        let bit = if self.log.is_some() { LOG_ALL } else { 0 };
        self.features = self.features & !LOG_ALL | bit;
        let features = self.features.to_le_bytes();
        self.link.order(&mut self.numbers, SET_FEATURES, &features, &[]);
        for index in 0..RINGS {
            let addresses = self.addresses(index);
            self.link.order(&mut self.numbers, SET_VRING_ADDR, &addresses, &[]);
        }
    }

    fn begin_log(&mut self) {
        if self.numbers.one_in(2) {
            self.settle_rest();
        }
        self.share_log();
        self.agree_on_log();
        self.harvest_all();
        self.link.catch_up(&mut self.numbers);
        self.follow();
    }

    // What is out when a log ends may be marked there, or in none.
    fn leave_log(&mut self) -> Log {
        self.unfollow();
        let marks = self.allow_all();
        self.forget_log();
        let mut log = self.log.take().expect("there is a log");
        log.allow(&marks);
        // It tells of new bits in the next log.
        self.log_call = log.take_call();
        log
    }

    fn end_log(&mut self) {
        self.settle_rest();
        let mut log = self.leave_log();
        self.agree_on_log();
        self.link.catch_up(&mut self.numbers);
        log.check(&Default::default());
        self.keep_old(log);
    }

    fn next_log(&mut self) {
        self.settle_rest();
        let mut log = self.leave_log();
        self.share_log();
        self.harvest_all();
        self.link.catch_up(&mut self.numbers);
        log.check(&Default::default());
        self.keep_old(log);
        self.follow();
    }

    fn keep_old(&mut self, log: Log) {
        self.old_logs.push(log);
        if self.old_logs.len() > 2 {
            self.old_logs.remove(0);
        }
    }

    // From now on new bits are told.
    fn tell_log(&mut self) {
        self.settle();
        self.check();
        let log = self.log.as_mut().expect("there is a log");
        log.set_call(counter(&mut self.numbers));
        let call = log.call.as_ref().unwrap().as_raw_fd();
        self.link.order(&mut self.numbers, SET_LOG_FD, &[], &[call]);
        self.check();
    }

    fn collect(&mut self) {
        self.log.iter_mut().for_each(Log::collect);
    }

    // ---- the I/O table

    fn invalidate(&mut self) {
        let Some(io) = &mut self.io else {
            return;
        };
        if self.numbers.one_in(3) {
            return io.invalidate_all(&mut self.link, &mut self.numbers);
        }
        let pages: Vec<u64> = io.pages.keys().copied().collect();
        for _ in 0..10 {
            let iova = self.numbers.of(&pages);
            io.invalidate(&mut self.link, &mut self.numbers, iova, super::PAGE);
        }
    }

    // The next mapping does not come for a while.
    fn hold(&mut self) {
        let Some(io) = self.io.as_mut().filter(|_| self.is_roomy) else {
            return;
        };
        io.holds = true;
        if self.numbers.one_in(2) {
            self.invalidate();
        }
        self.settle_rest();
        self.quiet();
    }

    // A ring waits and is then stopped or disabled, and the other one is served meanwhile.
    fn hold_one_ring(&mut self, index: usize) {
        self.hold();
        self.publish_few(index);
        self.settle_rest();
        let Some(waiting) = self.waiting().filter(|&it| self.is_active(it)) else {
            return;
        };
        if self.numbers.one_in(2) {
            self.enable(waiting, false);
        } else {
            self.stop_ring(waiting);
        }
        let other = RINGS - 1 - waiting;
        self.publish_few(other);
        self.publish_few(waiting);
        self.settle_rest();
        self.quiet();
    }

    // ---- connections

    fn renew(&mut self, index: usize) {
        if self.numbers.one_in(2) {
            return self.renew_call(index);
        }
        if !self.rings[index].is_started {
            return;
        }
        let it = &mut self.rings[index];
        it.ring.kick = counter(&mut self.numbers);
        it.is_polled = false;
        let kick = Some(&it.ring.kick);
        self.link.set_notifier(&mut self.numbers, SET_VRING_KICK, index, kick);
    }

    // The front end goes, maybe in the middle of a message, and comes back.
    fn leave(&mut self) {
        if self.numbers.one_in(3) {
            let bytes = message(SET_FEATURES, 0, &[0; 8]);
            let count = 1 + self.numbers.below(bytes.len() as u64 - 1) as usize;
            send(&self.link.socket, &bytes[..count], &[]);
        }
        if self.model.has_refused {
            self.served.rest();
        }
        let log = self.log.is_some().then(|| self.leave_log());
        self.features &= !LOG_ALL;
        self.log_call = None;
        self.link = connect(&self.served);
        self.negotiate();
        self.harvest_all();
        self.leave_begun();
        for it in &mut self.rings {
            (it.is_started, it.is_enabled) = (false, false);
            // What came back last may have been told to nobody.
            (it.armed, it.is_due) = (None, false);
        }
        if let Some(mut log) = log {
            log.check(&Default::default());
            self.keep_old(log);
        }
        if self.numbers.one_in(3) {
            self.check();
        }
        if self.numbers.one_in(2) {
            self.memory.shuffle(&mut self.numbers);
        }
        self.memory.spoil();
        self.set_memory();
        match self.numbers.one_in(2) {
            true => (0..RINGS).for_each(|index| self.start_ring(index)),
            false => self.begin_again(),
        }
    }

    // The driver begins again, with other features and rings, on the same connection.
    fn reset(&mut self) {
        self.release();
        (0..RINGS).for_each(|index| self.enable(index, false));
        // Nothing is asked for any more when the last ring stops, which takes all mappings back.
        self.rest();
        let started: Vec<usize> = (0..RINGS).filter(|&it| self.rings[it].is_started).collect();
        started.iter().for_each(|&index| self.stop_ring(index));
        if let Some(io) = self.io.as_mut().filter(|_| started.is_empty()) {
            io.invalidate_all(&mut self.link, &mut self.numbers);
        }
        if self.log.is_some() {
            self.end_log();
        }
        self.begin_again();
    }

    fn begin_again(&mut self) {
        self.abandon();
        let had = self.features;
        self.draw_features();
        self.features &= had | INDIRECT_DESC | EVENT_IDX | RING_PACKED;
        let features = self.features.to_le_bytes();
        self.link.order(&mut self.numbers, SET_FEATURES, &features, &[]);
        self.make_rings();
        (0..RINGS).for_each(|index| self.start_ring(index));
        // The first request is given back.
        match self.numbers.below(5) {
            0 | 1 => self.hold_one_ring(0),
            2 => self.long_and(1, |walk| walk.turn(1)),
            3 => self.long_and(0, |walk| walk.plug()),
            _ => (),
        }
        if self.has_memory {
            self.settle();
            self.check();
        }
    }
}
