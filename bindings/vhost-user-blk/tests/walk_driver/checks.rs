//! What has to hold whenever the device is quiet.

use super::dirty::Log;
use super::link::counter;
use super::patience;
use super::request::Marks;
use super::walk::{Walk, RINGS};
use crate::front_end::{take, wait, SET_VRING_CALL};
use std::collections::BTreeSet;
use std::fs;
use std::os::fd::AsRawFd;

impl Walk {
    // The device does all that it can do.
    pub fn rest(&mut self) {
        let mut rounds = 0;
        for _ in 0..60 {
            let before = self.io.as_ref().map(|io| io.misses);
            self.pump();
            self.link.catch_up(&mut self.numbers);
            self.pump();
            rounds = if self.io.as_ref().map(|io| io.misses) == before {
                rounds + 1
            } else {
                0
            };
            if rounds == 2 {
                return;
            }
        }
        panic!("the device asks without end");
    }

    /// Compares everything. The device is quiet.
    pub fn check(&mut self) {
        let mut now = BTreeSet::new();
        self.rest();
        // A ring that does not run ends what is under way.
        self.served.rest();
        for index in 0..RINGS {
            self.harvest(index);
            let it = &mut self.rings[index];
            assert_eq!(take(&it.ring.err), 0, "ring {index} failed");
            if it.is_due {
                assert!(take(&it.ring.call) > 0, "ring {index} has no interrupt");
                self.disarm(index);
            }
            let [descriptors, _, device] = &self.rings[index].ring.parts;
            now.extend(device.pages(0, device.len()));
            if self.rings[index].ring.shape.is_packed {
                now.extend(descriptors.pages(0, descriptors.len()));
            }
        }
        self.compare();
        self.log.iter_mut().for_each(|log| log.check(&now));
        self.old_logs.iter_mut().for_each(Log::check_at_rest);
    }

    fn compare(&mut self) {
        // A ring that runs is looked at now and then, and asks for notifications meanwhile.
        let free: Vec<u64> = self.rings.iter().flat_map(|it| it.ring.suppression()).collect();
        self.memory.check(&free);
        let image = fs::read(&self.served.image).unwrap();
        self.model.check(&image);
        if let Some(faults) = &self.faults {
            let (syncs, wanted) = (faults.syncs(), self.model.syncs);
            assert!(syncs >= wanted, "{syncs} syncs, and there have to be {wanted}");
        }
    }

    /// Requests that are out are not followed in the log any more: they may have been written before it.
    pub fn unfollow(&mut self) {
        let is_busy = !self.is_held() && (0..RINGS).any(|it| self.is_active(it));
        for it in &mut self.rings {
            let many = if is_busy { it.sent.len() } else { 1 };
            it.sent.iter_mut().take(many).for_each(|sent| sent.is_logged = false);
        }
    }

    pub fn forget_log(&mut self) {
        self.rings
            .iter_mut()
            .for_each(|it| it.sent.iter_mut().for_each(|sent| sent.is_logged = false));
    }

    /// Those that are out and were not begun are followed from now on.
    pub fn follow(&mut self) {
        self.rings
            .iter_mut()
            .for_each(|it| it.sent.iter_mut().for_each(|sent| sent.is_logged = true));
        self.unfollow();
    }

    /// All that is out may be marked, or not.
    pub fn allow_all(&mut self) -> Marks {
        let mut marks = Marks::default();
        for it in &self.rings {
            for sent in &it.sent {
                marks.may.extend(sent.request.pages_of(&self.model));
            }
            for part in &it.ring.parts {
                marks.may.extend(part.pages(0, part.len()));
            }
        }
        marks
    }

    pub fn renew_call(&mut self, index: usize) {
        let it = &mut self.rings[index];
        let (link, numbers) = (&mut self.link, &mut self.numbers);
        it.ring.call = counter(numbers);
        link.set_notifier(numbers, SET_VRING_CALL, index, Some(&it.ring.call));
        // An interrupt of before may have gone to the old one.
        let is_told = wait(&[it.ring.call.as_raw_fd()], patience()) && take(&it.ring.call) > 0;
        assert!(is_told, "a new descriptor of calls is not signalled");
        self.disarm(index);
    }
}
