//! Runs of the slow back end: what is to be done, one thing after another, and the events that come when all is done.

use super::super::acts::{add_piece, Act, Served};
use super::super::queue::{Broken, DeviceQueue, Popped};
use super::super::rings::{parts_of, Todo, UnderWay, PART};
use super::{side, Ended, Model, Outcome, Placing, PoppedChain, Ran, Ready, Work};
use crate::disk;
use crate::front_end::*;
use crate::slow::{total, Image, Segment};
use vm_memory_proved::back_end::{PartEnd, Way};
use vm_memory_proved::block::{DeviceLimits, Request};
use vm_memory_proved::vhost_user::Vring;

impl Model {
    /// What is to be done by what came before, by the ends of parts, and by kicks, and then in so many turns of rings.
    /// It ends before a chain is returned if pages were marked: what they were marked for was not done before.
    pub fn run(&mut self, ends: &[PartEnd], mut turns: u32) -> Ran {
        self.has_marked = false;
        self.popped.clear();
        let mut left = ends.iter();
        let is_cut = loop {
            if matches!(self.work.front(), Some(Work::Publish(..))) && self.has_marked {
                break true;
            }
            if let Some(work) = self.work.pop_front() {
                self.do_one(work);
            } else if !self.say() && !self.next_event(&mut left, &mut turns) {
                break false;
            }
        };
        let ends_left = left.len();
        Ran {
            acts: std::mem::take(&mut self.acts),
            ends_taken: ends.len() - ends_left,
            has_more: is_cut || ends_left > 0 || self.rings.has_next(),
            state: self.state(),
        }
    }

    // A part that has no memory, an end, a kick, a step of the turn, or a new one. Returns whether there was one.
    fn next_event(&mut self, ends: &mut std::slice::Iter<'_, PartEnd>, turns: &mut u32) -> bool {
        if let Some((index, id)) = self.lost.take() {
            self.part_ended(index, id, None);
            return true;
        }
        if let Some(end) = ends.next() {
            let moved = (end.failed == 0).then_some(end.bytes.into());
            if let Ok(id) = u16::try_from(end.id) {
                self.part_ended(end.ring as usize, id, moved);
            }
            return true;
        }
        if let Some(index) = self.rings.rings.iter().position(|it| it.is_notified) {
            self.rings.rings[index].is_notified = false;
            self.rings.kick(index);
            return true;
        }
        if let Some(index) = self.rings.may_pop() {
            self.pop(index);
            return true;
        }
        if *turns == 0 || !self.rings.has_next() {
            return false;
        }
        *turns -= 1;
        let (index, todo) = self.rings.take_turn();
        self.follow(index, todo);
        true
    }

    fn part_ended(&mut self, index: usize, id: u16, moved: Option<u64>) {
        let todo = self.rings.ended(index, id, moved);
        self.follow(index, todo);
    }

    // ---- what follows from an event

    // This is to be done for a ring, before what is left from before.
    pub(super) fn follow(&mut self, index: usize, todo: Vec<Todo>) {
        let mut work = Vec::new();
        if !todo.is_empty() {
            work.extend(self.placed(index));
        }
        work.extend(todo.into_iter().map(|it| Work::Do(index, it)));
        work.extend(self.outcome().map(Work::Message));
        work.push(Work::Break(index));
        for it in work.into_iter().rev() {
            self.work.push_front(it);
        }
    }

    // The queue of a ring is told where that lies, if it was not.
    fn placed(&mut self, index: usize) -> Option<Work> {
        let placing = std::mem::replace(&mut self.placing[index], Placing::Placed);
        let vring = self.protocol.running(index as u32).ok()?;
        match placing {
            Placing::Placed => None,
            Placing::Moved => Some(Work::Place(index, vring, false)),
            Placing::Fresh => Some(Work::Place(index, vring, true)),
        }
    }

    fn do_one(&mut self, work: Work) {
        match work {
            Work::Place(index, vring, is_fresh) => self.place(index, &vring, is_fresh),
            Work::Do(index, todo) => self.carry_out(index, todo),
            Work::Publish(index, ready) => self.publish(index, ready),
            Work::Message(Outcome::Begins) => self.work.push_back(Work::Begin),
            Work::Message(Outcome::Refused(refusals, reply)) => {
                self.reply = reply;
                self.end(Ended::Refused(refusals));
            }
            Work::Break(index) => {
                if std::mem::take(&mut self.is_broken) {
                    let todo = self.rings.breaks(index);
                    self.follow(index, todo);
                }
            }
            Work::Begin => self.begin(),
        }
    }

    // Where a ring lies now. If that is where it was, it stays as it is.
    fn place(&mut self, index: usize, vring: &Vring, is_fresh: bool) {
        let features = self.protocol.features;
        let parts = [vring.descriptor, vring.available, vring.used];
        // Without an IOMMU its writes are logged where they are made.
        let log = vring.log.filter(|_| features & ACCESS_PLATFORM != 0);
        let ring = &mut self.rings.rings[index];
        let placed = match (&ring.queue, is_fresh) {
            (None, false) => return,
            (Some(queue), false) if queue.parts == parts && ring.log == log => return,
            (Some(queue), false) => queue.moved(parts),
            _ => {
                let (is_packed, event_idx) = (features & RING_PACKED != 0, features & EVENT_IDX != 0);
                ring.is_unread = true;
                DeviceQueue::new(is_packed, vring.size, vring.base, parts, event_idx)
            }
        };
        match placed {
            Some(queue) => {
                (ring.queue, ring.log) = (Some(queue), log);
                self.lies_elsewhere(index);
            }
            None => self.is_broken = true,
        }
    }

    /// A ring reads in its first turn where it returns chains. Returns whether it could.
    pub(super) fn read_place(&mut self, index: usize) -> bool {
        let is_read = !std::mem::take(&mut self.rings.rings[index].is_unread);
        let read = |queue: &mut DeviceQueue, image: &mut Image| queue.read_place(image);
        is_read || matches!(self.on_queue(index, read), Some(Ok(())))
    }

    fn carry_out(&mut self, index: usize, todo: Todo) {
        match todo {
            Todo::Pop => (),
            Todo::Serve(id) => self.serve(index, id),
            Todo::Return(id, it, failed) => self.give_back(index, id, it, failed),
            Todo::Notify => self.notify(index),
            Todo::Broke => self.acts.push(Act::Broke(index as u32)),
            Todo::Stopped => {
                self.acts.push(Act::Stopped(index as u32));
                self.stopped();
            }
        }
    }

    // A chain is popped, or the driver is asked to notify and the ring looked at once more.
    fn pop(&mut self, index: usize) {
        if self.behind.is_some() {
            let todo = self.pop_behind(index);
            return self.follow(index, todo);
        }
        let is_read = self.read_place(index);
        let image = self.memory.image();
        let mut wrote = Vec::new();
        let found = match &mut self.rings.rings[index].queue {
            Some(queue) if is_read => match queue.pop(image) {
                Ok(None) => match queue.ask(image) {
                    Ok((true, places)) => {
                        wrote = places;
                        queue.pop(image)
                    }
                    Ok((false, places)) => {
                        wrote = places;
                        Ok(None)
                    }
                    Err(error) => Err(error),
                },
                found => found,
            },
            _ => Err(Broken::default()),
        };
        self.mark(&wrote);
        let todo = match found {
            Ok(Some(chain)) => self.popped(index, chain),
            Ok(None) => {
                self.rings.emptied(index);
                Vec::new()
            }
            Err(_) => self.rings.breaks(index),
        };
        self.follow(index, todo);
    }

    fn popped(&mut self, index: usize, chain: Popped) -> Vec<Todo> {
        let is_under_way = self.rings.rings[index].under_way.contains_key(&chain.id);
        if usize::from(chain.id) >= self.ids || is_under_way {
            return self.rings.breaks(index);
        }
        self.popped.push(PoppedChain {
            ring: index,
            id: chain.id,
            read: side(&chain.segments, false),
            written: side(&chain.segments, true),
            lands: side(&chain.segments, true),
            is_whole: true,
        });
        let limits = self.limits();
        let request = match chain.segments.len() > self.ids {
            true => Request::Refused { status: 1 },
            false => disk::asked(self.memory.image(), &chain.segments, limits),
        };
        let it = UnderWay::new(chain.slots, chain.segments, request);
        self.rings.popped(index, chain.id, it)
    }

    pub(super) fn limits(&self) -> DeviceLimits {
        let features = self.protocol.features;
        let of = |bit: u64, limit: u32| (features & bit != 0).then_some(limit);
        DeviceLimits {
            sectors: self.disk.sectors,
            read_only: self.disk.read_only != 0,
            acked: features,
            seg_max: of(1 << 2, self.disk.seg_max),
            size_max: of(1 << 1, self.disk.size_max),
        }
    }

    // ---- requests

    // Serves a part. If bytes of it have no memory, it fails.
    fn serve(&mut self, index: usize, id: u16) {
        let it = &self.rings.rings[index].under_way[&id];
        let all = parts_of(&it.request);
        let from = PART * (all - it.left);
        let part = |len: usize| PART.min((len as u64).saturating_sub(from));
        let (way, place, len) = match it.request {
            Request::Read { sector, len } => (Way::Read, 512 * sector + from, part(len)),
            Request::Write { flush: true, .. } if it.left == 1 => (Way::Flush, 0, 0),
            Request::Write { sector, len, .. } => (Way::Write, 512 * sector + from, part(len)),
            Request::GetId { len } => (Way::Name, 0, len as u64),
            _ => (Way::Flush, 0, 0),
        };
        let (is_written, skipped) = match way {
            Way::Write => (false, 16 + from),
            _ => (true, from),
        };
        let Some(pieces) = self.pieces(&it.segments, is_written, skipped, len) else {
            self.lost = Some((index, id));
            return;
        };
        let served = Served {
            ring: index as u32,
            id: id.into(),
            way,
            place,
            len,
            pieces,
            left: it.left - 1,
        };
        self.acts.push(Act::Serve(served));
    }

    // Where bytes of a chain lie, if all of them have memory.
    fn pieces(&self, segments: &[Segment], is_written: bool, from: u64, len: u64) -> Option<Vec<(u64, u64, u64)>> {
        let (mut skipped, mut left, mut pieces) = (from, len, Vec::new());
        for it in segments.iter().filter(|it| it.is_written == is_written) {
            let start = skipped.min(it.len);
            skipped -= start;
            let (mut address, mut count) = (it.addr + start, left.min(it.len - start));
            left -= count;
            while count > 0 {
                let (region, offset) = self.memory.place(address)?;
                let here = count.min(self.memory.regions[region as usize].len - offset);
                add_piece(&mut pieces, region, offset, here);
                (address, count) = (address + here, count - here);
            }
        }
        Some(pieces)
    }

    // Ends a request: its status is written, and what it may have changed is marked.
    fn give_back(&mut self, index: usize, id: u16, it: UnderWay, failed: bool) {
        let status = match it.request {
            Request::Refused { status } => status,
            Request::Unserved => 1,
            _ => u8::from(failed),
        };
        let moved = match it.request {
            // No more than there is room for.
            Request::Read { .. } | Request::GetId { .. } => it.moved.min(total(&it.segments, true).saturating_sub(1)),
            _ => 0,
        };
        let image = self.memory.image();
        let len = disk::finished(image, &it.segments, status, moved as usize);
        // As if the last writable byte came after those before it.
        let len = if it.has_more { 0 } else { len };
        let chain = side(&it.segments, true);
        self.has_many |= chain.len() > 40;
        self.mark(&chain);
        let slots = it.slots;
        self.work.push_front(Work::Publish(index, Ready { id, slots, len }));
    }

    // Returns a chain whose request was ended.
    fn publish(&mut self, index: usize, it: Ready) {
        let wrote = self.on_queue(index, |queue, image| queue.give_back(image, it.id, it.slots, it.len));
        self.mark_ring(index, &wrote.expect("it popped the chain"));
    }

    // The driver is interrupted, unless it asks not to be. It is if that cannot be read.
    fn notify(&mut self, index: usize) {
        let is_wanted = self.on_queue(index, |queue, image| queue.wants_interrupt(image));
        if !matches!(is_wanted, Some(Ok(false))) {
            self.acts.push(Act::Interrupt(index as u32));
        }
    }

    // ---- the log

    pub(super) fn has_bits(&self, address: u64, len: u64) -> bool {
        self.logged.is_none_or(|pages| (address + (len - 1)) / 4096 < pages)
    }

    pub(super) fn mark(&mut self, places: &[(u64, u64)]) {
        let pages = self.logged.unwrap_or(0);
        for &(address, len) in places.iter().filter(|it| it.1 > 0) {
            let last = address.saturating_add(len - 1) / 4096;
            let range = address / 4096..(last + 1).min(pages);
            self.has_marked |= !range.is_empty();
            self.marked.extend(range);
        }
    }
}
