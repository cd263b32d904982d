//! A back end beside the slow one: both get the same events, and are to do the same.

mod actions;
mod behind;
mod calm;
mod front;

use super::acts::{Act, Served};
use super::driver::{Bytes, Driver, FILE, PAGE, RINGS, SECTORS};
use super::messages::{self, any_message, Sent, FEATURES, OF_PROTOCOL};
use super::model::{Model, Ran};
use super::space::Space;
use super::watch::{Seen, Watch};
use crate::front_end::*;
use crate::guest::Guest;
use crate::ring::Numbers;
use front::{Counted, Front};
use std::collections::{BTreeSet, VecDeque};
use std::os::fd::OwnedFd;
use vm_memory_proved::back_end::{BackEnd, Disk, PartEnd, Room, State, Way};
use vm_memory_proved::memfd;
use vm_memory_proved::vhost_user::Offer;

const NAME: &[u8; 20] = b"a disk of the tests\0";

/// What happened in all connections.
#[derive(Clone, Copy, Debug, Default)]
pub struct Counts {
    pub events: u64,
    pub connections: u64,
    pub messages: u64,
    pub refused: u64,
    pub tables: u64,
    pub stops: u64,
    pub parts: u64,
    pub failed: u64,
    pub interrupts: u64,
    pub broken: u64,
    pub marks: u64,
    pub waits: u64,
    /// How often the log went on or off, and what a message asked for failed.
    pub logs: u64,
    pub not_done: u64,
    /// The runs, those that ended before a chain was returned, and those that left ends.
    pub runs: u64,
    pub cut: u64,
    pub left: u64,
    pub seen: Seen,
    pub behind: Counted,
}

/// What outlives connections.
pub struct Files {
    files: [OwnedFd; 2],
    guests: [Guest; 2],
    room: Option<Room>,
}

impl Files {
    pub fn new() -> Files {
        let files = [0, 1].map(|_| memfd(FILE).unwrap());
        let guests = [0, 1].map(|i: usize| Guest::of_file(&files[i], FILE as usize));
        // All actions of a run fit.
        let room = Some(Room::with(1 << 14, 1 << 16, 1 << 14));
        Files { files, guests, room }
    }
}

pub struct World<'a> {
    numbers: &'a mut Numbers,
    all: &'a mut Files,
    counts: &'a mut Counts,
    back_end: BackEnd,
    model: Model,
    drivers: [Driver; 2],
    // The messages that come next.
    due: VecDeque<Sent>,
    // A ring is started again after these.
    stopped: [bool; 2],
    is_set_up: bool,
    parts: Vec<Served>,
    // The ends that were not taken.
    ends: Vec<PartEnd>,
    marked: BTreeSet<u64>,
    // The bytes of the log.
    log: Option<u64>,
    watch: Watch,
    is_over: bool,
    features: u64,
    space: Space,
    front: Front,
    // Only what has to come does.
    is_calm: bool,
    state: State,
}

fn offer(limit: u32) -> Offer {
    Offer {
        features: FEATURES | if limit == 0 { 0 } else { ACCESS_PLATFORM },
        protocol_features: OF_PROTOCOL,
        queues: 2,
        max_queue_size: 128,
        writable_from: 0,
        writable_len: 0,
    }
}

fn any_disk(numbers: &mut Numbers, table_limit: u32) -> Disk {
    Disk {
        sectors: SECTORS,
        seg_max: 126,
        size_max: 0x3f00,
        read_only: numbers.one_in(10).into(),
        unread: 300 + numbers.below(4000) as u32,
        table_limit,
    }
}

impl<'a> World<'a> {
    pub fn new(numbers: &'a mut Numbers, all: &'a mut Files, counts: &'a mut Counts) -> World<'a> {
        let (limit, space) = front::any_space(numbers);
        let offer = offer(limit);
        let disk = any_disk(numbers, limit);
        let mut config = [0; 256];
        config[..8].copy_from_slice(&SECTORS.to_le_bytes());
        let features = any_features(numbers) | if limit == 0 { 0 } else { ACCESS_PLATFORM };
        let shift = if space.is_on && numbers.one_in(3) { PAGE / 2 } else { 0 };
        let files = all.guests.each_ref().map(|it| it.read(0, FILE as usize)).to_vec();
        counts.connections += 1;
        counts.behind.connections += u64::from(space.is_on);
        World {
            due: messages::begin(numbers, features).into(),
            back_end: BackEnd::new(&offer, &config, &disk).unwrap(),
            model: Model::new(&offer, &config, &disk, files),
            drivers: any_drivers(numbers, shift, features),
            numbers,
            all,
            counts,
            stopped: [true; 2],
            is_set_up: false,
            parts: Vec::new(),
            ends: Vec::new(),
            marked: BTreeSet::new(),
            log: None,
            watch: Watch::default(),
            is_over: false,
            features,
            space,
            front: Front::new(),
            is_calm: false,
            state: State::Free,
        }
    }

    /// Plays so many events, or fewer if the connection ends before.
    pub fn play(&mut self, events: u64) {
        for _ in 0..events {
            if self.is_over && self.model.is_at_rest() {
                break;
            }
            self.counts.events += 1;
            self.any_event();
            self.settle();
            if self.numbers.one_in(10) {
                self.take_marks();
            }
            if self.numbers.one_in(300) {
                self.calm_down();
            }
        }
        self.calm_down();
        self.counts.seen.add(&self.watch.seen);
        self.counts.behind.tally.add(&self.model.tally);
    }

    // ---- events

    fn any_event(&mut self) {
        let is_free = self.model.can_take();
        if self.space.is_on && self.is_set_up && !self.is_over {
            let many = match (self.front.is_asked(), self.parts.is_empty()) {
                (true, _) => 2,
                (false, false) => 4,
                _ => 8,
            };
            if self.numbers.one_in(many) {
                return self.any_behind();
            }
        }
        match self.numbers.below(100) {
            0..=29 if self.is_set_up && !self.is_over => self.publish(),
            0..=39 if is_free => self.send_message(),
            40..=84 => self.end_parts(),
            85..=89 if !self.is_over => self.kick(),
            90..=92 => self.suppress(),
            93..=95 => {
                let bytes = self.numbers.below(200) as usize;
                self.back_end.sent(bytes);
                self.model.sent(bytes);
            }
            96 if self.numbers.one_in(30) => self.scribble(),
            97 if self.numbers.one_in(10) => self.resize(),
            98 if self.numbers.one_in(20) => {
                self.back_end.hang_up();
                self.model.hang_up();
            }
            99 => self.wrong_end(),
            _ => (),
        }
    }

    fn bytes<'b>(guests: &'b [Guest; 2], model: &'b mut Model, space: &'b Space) -> Bytes<'b> {
        Bytes {
            guests,
            memory: &mut model.memory,
            space,
        }
    }

    fn publish(&mut self) {
        let index = self.numbers.below(2) as usize;
        let mut bytes = World::bytes(&self.all.guests, &mut self.model, &self.space);
        self.drivers[index].take_used(&bytes);
        // Sometimes the ring gets full.
        let fills = self.numbers.one_in(60);
        let count = match fills {
            true => u64::from(self.drivers[index].size),
            false => 1 + self.numbers.below(4),
        };
        for _ in 0..count {
            if let Some(it) = self.drivers[index].publish(&mut bytes, self.numbers, !fills) {
                self.watch.publish(index, it);
            }
            if std::mem::take(&mut self.drivers[index].has_scribbled) {
                self.watch.lose_all();
            }
        }
        if !self.numbers.one_in(8) {
            self.back_end.kick(index as u32);
            self.model.kick(index as u32);
        }
    }

    fn kick(&mut self) {
        let index = self.numbers.below(3) as u32;
        self.back_end.kick(index);
        self.model.kick(index);
    }

    fn suppress(&mut self) {
        let index = self.numbers.below(2) as usize;
        let mut bytes = World::bytes(&self.all.guests, &mut self.model, &self.space);
        self.drivers[index].suppress(&mut bytes, self.numbers);
    }

    // The disk gets another size, or its own again.
    fn resize(&mut self) {
        let sectors = if self.numbers.one_in(2) {
            SECTORS
        } else {
            self.numbers.below(SECTORS)
        };
        self.back_end.resize(sectors);
        self.model.resize(sectors);
    }

    // The guest writes anywhere.
    fn scribble(&mut self) {
        let (index, value) = (self.numbers.below(2) as usize, self.numbers.any());
        let driver = &self.drivers[index];
        let (file, offset) = match self.numbers.one_in(2) {
            true => (driver.file, driver.base + self.numbers.below(PAGE - 8)),
            false => (index, self.numbers.below(FILE - 8)),
        };
        World::bytes(&self.all.guests, &mut self.model, &self.space).put(file, offset, &value.to_le_bytes());
        self.watch.lose_all();
    }

    fn wrong_end(&mut self) {
        let [ring, id] = [3, 20].map(|most| self.numbers.below(most) as u32);
        let is_part = self.parts.iter().any(|it| (it.ring, it.id) == (ring, id));
        if !is_part && !self.ends.iter().any(|it| (it.ring, it.id) == (ring, id)) {
            self.ends.push(PartEnd {
                ring,
                id,
                failed: 0,
                bytes: 1,
            });
        }
    }

    // Some parts end, in any order.
    fn end_parts(&mut self) {
        let most = self.parts.len() as u64;
        let count = if self.is_calm || self.numbers.one_in(3) {
            most
        } else {
            self.numbers.below(most + 1)
        };
        for _ in 0..count {
            let place = match self.numbers.one_in(2) {
                true => 0,
                false => self.numbers.below(self.parts.len() as u64) as usize,
            };
            let part = self.parts.remove(place);
            let failed = !self.is_calm && self.numbers.one_in(20);
            let bytes = if self.numbers.one_in(60) {
                self.numbers.below(1 << 21)
            } else {
                part.len
            };
            if !failed {
                self.move_bytes(&part);
            }
            self.counts.failed += u64::from(failed);
            self.watch.ended(part.ring, part.id);
            self.ends.push(PartEnd {
                ring: part.ring,
                id: part.id,
                failed: failed.into(),
                bytes: bytes as u32,
            });
        }
    }

    // What a part writes to guest memory.
    fn move_bytes(&mut self, part: &Served) {
        let mut done = 0;
        for &(region, offset, len) in &part.pieces {
            let data: Vec<u8> = match part.way {
                Way::Read => (0..len).map(|i| ((part.place + done + i) * 7 % 251) as u8).collect(),
                Way::Name => NAME[done as usize..][..len as usize].to_vec(),
                _ => return,
            };
            let it = self.model.memory.regions[region as usize];
            World::bytes(&self.all.guests, &mut self.model, &self.space).put_there(it.file, it.offset + offset, &data);
            done += len;
        }
    }

    // ---- messages

    fn next_message(&mut self) -> Sent {
        if let Some(sent) = self.due.pop_front() {
            return sent;
        }
        self.is_set_up = true;
        if let Some(index) = self.stopped.iter().position(|it| *it) {
            if self.numbers.one_in(3) {
                let mut bytes = World::bytes(&self.all.guests, &mut self.model, &self.space);
                let base = self.drivers[index].begin(&mut bytes, self.numbers);
                self.watch.begin(index, &self.drivers[index], base);
                self.stopped[index] = false;
                let driver = &self.drivers[index];
                self.due = messages::start(self.numbers, index as u32, driver, &self.space, base, self.features).into();
                return self.due.pop_front().unwrap();
            }
        }
        if self.numbers.one_in(6) {
            let index = self.numbers.below(2) as u32;
            return (message(GET_VRING_BASE, 0, &words(&[index, 0])), 0);
        }
        any_message(self.numbers, &self.drivers, &self.space, self.features)
    }

    fn send_message(&mut self) {
        let sent = self.next_message();
        self.send(sent);
    }

    fn send(&mut self, (message, descriptors): Sent) {
        let is_taken = self.back_end.message(&message, descriptors);
        assert_eq!(is_taken, self.model.message(&message, descriptors));
        self.counts.messages += 1;
        self.counts.waits += u64::from(self.model.is_waiting());
        let request = u32::from_le_bytes(message[..4].try_into().unwrap());
        if request == GET_VRING_BASE {
            if let Some(stopped) = self.stopped.get_mut(message[12] as usize) {
                *stopped = true;
                self.counts.stops += 1;
            }
        }
        if request == SET_FEATURES {
            let features = u64::from_le_bytes(message[12..20].try_into().unwrap());
            self.counts.logs += u64::from((self.features ^ features) & LOG_ALL != 0);
            self.features = features;
        }
        if request == SET_VRING_ADDR && self.space.is_on {
            let [index, flags] = [12, 16].map(|at| u32::from_le_bytes(message[at..at + 4].try_into().unwrap()));
            let [used, log] = [28, 44].map(|at| u64::from_le_bytes(message[at..at + 8].try_into().unwrap()));
            self.watch
                .log(index as usize, Some(log).filter(|log| flags == 1 && *log != used));
        }
        self.hear(&message);
        // None is taken while one is under way.
        if !self.model.can_take() && self.numbers.one_in(10) {
            assert!(!self.back_end.message(&message, descriptors));
        }
    }

    // ---- runs

    // Both do what follows.
    fn settle(&mut self) {
        for run in 0.. {
            assert!(run < 10_000, "it does not come to rest");
            let (acts, has_more) = self.run();
            self.expect_order(&acts, has_more);
            let is_asked = self.perform(&acts);
            if !is_asked && !has_more {
                // A message waits for the ends of parts alone.
                assert!(self.state != State::Busy || !self.parts.is_empty() || !self.ends.is_empty());
                return;
            }
            if run < 5 && !is_asked && !self.is_calm && self.numbers.one_in(4) {
                // The guest does not wait.
                self.any_event();
            }
        }
    }

    // How many pages have a bit in the log, if writes are logged.
    fn bits(&self) -> Option<u64> {
        let is_on = self.back_end.features() & LOG_ALL != 0;
        self.log.filter(|_| is_on).map(|bytes| bytes.saturating_mul(8))
    }

    // Both run. Returns what is to be done, and whether another run is due.
    fn run(&mut self) -> (Vec<Act>, bool) {
        let turns = self.numbers.below(4) as u32;
        let bits = self.bits();
        self.watch.hear(self.front.said(&self.space));
        self.watch.before((&self.all.guests, &self.space), bits, FILE);
        let mut room = self.all.room.take().unwrap();
        self.back_end.run(&self.ends, turns, &mut room);
        let (acts, marks) = self.acts_of(&room);
        let wanted = self.model.run(&self.ends, turns);
        for chain in &self.model.popped {
            self.watch.popped(chain);
        }
        let bits = self.bits();
        self.watch.after((&self.all.guests, &self.space), bits, &marks);
        if self.model.can_take() {
            self.watch.settled();
        }
        self.marked.extend(marks);
        let ran = Ran {
            acts,
            ends_taken: room.ends_taken(),
            has_more: room.has_more(),
            state: room.state(),
        };
        self.all.room = Some(room);
        assert_eq!(ran, wanted);
        self.compare();
        self.ends.drain(..ran.ends_taken);
        self.counts.runs += 1;
        self.counts.left += u64::from(!self.ends.is_empty());
        self.counts.cut += u64::from(self.model.is_cut());
        self.state = ran.state;
        self.heard();
        (ran.acts, ran.has_more)
    }

    // All bytes and all marks are the same.
    fn compare(&mut self) {
        for (number, guest) in self.all.guests.iter().enumerate() {
            let (bytes, wanted) = (guest.read(0, FILE as usize), self.model.memory.file(number));
            if bytes != wanted {
                let places: Vec<_> = (0..FILE as usize).filter(|at| bytes[*at] != wanted[*at]).collect();
                let of = |at: usize| format!("{at:#x}: {:#x}, not {:#x}", bytes[at], wanted[at]);
                let found: Vec<_> = places.iter().take(40).map(|at| of(*at)).collect();
                panic!("{} bytes of file {number} are others: {found:?}", places.len());
            }
        }
        if self.model.has_many {
            assert!(self.model.marked.is_subset(&self.marked));
        } else {
            assert_eq!(self.model.marked, self.marked);
        }
    }

    // The front end takes what is marked.
    fn take_marks(&mut self) {
        self.model.marked.clear();
        self.marked.clear();
        self.watch.forget();
        self.model.has_many = false;
    }
}

// The drivers of both rings.
fn any_drivers(numbers: &mut Numbers, shift: u64, features: u64) -> [Driver; 2] {
    let mut drivers = [0, 1].map(|index| any_driver(numbers, index, shift, features));
    let is_free = |(file, page): &(usize, u64)| {
        let is_apart = |it: &Driver| it.file != *file || page + PAGE <= it.base || it.base + PAGE <= *page;
        drivers.iter().all(is_apart)
    };
    let mut pages = (0..2).flat_map(|file| (0..RINGS / PAGE).map(move |page| (file, PAGE * page)));
    let spare = pages.find(is_free).expect("there are more pages than two rings have");
    drivers.iter_mut().for_each(|it| it.spare = spare);
    drivers
}

// The driver of a ring, which lies anywhere.
fn any_driver(numbers: &mut Numbers, index: u64, shift: u64, features: u64) -> Driver {
    let (is_packed, event_idx) = (features & RING_PACKED != 0, features & EVENT_IDX != 0);
    let base = match shift {
        0 => PAGE * (index + 2 * numbers.below(2)),
        _ => PAGE * index + shift,
    };
    let file = numbers.below(2) as usize;
    // A few have more entries than a turn has chains.
    let size = match (is_packed, numbers.one_in(6)) {
        (true, false) => 1 + numbers.below(16) as u16,
        (true, true) => 1 + numbers.below(128) as u16,
        (false, false) => 1 << numbers.below(5),
        (false, true) => 1 << (5 + numbers.below(3)),
    };
    Driver::new(file, base, size, is_packed, event_idx)
}

// What a driver accepts.
fn any_features(numbers: &mut Numbers) -> u64 {
    let mut features = PROTOCOL_FEATURES | VERSION_1 | INDIRECT_DESC;
    for bit in [FLUSH, EVENT_IDX, LOG_ALL, RING_PACKED, 1 << 1, 1 << 2] {
        features |= if numbers.one_in(2) { bit } else { 0 };
    }
    features
}
