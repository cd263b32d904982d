//! A back end over guest memory and a region that are there, whose requests end when the test says so.

use super::driver::{AVAIL, DESC, USED};
use super::watch::Watch;
use super::{Case, Shared, RAM};
use crate::protocol::*;
use std::collections::VecDeque;
use std::fs;
use std::os::fd::AsFd;
use std::os::unix::fs::MetadataExt;
use vm_memory_proved::back_end::{Action, BackEnd, Disk, PartEnd, Room, State, Way};
use vm_memory_proved::vhost_user::Offer;

const USER: u64 = 0x7f00_0000_0000;
const FEATURES: u64 = INDIRECT_DESC | PROTOCOL_FEATURES | VERSION_1;

pub struct Machine {
    back_end: BackEnd,
    room: Room,
    ring: u32,
    ends: Vec<PartEnd>,
    /// The ids and the sectors of the requests that are under way, in the order in which they were served.
    pub under_way: VecDeque<(u32, u64)>,
    /// The sectors of all that were.
    pub served: Vec<u64>,
    pub interrupts: usize,
    // Where its mappings lie.
    at: [usize; 2],
    has_more: bool,
}

/// The messages by which a front end starts a back end with a ring.
pub fn messages(case: &Case, base: u32) -> VecDeque<(Vec<u8>, usize)> {
    let of = |request, payload: &[u8], descriptors| (message(request, 0, payload), descriptors);
    let events = if case.event_idx { EVENT_IDX } else { 0 };
    let packed = if case.is_packed { RING_PACKED } else { 0 };
    let two = |number: u32| words(&[case.ring, number]);
    let size = case.part() as u64 * u64::from(case.rings);
    let place = |part: usize| USER + part as u64;
    let parts = [place(DESC), place(USED), place(AVAIL), 0];
    let protocol = MQ | REPLY_ACK | INFLIGHT_SHMFD;
    VecDeque::from([
        of(SET_PROTOCOL_FEATURES, &longs(&[protocol]), 0),
        of(SET_FEATURES, &longs(&[FEATURES | events | packed]), 0),
        of(SET_INFLIGHT_FD, &inflight(size, 0, case.rings, case.descriptors), 1),
        of(SET_MEM_TABLE, &table(&[[0, RAM as u64, USER, 0]]), 1),
        of(SET_VRING_NUM, &two(case.size.into()), 0),
        of(SET_VRING_BASE, &two(base), 0),
        of(SET_VRING_ADDR, &addresses(case.ring, 0, parts), 0),
        of(SET_VRING_CALL, &longs(&[case.ring.into()]), 1),
        of(SET_VRING_KICK, &longs(&[case.ring.into()]), 1),
        of(SET_VRING_ENABLE, &two(1), 0),
    ])
}

// Where this process has a file mapped, beside a place that is known.
fn mapping_of(file: impl AsFd, known: usize) -> usize {
    let file = fs::File::from(file.as_fd().try_clone_to_owned().unwrap());
    let inode = file.metadata().unwrap().ino().to_string();
    let maps = fs::read_to_string("/proc/self/maps").unwrap();
    let of = |line: &str| {
        let mut fields = line.split_ascii_whitespace();
        let (range, inode) = (fields.next()?, fields.nth(3)?);
        let start = usize::from_str_radix(range.split_once('-')?.0, 16).ok()?;
        Some((start, inode.to_owned()))
    };
    let all = maps.lines().filter_map(of);
    let mut found = all.filter(|(start, other)| *other == inode && *start != known);
    let (start, _) = found.next().expect("it is mapped");
    assert!(found.next().is_none(), "it is mapped twice");
    start
}

impl Machine {
    pub fn new(case: &Case) -> Machine {
        let offer = Offer {
            features: FEATURES | EVENT_IDX | FLUSH | RING_PACKED,
            protocol_features: MQ | REPLY_ACK | INFLIGHT_SHMFD,
            queues: case.rings.into(),
            max_queue_size: 16,
            ..Offer::default()
        };
        let disk = Disk {
            sectors: 1 << 40,
            unread: 4096,
            ..Disk::default()
        };
        Machine {
            back_end: BackEnd::new(&offer, &[0; 8], &disk).unwrap(),
            room: Room::with(64, 256, 4096),
            ring: case.ring,
            ends: Vec::new(),
            under_way: VecDeque::new(),
            served: Vec::new(),
            interrupts: 0,
            at: [0; 2],
            has_more: false,
        }
    }

    pub fn message(&mut self, message: &[u8], descriptors: usize) {
        assert!(self.back_end.message(message, descriptors));
        self.has_more = true;
    }

    pub fn kick(&mut self) {
        self.back_end.kick(self.ring);
        self.has_more = true;
    }

    /// A request ends that is under way.
    pub fn end(&mut self, place: usize) {
        let (id, _) = self.under_way.remove(place).unwrap();
        self.ends.push(PartEnd {
            ring: self.ring,
            id,
            failed: 0,
            bytes: super::driver::LEN,
        });
        self.has_more = true;
    }

    /// Whether another run may do something.
    pub fn is_due(&self) -> bool {
        self.has_more
    }

    /// Runs once, and does what is asked for. Returns what a crash leaves before each store, if that is watched.
    pub fn run(&mut self, shared: &Shared, watch: Option<&mut Watch>) -> Vec<Vec<u8>> {
        let ends = std::mem::take(&mut self.ends);
        let mut run = || self.back_end.run(&ends, 1, &mut self.room);
        let images = match watch {
            // Nothing is mapped before that.
            Some(watch) if self.at != [0; 2] => watch.during(self.at, [&shared.ram, &shared.region], run),
            _ => {
                run();
                Vec::new()
            }
        };
        self.ends = ends[self.room.ends_taken()..].to_vec();
        self.has_more = self.room.has_more() || !self.ends.is_empty();
        self.act(shared);
        self.has_more |= self.room.state() != State::Free;
        images
    }

    fn act(&mut self, shared: &Shared) {
        for action in self.room.actions() {
            match action {
                Action::Send { bytes } => self.back_end.sent(bytes.len()),
                Action::UnmapAll => (),
                Action::Map(region) => self.back_end.map(&region, shared.files[0].as_fd()).unwrap(),
                Action::Region { offset, len } => {
                    self.back_end.track(offset, len, shared.files[1].as_fd()).unwrap();
                    self.back_end.done();
                }
                Action::Keep { .. } => self.back_end.done(),
                Action::Serve(part) => {
                    assert_eq!((part.way, part.ring, part.len), (Way::Read, self.ring, 512));
                    assert_eq!((part.goes_on, part.left, part.place % 512), (false, 0, 0));
                    self.under_way.push_back((part.id, part.place / 512));
                    self.served.push(part.place / 512);
                }
                Action::Interrupt(ring) => {
                    assert_eq!(ring, self.ring);
                    self.interrupts += 1;
                }
                other => panic!("{other:?}"),
            }
        }
    }

    /// Has what it stores be watched from now on.
    pub fn show(&mut self, shared: &Shared) {
        let (ram, _) = self.back_end.region(0).expect("guest memory is mapped");
        self.at = [ram as usize, mapping_of(&shared.files[1], shared.region.at() as usize)];
    }
}
