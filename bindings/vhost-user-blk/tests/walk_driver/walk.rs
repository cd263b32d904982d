//! A walk: the front end, its driver and the model, and what has to hold whenever the device is quiet.

use super::dirty::Log;
use super::iommu::{Iommu, READ, WRITE};
use super::link::{connect, start};
use super::memory::{Memory, Region};
use super::request::{Area, Draw, Model, Request, BROKEN, SECTOR};
use super::ring::{parts_of, Ring, Shape};
use super::stream::{Places, Stream};
use super::{patience, Numbers};
use crate::front_end::*;
use std::collections::VecDeque;
use std::fs::File;
use std::io::Write;
use std::os::fd::{AsRawFd, OwnedFd};
use std::os::unix::net::UnixStream;
use std::time::{Duration, Instant};

const SECTORS: u64 = 8192;
const ROOMY: &str = "65536";
const NAME: &str = "disk.img";
pub const RINGS: usize = 2;

// A request that the device has, and whether all of its writes have to be in the log.
pub struct Sent {
    pub request: Request,
    pub is_logged: bool,
}

/// A ring and what its driver knows.
pub struct Driven {
    pub ring: Ring,
    pub sent: VecDeque<Sent>,
    pub is_started: bool,
    pub is_enabled: bool,
    /// The device looks without being told.
    pub is_polled: bool,
    // The driver looks without being interrupted.
    looks: bool,
    // An interrupt is asked for after so many more chains.
    pub armed: Option<usize>,
    // It has to have come.
    pub is_due: bool,
    area: Area,
}

pub struct Walk {
    pub numbers: Numbers,
    pub served: Program,
    pub link: Link,
    pub memory: Memory,
    pub places: Places,
    pub io: Option<Iommu>,
    pub model: Model,
    pub rings: Vec<Driven>,
    pub log: Option<Log>,
    pub old_logs: Vec<Log>,
    /// What the back end tells new bits by, if there is no log now.
    pub log_call: Option<OwnedFd>,
    pub features: u64,
    pub has_memory: bool,
    /// The disk fails.
    pub faults: Option<Faults>,
    pub is_plugged: bool,
    /// The table of I/O addresses has room for all of them.
    pub is_roomy: bool,
    // Mappings are taken back at once.
    is_strict: bool,
    // What is still mapped for nobody.
    stale: Vec<Stream>,
    /// How many requests came back.
    pub served_requests: u64,
}

impl Walk {
    /// A program, and a front end that has started its rings.
    pub fn start(name: &str, seed: u64) -> Walk {
        let mut numbers = Numbers(seed);
        let disk = numbers.bytes(SECTORS as usize * SECTOR);
        let is_translated = seed % 2 == 1;
        let limit = numbers.of(&["8", "16", "64", ROOMY, ROOMY, ROOMY]);
        let is_write_through = numbers.one_in(5);
        let mut words = vec!["--queues", "2"];
        // Some drivers refuse ACCESS_PLATFORM.
        let has_iommu = is_translated || seed % 6 == 4;
        if has_iommu {
            words.extend(["--iommu", "--iotlb-limit", limit]);
        }
        if is_write_through {
            words.push("--write-through");
        }
        let folder = Program::prepare_with(name, &disk);
        let bad_from = (SECTORS - BROKEN) * SECTOR as u64;
        let faults = if numbers.one_in(3) {
            Faults::new(&folder, bad_from)
        } else {
            None
        };
        println!("{words:?}, with faults: {}", faults.is_some());
        let served = start(&folder, &words, faults.as_ref());
        let memory = Memory::new(seed / 2 % 2 == 1);
        let link = connect(&served);
        let mut walk = Walk {
            places: Places::new(&memory, is_translated),
            io: None,
            model: Model {
                is_translated,
                has_refused: numbers.one_in(2),
                is_write_through,
                ..Model::new(disk, NAME)
            },
            is_roomy: limit == ROOMY,
            is_strict: numbers.one_in(2),
            numbers,
            served,
            link,
            memory,
            rings: Vec::new(),
            log: None,
            old_logs: Vec::new(),
            log_call: None,
            features: 0,
            has_memory: false,
            faults,
            is_plugged: false,
            stale: Vec::new(),
            served_requests: 0,
        };
        walk.draw_features();
        walk.negotiate();
        walk.set_memory();
        walk.make_rings();
        (0..RINGS).for_each(|index| walk.start_ring(index));
        walk
    }

    pub fn draw_features(&mut self) {
        let numbers = &mut self.numbers;
        let mut features = PROTOCOL_FEATURES | VERSION_1 | BLK_MQ | FLUSH;
        for feature in [INDIRECT_DESC, EVENT_IDX, RING_PACKED] {
            features |= if numbers.one_in(2) { feature } else { 0 };
        }
        if self.places.is_translated {
            features |= ACCESS_PLATFORM;
        }
        self.features = features;
    }

    /// What a connection begins with.
    pub fn negotiate(&mut self) {
        let (link, numbers) = (&mut self.link, &mut self.numbers);
        let offered = link.inquire_u64(numbers, GET_FEATURES);
        self.features &= offered;
        let protocol = link.inquire_u64(numbers, GET_PROTOCOL_FEATURES);
        link.order(numbers, SET_PROTOCOL_FEATURES, &protocol.to_le_bytes(), &[]);
        link.order(numbers, SET_OWNER, &[], &[]);
        link.order(numbers, SET_FEATURES, &self.features.to_le_bytes(), &[]);
        assert!(link.inquire_u64(numbers, GET_QUEUE_NUM) >= RINGS as u64);
        self.has_memory = false;
        if !self.places.is_translated {
            return;
        }
        let (mine, other) = UnixStream::pair().unwrap();
        narrow(&mine);
        link.order(numbers, SET_BACKEND_REQ_FD, &[], &[other.as_raw_fd()]);
        match &mut self.io {
            Some(io) => io.renew(mine),
            None => self.io = Some(Iommu::new(mine)),
        }
    }

    pub fn set_memory(&mut self) {
        let mut regions: Vec<&Region> = self.memory.regions.iter().collect();
        if self.is_plugged {
            regions.push(&self.memory.extra);
        }
        self.link.set_memory(&mut self.numbers, &regions);
        self.io.iter_mut().for_each(|io| io.set_memory(true));
        self.has_memory = true;
    }

    /// New rings, whose parts lie anywhere.
    pub fn make_rings(&mut self) {
        let shape = Shape {
            size: 0,
            is_packed: self.features & RING_PACKED != 0,
            event_idx: self.features & EVENT_IDX != 0,
        };
        self.rings.clear();
        for index in 0..RINGS as u64 {
            let size = self.numbers.of(&[16, 256, 256, 1024]);
            let ring = self.make_ring(Shape { size, ..shape });
            let half = (SECTORS - BROKEN) / RINGS as u64;
            let area = Area {
                first: index * half,
                sectors: half / 4 * 3 - 8,
                spare: half / 4,
            };
            self.rings.push(Driven {
                ring,
                sent: VecDeque::new(),
                is_started: false,
                is_enabled: false,
                is_polled: false,
                looks: false,
                armed: None,
                is_due: false,
                area,
            });
        }
    }

    fn make_ring(&mut self, shape: Shape) -> Ring {
        let access = if shape.is_packed { READ | WRITE } else { READ };
        let parts = [access, READ, READ | WRITE].into_iter().zip(parts_of(shape));
        let parts: Vec<Stream> = parts
            .map(|(access, (len, align))| self.part(len, (access, align)))
            .collect();
        let parts = parts.try_into().expect("there are three");
        Ring::new(shape, parts, &mut self.memory, &mut self.numbers)
    }

    // A part of a ring. User addresses of it have to be one region's.
    fn part(&mut self, len: usize, how: (u8, u64)) -> Stream {
        loop {
            let part = self.places.stream(&mut self.numbers, &mut self.io, &[len], how);
            let part = part.expect("there is room for a ring");
            if self.places.is_translated || self.memory.is_in_one(part.spot(0), len) {
                return part;
            }
            self.places.give(&mut self.io, &part);
        }
    }

    /// The payload of a SET_VRING_ADDR.
    pub fn addresses(&self, index: usize) -> Vec<u8> {
        let [descriptors, driver, device] = &self.rings[index].ring.parts;
        let at = |part: &Stream| match self.places.is_translated {
            true => part.pieces[0].0,
            false => self.memory.user(part.spot(0)),
        };
        let mut payload = words(&[index as u32, self.log.is_some().into()]);
        payload.extend(longs(&[at(descriptors), at(device), at(driver), device.pieces[0].0]));
        payload
    }

    /// Starts a ring where it goes on.
    pub fn start_ring(&mut self, index: usize) {
        let two = |number: u32| words(&[index as u32, number]);
        let (size, base) = (self.rings[index].ring.shape.size, self.rings[index].ring.base());
        let addresses = self.addresses(index);
        let (link, numbers, it) = (&mut self.link, &mut self.numbers, &mut self.rings[index]);
        it.is_polled = numbers.one_in(6);
        let mut orders = [
            (SET_VRING_NUM, two(size.into())),
            (SET_VRING_BASE, two(base)),
            (SET_VRING_ADDR, addresses),
        ];
        numbers.mix(&mut orders);
        for (request, payload) in orders {
            link.order(numbers, request, &payload, &[]);
        }
        link.set_notifier(numbers, SET_VRING_ERR, index, Some(&it.ring.err));
        link.set_notifier(numbers, SET_VRING_CALL, index, Some(&it.ring.call));
        let kick = Some(&it.ring.kick).filter(|_| !it.is_polled);
        link.set_notifier(numbers, SET_VRING_KICK, index, kick);
        (it.is_started, it.armed, it.is_due) = (true, None, false);
        if !it.is_enabled && !numbers.one_in(8) {
            self.enable(index, true);
        }
    }

    pub fn enable(&mut self, index: usize, is_enabled: bool) {
        let payload = words(&[index as u32, is_enabled.into()]);
        self.link.order(&mut self.numbers, SET_VRING_ENABLE, &payload, &[]);
        self.rings[index].is_enabled = is_enabled;
    }

    /// Stops a ring. It has to go on after what came back.
    pub fn stop_ring(&mut self, index: usize) {
        let payload = words(&[index as u32, 0]);
        let reply = self.link.inquire(&mut self.numbers, GET_VRING_BASE, &payload, &[]);
        self.rings[index].is_started = false;
        if self.rings.iter().all(|it| !it.is_started) {
            self.io.iter_mut().for_each(Iommu::forget);
        }
        self.harvest(index);
        let base = self.rings[index].ring.base();
        assert_eq!(reply, words(&[index as u32, base]), "where ring {index} goes on");
    }

    /// Whether the device serves a ring.
    pub fn is_active(&self, index: usize) -> bool {
        self.rings[index].is_started && self.rings[index].is_enabled && self.has_memory
    }

    /// The ring whose mapping is held back.
    pub fn waiting(&self) -> Option<usize> {
        self.io.as_ref()?.held().map(|it| it.ring)
    }

    // Whether a ring can do nothing before the reply to its MISS comes. It reads chains in order, and for the next one
    // it lacks a page.
    fn is_stuck(&self, index: usize) -> bool {
        let it = &self.rings[index];
        let next = it.sent.front().into_iter().flat_map(|sent| sent.request.streams());
        let mut streams = it.ring.parts.iter().chain(next);
        let has_asked = |io: &&Iommu| io.has_asked(index);
        let io = self.io.as_ref().filter(has_asked);
        io.is_some_and(|io| streams.any(|stream| io.lacks(stream)))
    }

    /// Whether the device can do nothing for its rings before a mapping comes.
    pub fn is_held(&self) -> bool {
        let out = self.out();
        self.waiting().is_some() && !out.is_empty() && out.iter().all(|&it| self.is_stuck(it)) && self.served.is_idle()
    }

    /// Answers what the device asks for.
    pub fn pump(&mut self) {
        let Some(io) = &mut self.io else {
            return;
        };
        let has = |it: &Driven, iova: u64| {
            let streams = it.sent.iter().flat_map(|sent| sent.request.streams());
            it.ring.parts.iter().chain(streams).any(|stream| stream.has(iova))
        };
        io.take_misses(|iova| self.rings.iter().position(|it| has(it, iova)));
        io.serve(&mut self.link, &mut self.numbers, &self.memory);
    }

    pub fn release(&mut self) {
        if let Some(io) = &mut self.io {
            io.release(&mut self.link, &mut self.numbers, &self.memory);
        }
        self.pump();
    }

    // ---- requests

    /// Publishes so many requests of at most so many bytes, as far as there is room.
    pub fn publish(&mut self, index: usize, count: usize, bytes: usize) {
        self.ask_first(index);
        for _ in 0..count {
            let it = &mut self.rings[index];
            let room = it.ring.room();
            let indirect = room > 0 && self.features & INDIRECT_DESC != 0 && self.numbers.one_in(2);
            let most = self.numbers.of(&[6, 6, 12, 60]);
            let pieces = if indirect { most } else { most.min(room) };
            if pieces < 3 {
                return;
            }
            let mut draw = Draw {
                numbers: &mut self.numbers,
                places: &mut self.places,
                io: &mut self.io,
                shape: it.ring.shape,
                pieces,
                indirect,
                area: it.area,
                bytes,
                sectors: SECTORS,
                has_flush: self.features & FLUSH != 0,
                has_faults: self.faults.is_some(),
                has_refused: self.model.has_refused,
            };
            let Some(request) = draw.request(&mut self.memory) else {
                return self.forget_stale();
            };
            let rows = request.rows();
            let table = request.table.as_ref().map(|table| table.pieces[0]);
            assert!(table.is_some() || rows.len() <= room);
            it.ring.publish(&mut self.memory, &rows, table);
            let is_logged = self.log.is_some();
            it.sent.push_back(Sent { request, is_logged });
        }
    }

    // If nothing is out, the driver may ask for an interrupt when the next chain comes back.
    fn ask_first(&mut self, index: usize) {
        let it = &mut self.rings[index];
        if it.ring.pending() == 0 && it.armed.is_none() && !it.is_due && self.numbers.one_in(2) {
            it.ring.ask_interrupt(&mut self.memory, Some(0));
            it.armed = Some(0);
        }
    }

    /// Notifies the device if it asks for that.
    pub fn kick(&mut self, index: usize) {
        let it = &mut self.rings[index];
        if it.ring.wants_kick(&self.memory) {
            File::from(it.ring.kick.try_clone().unwrap())
                .write_all(&1_u64.to_ne_bytes())
                .unwrap();
        }
    }

    /// Takes what came back, and says how many that were.
    pub fn harvest(&mut self, index: usize) -> usize {
        let mut count = 0;
        while let Some((place, len, wrote)) = self.rings[index].ring.take(&mut self.memory) {
            count += 1;
            let it = &mut self.rings[index];
            let sent = it.sent.remove(place).expect("as many as there are chains");
            if place > 0 {
                let what = sent.request.what;
                let may_come = self.model.has_refused && sent.request.is_refused();
                assert!(may_come, "{what:?} comes back early");
                (it.armed, it.is_due) = (None, false);
            }
            let mut marks = sent.request.finish(len, &mut self.memory, &mut self.model);
            for (part, at, len) in wrote {
                marks.must.extend(it.ring.parts[part].pages(at, len));
            }
            match &mut self.log {
                Some(log) if sent.is_logged => log.add(&marks),
                Some(log) => log.allow(&marks),
                None => (),
            }
            self.unmap(&sent.request);
        }
        self.served_requests += count as u64;
        let it = &mut self.rings[index];
        if let Some(after) = it.armed {
            it.is_due |= count > after;
            it.armed = Some(after.saturating_sub(count));
        }
        count
    }

    pub fn harvest_all(&mut self) -> usize {
        (0..RINGS).map(|index| self.harvest(index)).sum()
    }

    // Takes back what a request had: at once, or with others.
    fn unmap(&mut self, request: &Request) {
        for stream in request.streams() {
            if self.io.is_some() && !self.is_strict {
                self.stale.push(stream.clone());
                continue;
            }
            for &(iova, len) in stream.mapped() {
                let io = self.io.as_mut().expect("it has I/O addresses");
                io.invalidate(&mut self.link, &mut self.numbers, iova, len);
            }
            self.places.give(&mut self.io, stream);
        }
        if self.stale.len() > 400 {
            self.forget_stale();
        }
    }

    pub fn forget_stale(&mut self) {
        if let Some(io) = self.io.as_mut().filter(|_| !self.stale.is_empty()) {
            io.invalidate_all(&mut self.link, &mut self.numbers);
        }
        for stream in self.stale.drain(..) {
            self.places.give(&mut self.io, &stream);
        }
    }

    /// All that is out of the rings that are served comes back.
    pub fn settle(&mut self) {
        self.release();
        self.settle_rest();
    }

    /// The same, but what is held back stays so.
    pub fn settle_rest(&mut self) {
        for index in 0..RINGS {
            self.rings[index].looks = self.numbers.one_in(4);
            if self.rings[index].is_started && !self.rings[index].is_polled {
                self.kick(index);
            }
        }
        let (whole, mut begun, mut misses) = (Instant::now(), Instant::now(), 0);
        loop {
            self.pump();
            let before = std::mem::replace(&mut misses, self.io.as_ref().map_or(0, |io| io.misses));
            if self.harvest_all() > 0 || misses > before {
                begun = Instant::now();
            }
            let out = self.out();
            if out.is_empty() || self.is_held() {
                return;
            }
            assert!(begun.elapsed() < patience(), "{}", self.stuck(&out));
            assert!(whole.elapsed() < 9 * patience(), "without end: {}", self.stuck(&out));
            let time = out.iter().map(|&index| self.arm(index)).fold(patience(), Duration::min);
            if self.harvest_all() > 0 {
                out.iter().for_each(|&index| self.disarm(index));
                continue;
            }
            let calls = out.iter().map(|&index| self.rings[index].ring.call.as_raw_fd());
            let all: Vec<_> = calls.chain(self.io.iter().map(|io| io.channel.as_raw_fd())).collect();
            let holds = self.waiting().is_some();
            wait(
                &all,
                if holds {
                    time.min(Duration::from_millis(2))
                } else {
                    time
                },
            );
            for &index in &out {
                if take(&self.rings[index].ring.call) > 0 {
                    self.disarm(index);
                }
            }
        }
    }

    // The rings that are served and have requests.
    fn out(&self) -> Vec<usize> {
        let is_out = |&it: &usize| self.is_active(it) && self.rings[it].ring.pending() > 0;
        (0..RINGS).filter(is_out).collect()
    }

    fn stuck(&self, out: &[usize]) -> String {
        let pending: Vec<_> = out.iter().map(|&it| (it, self.rings[it].ring.pending())).collect();
        let io = self.io.as_ref().map(|io| io.state());
        format!("nothing comes back, or no interrupt: rings with requests {pending:?}, asked for {io:x?}")
    }

    // Asks for an interrupt, and says how long it is waited for.
    fn arm(&mut self, index: usize) -> Duration {
        let it = &mut self.rings[index];
        if it.looks {
            it.ring.ask_interrupt(&mut self.memory, None);
            // What came back just before may see this already.
            (it.armed, it.is_due) = (None, false);
            return Duration::from_millis(1);
        }
        if it.armed.is_none() {
            let after = self.numbers.below(it.ring.pending() as u64) as usize;
            let after = if it.ring.shape.event_idx { after } else { 0 };
            it.ring.ask_interrupt(&mut self.memory, Some(after));
            it.armed = Some(after);
        }
        patience()
    }

    pub fn disarm(&mut self, index: usize) {
        (self.rings[index].armed, self.rings[index].is_due) = (None, false);
    }

    /// What is out may be done in part, and is not under way any more.
    pub fn leave_begun(&mut self) {
        let all = || self.rings.iter().flat_map(|it| &it.sent);
        all().for_each(|it| it.request.may_be_written(&mut self.model));
        all().for_each(|it| it.request.may_be_begun(&mut self.memory, &self.model));
    }

    /// Forgets what is out. The device has no mappings: it is told of none that goes.
    pub fn abandon(&mut self) {
        for index in 0..RINGS {
            let sent = std::mem::take(&mut self.rings[index].sent);
            self.rings[index].ring.abandon();
            let streams = sent.iter().flat_map(|sent| sent.request.streams());
            streams.for_each(|stream| self.places.give(&mut self.io, stream));
        }
        for stream in self.stale.drain(..) {
            self.places.give(&mut self.io, &stream);
        }
        for it in &self.rings {
            for at in it.ring.suppression() {
                self.memory.accept(at, 1);
            }
            for part in &it.ring.parts {
                self.places.give(&mut self.io, part);
            }
        }
    }
}
