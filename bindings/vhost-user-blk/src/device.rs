//! A front end that is served, by events of its descriptors.

use crate::engine::Engine;
use crate::poll::Poll;
use crate::system::{self, Epoll, EDGE, LEVEL};
use crate::times::Times;
use crate::{say, Program};
use std::cell::RefMut;
use std::convert::Infallible;
use std::error::Error;
use std::io;
use std::mem;
use std::os::fd::{AsFd, BorrowedFd};
use std::os::unix::net::UnixStream;
use std::time::{Duration, Instant};
use vm_memory_proved::back_end::{BackEnd, Part, TableCounts, Way};
use vm_memory_proved::block_device::{names_of_features, BlockDevice};
use vm_memory_proved::connection::{Begun, Connection, Device, Ended, Event, Ticket};
use vm_memory_proved::Pieces;

/// The numbers of descriptors: of signals, and of the socket. The back end's own channel and the rings come after them,
/// and the disk last.
pub const SIGNALS: u64 = 0;
pub const SOCKET: u64 = 1;
const CHANNEL: u64 = 2;
const RINGS: u64 = 3;
const DISK: u64 = u64::MAX;

// So often at most what ended meanwhile is told before events are looked for again.
const ROUNDS: u32 = 8;

// How long what the system could not take waits.
const PAUSE: Duration = Duration::from_millis(1);

struct Served<'a> {
    program: &'a Program,
    epoll: Epoll,
    // What has many requests under way at once, if that is wanted.
    engine: RefMut<'a, Option<Engine>>,
    // The system could not take all.
    has_left: bool,
    poll: Poll,
    // When parts that are under way began, by ring and request, and how long others took, if that is to be said.
    begun: Vec<Vec<Option<Instant>>>,
    times: Option<Times>,
    // What was said last of the features.
    features: [String; 2],
}

impl Device for Served<'_> {
    fn serve(&mut self, part: &Part<'_>, pieces: Pieces<'_>) -> io::Result<()> {
        let disk = &self.program.disk;
        match part.way {
            Way::Read => pieces.read_file(&disk.file, part.place),
            Way::Write => pieces.write_file(&disk.file, part.place),
            Way::Flush => disk.flush(),
            Way::Name => {
                pieces.fill(&disk.name);
                Ok(())
            }
        }
    }

    fn begin(&mut self, part: &Part<'_>, pieces: Pieces<'_>, ticket: Ticket) -> Begun {
        let Some(engine) = self.engine.as_mut().filter(|_| part.way != Way::Name) else {
            return Begun::Ended(ticket, self.serve(part, pieces));
        };
        if self.times.is_none() {
            return engine.begin(part, pieces, ticket);
        }
        let now = Instant::now();
        let begun = engine.begin(part, pieces, ticket);
        match begun {
            Begun::Ended(..) => self.add_time(now),
            Begun::UnderWay => self.note_begin(part, now),
        }
        begun
    }

    fn watch(&mut self, descriptor: BorrowedFd<'_>, event: Event) -> io::Result<()> {
        let (number, how) = match event {
            Event::Socket => (SOCKET, LEVEL),
            Event::Channel => (CHANNEL, LEVEL),
            Event::Kick(ring) => (RINGS + u64::from(ring), EDGE),
        };
        self.epoll.watch(descriptor, number, how)
    }

    fn unwatch(&mut self, descriptor: BorrowedFd<'_>) {
        self.epoll.unwatch(descriptor);
    }

    fn started(&mut self, back_end: &BackEnd, ring: u32) {
        let features = names_of_features(back_end);
        if self.features != features {
            say!("features: {}; protocol features: {}", features[0], features[1]);
            self.features = features;
        }
        say!("ring {ring} is started");
    }

    fn broke(&mut self, ring: u32) {
        say!("ring {ring} failed, and waits to be started again");
    }
}

/// Serves a front end until its connection ends. An error says what it lacked from the beginning.
pub fn serve(program: &Program, socket: UnixStream) -> Result<Ended, Box<dyn Error>> {
    let options = &program.options;
    let epoll = Epoll::new()?;
    epoll.watch(program.signals.as_fd(), SIGNALS, LEVEL)?;
    let engine = program.engine.borrow_mut();
    if let Some(engine) = engine.as_ref() {
        epoll.watch(engine.descriptor(), DISK, LEVEL)?;
    }
    let features = Default::default();
    let mut served = Served {
        program,
        epoll,
        engine,
        has_left: false,
        poll: Poll::new(options.poll),
        begun: Vec::new(),
        times: options.stats.is_some().then(Times::default),
        features,
    };
    let (rings, watchdog) = (options.queues, &program.watchdog);
    let back_end = disk_of(program).open()?;
    let mut connection = Connection::new(socket, back_end, rings, watchdog, &mut served)?;
    if served.engine.is_some() {
        connection.serve_at_once(options.any_order);
    }
    let ended = served.turns(&mut connection).expect_err("turns end by an error");
    let left = served.drain(&mut connection, matches!(ended, Ended::HungUp));
    if options.stats.is_some() {
        served.say_stats(&connection);
    }
    match left {
        0 => Ok(ended),
        left => {
            // The system may use them until the process is gone.
            mem::forget((connection, served.engine.take()));
            program.left.set(left);
            Ok(Ended::failed("the disk")(program.expect_nothing_left().unwrap_err()))
        }
    }
}

fn disk_of(program: &Program) -> BlockDevice {
    let options = &program.options;
    BlockDevice {
        sectors: program.disk.sectors.get(),
        queues: options.queues,
        read_only: options.read_only,
        write_through: options.write_through,
        iotlb_limit: options.iotlb_limit,
    }
}

impl Served<'_> {
    fn turns(&mut self, connection: &mut Connection<'_>) -> Result<Infallible, Ended> {
        let (program, mut ready) = (self.program, Vec::new());
        let next = || program.options.stats.map(|every| Instant::now() + every);
        let mut due = next();
        loop {
            let left = due.map(|time| time.saturating_duration_since(Instant::now()));
            let time = left
                .into_iter()
                .chain(connection.time_to_wait())
                .chain(self.pause())
                .min();
            self.wait(connection, time, &mut ready)?;
            for &number in &ready {
                match number {
                    SIGNALS => take_signals(program, connection)?,
                    SOCKET => connection.take(Event::Socket, self)?,
                    CHANNEL => connection.take(Event::Channel, self)?,
                    // What ended is told in any case.
                    DISK => (),
                    number => connection.take(Event::Kick((number - RINGS) as u32), self)?,
                }
            }
            self.work(connection)?;
            if due.is_some_and(|time| time <= Instant::now()) {
                self.say_stats(connection);
                due = next();
            }
        }
    }
}

impl Served<'_> {
    // Waits for events, for a time at most, and looks for them before it sleeps if that is wanted.
    fn wait(
        &mut self,
        connection: &mut Connection<'_>,
        time: Option<Duration>,
        ready: &mut Vec<u64>,
    ) -> Result<(), Ended> {
        let sleep = |served: &Self, time, ready: &mut _| served.epoll.wait(time, ready);
        if !self.poll.is_on() || time.is_some_and(|time| time.is_zero()) {
            return sleep(self, time, ready).map_err(Ended::failed("waiting"));
        }
        let begun = Instant::now();
        while begun.elapsed() < self.poll.time().min(time.unwrap_or(Duration::MAX)) {
            sleep(self, Some(Duration::ZERO), ready).map_err(Ended::failed("waiting"))?;
            if !ready.is_empty() || self.take_ends(connection) || self.goes_on() || connection.look(self)? {
                return Ok(());
            }
        }
        sleep(self, time, ready).map_err(Ended::failed("waiting"))?;
        self.poll.slept(begun.elapsed());
        Ok(())
    }

    // Tells what ended, does what follows, and has the system begin what it is asked for.
    fn work(&mut self, connection: &mut Connection<'_>) -> Result<(), Ended> {
        self.take_ends(connection);
        for _ in 0..ROUNDS {
            connection.run(self)?;
            if let Some(engine) = self.engine.as_mut() {
                self.has_left = !engine.submit().map_err(Ended::failed("the disk"))?;
            }
            // Some end at once.
            if !self.take_ends(connection) && !self.goes_on() {
                break;
            }
        }
        Ok(())
    }

    fn goes_on(&self) -> bool {
        self.engine.as_ref().is_some_and(Engine::goes_on)
    }

    fn take_ends(&mut self, connection: &mut Connection<'_>) -> bool {
        let mut has_some = false;
        while let Some((ticket, done)) = self.engine.as_mut().and_then(Engine::next_end) {
            if self.times.is_some() {
                self.take_time(&ticket);
            }
            connection.ended(ticket, done);
            has_some = true;
        }
        has_some
    }

    // Waits until nothing is under way, and returns how much is, if the program is to end and that takes too long. If
    // the connection is well, requests that end by that are returned.
    fn drain(&mut self, connection: &mut Connection<'_>, mut is_well: bool) -> usize {
        let Some(engine) = self.engine.as_mut() else {
            return 0;
        };
        engine.stop();
        connection.pop_no_more();
        let (program, mut last) = (self.program, None);
        is_well = is_well && self.work(connection).is_ok();
        while self.engine.as_ref().is_some_and(Engine::is_busy) {
            let now = Instant::now();
            if program.is_ending.get() {
                last = last.or(Some(now + program.options.drain));
            }
            if last.is_some_and(|last| last <= now) {
                break;
            }
            let time = last.map(|last| last - now).into_iter().chain(self.pause()).min();
            self.wait_for_ends(time);
            is_well = match is_well {
                true => self.work(connection).is_ok(),
                false => self.drop_ends(),
            };
        }
        self.engine.as_mut().map_or(0, |engine| match engine.load() {
            0 => {
                engine.restart();
                0
            }
            load => load,
        })
    }

    // How long the program may wait for events before it asks the system once more.
    fn pause(&self) -> Option<Duration> {
        match self.goes_on() {
            true => Some(Duration::ZERO),
            false => self.has_left.then_some(PAUSE),
        }
    }

    // Waits for something that ended, or a signal.
    fn wait_for_ends(&self, time: Option<Duration>) {
        let engine = self.engine.as_ref().expect("something is under way");
        if let Err(error) = system::wait_for([self.program.signals.as_fd(), engine.descriptor()], time) {
            say!("the disk cannot be waited for: {error}");
        }
        self.program.take_signals();
    }

    fn drop_ends(&mut self) -> bool {
        let engine = self.engine.as_mut().expect("something is under way");
        while engine.next_end().is_some() {}
        self.has_left = !engine.submit().unwrap_or(false);
        false
    }
}

fn take_signals(program: &Program, connection: &mut Connection<'_>) -> Result<(), Ended> {
    if program.take_signals() {
        if let Err(error) = connection.resize(program.disk.sectors.get()) {
            say!("the front end is not told of the size: {error}");
        }
    }
    match program.is_ending.get() {
        true => Err(Ended::HungUp),
        false => Ok(()),
    }
}

// ---- what is said

impl Served<'_> {
    fn add_time(&mut self, begun: Instant) {
        if let Some(times) = &mut self.times {
            times.add(begun.elapsed());
        }
    }

    // Of a part that comes in several its beginning counts.
    fn note_begin(&mut self, part: &Part<'_>, now: Instant) {
        let (ring, id) = (part.ring as usize, part.id as usize);
        if self.begun.len() <= ring {
            self.begun.resize(ring + 1, Vec::new());
        }
        let requests = &mut self.begun[ring];
        if requests.len() <= id {
            requests.resize(id + 1, None);
        }
        requests[id].get_or_insert(now);
    }

    fn take_time(&mut self, ticket: &Ticket) {
        let requests = self.begun.get_mut(ticket.ring() as usize);
        let begun = requests
            .and_then(|it| it.get_mut(ticket.id() as usize))
            .and_then(Option::take);
        if let Some(begun) = begun {
            self.add_time(begun);
        }
    }

    fn say_stats(&mut self, connection: &Connection<'_>) {
        say!("served {}", connection.stats());
        if let Some(engine) = self.engine.as_ref() {
            let (count, times) = (engine.load(), self.times.take().unwrap_or_default());
            match times.count() {
                0 => say!("under way: {count}"),
                parts => say!("under way: {count}; {parts} reads, writes and flushes took: {times}"),
            }
            // The next ones count from here on.
            self.times = Some(Times::default());
        }
        say_more(self.program, connection);
    }
}

fn say_more(program: &Program, connection: &Connection<'_>) {
    let stats = connection.stats();
    let table = connection.table();
    if table != TableCounts::default() {
        let (misses, updates, evictions) = (table.misses, table.updates, table.evictions);
        let invalidations = table.invalidations;
        say!("I/O table: {misses} misses, {updates} updates, {invalidations} invalidations, {evictions} evictions");
    }
    if connection.has_log() {
        say!("log: {} pages", stats.logged);
    }
    if program.disk.syncs.has_failed() {
        say!("the image: a sync failed");
    }
}
