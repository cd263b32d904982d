//! A connection with a front end over a Unix socket. What a [`BackEnd`] asks for is done here, in order, with the
//! descriptors that came, as far as every device has it. A [`Device`] does the rest.
//!
//! Nothing here waits for the front end, and no descriptor of it is held that would keep the connection from ending.
//! A program watches the descriptors that it is told, and reports what they say. After the events that it has it calls
//! [`run`](Connection::run).
//!
//! ```
//! use std::fs::File;
//! use std::io::{self, Read, Write};
//! use std::os::{fd::BorrowedFd, unix::net::UnixStream};
//! use vm_memory_proved::back_end::{Part, Way};
//! use vm_memory_proved::block_device::BlockDevice;
//! use vm_memory_proved::connection::{Connection, Device, Event};
//! use vm_memory_proved::{memfd, Pieces, Watchdog};
//!
//! struct Ram(File);
//!
//! impl Device for Ram {
//!     fn serve(&mut self, part: &Part<'_>, pieces: Pieces<'_>) -> io::Result<()> {
//!         match part.way {
//!             Way::Read => pieces.read_file(&self.0, part.place),
//!             Way::Write => pieces.write_file(&self.0, part.place),
//!             Way::Flush => Ok(()),
//!             Way::Name => Ok(pieces.fill(b"ram")),
//!         }
//!     }
//!
//!     // This program knows what comes.
//!     fn watch(&mut self, _descriptor: BorrowedFd<'_>, _event: Event) -> io::Result<()> {
//!         Ok(())
//!     }
//!
//!     fn unwatch(&mut self, _descriptor: BorrowedFd<'_>) {}
//! }
//!
//! let disk = BlockDevice { sectors: 8, queues: 1, ..BlockDevice::default() };
//! let (mut ram, watchdog) = (Ram(memfd(4096)?.into()), Watchdog::start()?);
//! let (mine, mut front_end) = UnixStream::pair()?;
//! let mut connection = Connection::new(mine, disk.open()?, disk.queues, &watchdog, &mut ram)?;
//! // GET_FEATURES, of the version 1 and without a payload.
//! front_end.write_all(&[1, 0, 0, 0, 1, 0, 0, 0, 0, 0, 0, 0])?;
//! connection.take(Event::Socket, &mut ram)?;
//! connection.run(&mut ram)?;
//! let mut reply = [0; 20];
//! front_end.read_exact(&mut reply)?;
//! // The 64 bits of features follow the header. The tenth is FLUSH, and there is no MQ.
//! assert_eq!(reply[13] & 0x12, 2);
//! # Ok::<(), Box<dyn std::error::Error>>(())
//! ```

pub use crate::at_once::Ticket;
use crate::back_end::{Action, BackEnd, Kept, Over, Part, Region, Room, State, TableCounts, Way};
use crate::block_device::{CONFIG, RING_PACKED};
use crate::descriptor::Kind;
pub use crate::device::{Begun, Device, Event};
pub use crate::ended::Ended;
use crate::incoming::{self, Incoming};
use crate::notify::{signal, Kick, Watchdog};
use crate::parts::Parts;
use crate::shared::memfd;
pub use crate::stats::Stats;
use crate::vhost_user::{config_change, miss, Refusal, ANSWER_LEN, MAX_MESSAGE};
use std::error::Error;
use std::fs::File;
use std::io;
use std::mem;
use std::os::fd::{AsFd, OwnedFd};
use std::os::linux::net::SocketAddrExt;
use std::os::unix::net::UnixStream;
use std::time::Duration;

// How often a ring is looked at whose driver has no descriptor to notify by.
const POLL: Duration = Duration::from_millis(1);

// How the driver of a ring notifies.
#[derive(Default)]
enum Notified {
    #[default]
    Not,
    Polled,
    By(Kick),
}

// What a front end gave for a ring.
#[derive(Default)]
struct Ring {
    notified: Notified,
    call: Option<File>,
    err: Option<File>,
}

impl Ring {
    fn is_polled(&self) -> bool {
        matches!(self.notified, Notified::Polled)
    }
}

// The back end's own channel.
struct Channel {
    socket: UnixStream,
    // What came of a reply.
    reply: [u8; ANSWER_LEN],
    len: usize,
}

/// A connection with a front end.
pub struct Connection<'a> {
    watchdog: &'a Watchdog,
    back_end: BackEnd,
    state: State,
    // The next run is due.
    has_more: bool,
    // It is not here while its actions are done.
    room: Option<Box<Room>>,
    parts: Parts,
    // The message that is under way, or what has come of the next one.
    incoming: Incoming,
    // Why what it asks for failed.
    failure: Option<Ended>,
    rings: Vec<Ring>,
    channel: Option<Channel>,
    log_call: Option<File>,
    // What goes with the next reply.
    file: Option<OwnedFd>,
    // A notification had to wait. None is made after that.
    has_waited: bool,
    // Requests of each ring may be returned in any order.
    in_any_order: bool,
    // So many rings have a part of the region of requests in flight.
    tracked: u32,
    stats: Stats,
    // The front end may use its memory again once this is closed.
    socket: UnixStream,
}

impl<'a> Connection<'a> {
    /// Begins to serve a front end, if there is memory for it: a back end of so many rings, which nothing was told yet.
    pub fn new(
        socket: UnixStream,
        back_end: BackEnd,
        queues: u32,
        watchdog: &'a Watchdog,
        device: &mut impl Device,
    ) -> Result<Connection<'a>, Box<dyn Error>> {
        let mut rings = Vec::new();
        rings.try_reserve_exact(queues as usize)?;
        rings.extend((0..queues).map(|_| Ring::default()));
        device.watch(socket.as_fd(), Event::Socket)?;
        Ok(Connection {
            watchdog,
            back_end,
            state: State::Free,
            has_more: false,
            room: Some(Box::new(Room::try_new()?)),
            parts: Parts::in_order(rings.len()),
            incoming: Incoming::default(),
            failure: None,
            rings,
            channel: None,
            log_call: None,
            file: None,
            has_waited: false,
            in_any_order: false,
            tracked: 0,
            stats: Stats::default(),
            socket,
        })
    }

    /// From now on parts of many requests are under way at once, and [`Device::begin`] begins them. Nothing was told
    /// before. Requests of a split ring without a region of requests in flight are returned in order, so that a later
    /// program knows where to go on, unless `in_any_order`.
    ///
    /// The connection is dropped only after all that began has ended: guest memory is unmapped then.
    pub fn serve_at_once(&mut self, in_any_order: bool) {
        self.back_end.keep_apart();
        self.in_any_order = in_any_order;
        self.parts = Parts::at_once(self.rings.len());
    }

    /// No ring pops anything any more.
    pub fn pop_no_more(&mut self) {
        self.parts.close();
    }

    /// How long a program may wait for the next event before it calls [`run`](Connection::run), if not for as long as
    /// it takes.
    pub fn time_to_wait(&self) -> Option<Duration> {
        if self.has_more || self.parts.has_ends() || self.parts.are_waiting() {
            return Some(Duration::ZERO);
        }
        self.rings.iter().any(Ring::is_polled).then_some(POLL)
    }

    /// What was served.
    pub fn stats(&self) -> &Stats {
        &self.stats
    }

    /// What became of the I/O table.
    pub fn table(&self) -> TableCounts {
        self.back_end.table()
    }

    /// Whether the front end shares a log.
    pub fn has_log(&self) -> bool {
        self.back_end.has_log()
    }

    // ---- events

    /// Takes an event. Those of the socket come before others.
    pub fn take(&mut self, event: Event, device: &mut impl Device) -> Result<(), Ended> {
        match event {
            // A message waits in the socket while one is under way.
            Event::Socket if self.state != State::Free => Ok(()),
            Event::Socket => self.receive(),
            Event::Channel => self
                .receive_reply(device)
                .map_err(Ended::failed("the back end's channel")),
            Event::Kick(ring) => {
                if let Some(Notified::By(kick)) = self.rings.get(ring as usize).map(|it| &it.notified) {
                    kick.take();
                }
                self.back_end.kick(ring);
                Ok(())
            }
        }
    }

    /// What began ended.
    pub fn ended(&mut self, ticket: Ticket, done: io::Result<()>) {
        if let Err(error) = &done {
            self.back_end.look_for_loss(error);
        }
        self.stats.part(ticket.way(), ticket.len(), done.is_ok());
        self.stats.errors += u64::from(self.parts.end(&ticket, done.is_ok()));
    }

    fn receive(&mut self) -> Result<(), Ended> {
        if self.incoming.receive(&self.socket)? {
            let message = self.incoming.bytes();
            let is_taken = self.back_end.message(message, self.incoming.descriptors());
            assert!(is_taken, "no message is under way");
            self.state = State::Busy;
        }
        Ok(())
    }

    // What the front end replies to on the channel is a mapping that it was asked for.
    fn receive_reply(&mut self, device: &mut impl Device) -> io::Result<()> {
        let Some(channel) = &mut self.channel else {
            return Ok(());
        };
        // An end of a connection that comes with a reply is not kept.
        match incoming::receive(&channel.socket, &mut channel.reply[channel.len..], &mut Vec::new()) {
            Ok(0) => {
                self.close_channel(device);
                self.back_end.channel_lost();
            }
            Ok(count) if channel.len + count < ANSWER_LEN => channel.len += count,
            Ok(_) => {
                channel.len = 0;
                if !self.back_end.answered(&channel.reply) {
                    return Err(io::Error::other(Refusal::Direction));
                }
            }
            Err(error) if error.kind() == io::ErrorKind::WouldBlock => (),
            Err(error) => return Err(error),
        }
        Ok(())
    }

    fn close_channel(&mut self, device: &mut impl Device) {
        if let Some(channel) = self.channel.take() {
            device.unwatch(channel.socket.as_fd());
        }
    }

    /// The disk has another size: requests are held against that from now on, and the front end is told if it wants to
    /// be. An error says why it is not.
    pub fn resize(&mut self, sectors: u64) -> io::Result<()> {
        self.back_end.resize(sectors);
        match self.back_end.protocol_features() & CONFIG {
            0 => Ok(()),
            _ => self.ask(config_change),
        }
    }

    // ---- actions

    /// Does all that is to be done now. After an error nothing more is to be done, and the connection is to be dropped.
    pub fn run(&mut self, device: &mut impl Device) -> Result<(), Ended> {
        // No request is returned whose memory went away while it was under way.
        self.expect_memory()?;
        for (ring, _) in (0..).zip(&self.rings).filter(|(_, it)| it.is_polled()) {
            self.back_end.kick(ring);
        }
        self.run_once(device)?;
        // The ends of what a first run asks for are told by a second one.
        if self.parts.has_ends() {
            self.run_once(device)?;
        }
        match self.has_waited {
            true => Err(Ended::MadeToWait),
            false => Ok(()),
        }
    }

    /// Does all that is to be done, as [`run`](Connection::run), after a look at each ring whose driver may not have
    /// notified yet. Returns whether something was to be done.
    pub fn look(&mut self, device: &mut impl Device) -> Result<bool, Ended> {
        for (ring, it) in (0..).zip(&self.rings) {
            if !matches!(it.notified, Notified::Not) {
                self.back_end.kick(ring);
            }
        }
        self.run(device)?;
        let has_actions = |room: &Room| room.actions().next().is_some();
        Ok(self.has_more || self.parts.has_ends() || self.room.as_deref().is_some_and(has_actions))
    }

    fn run_once(&mut self, device: &mut impl Device) -> Result<(), Ended> {
        let mut room = self.room.take().expect("its actions were done");
        let (ends, turns) = self.parts.told();
        self.back_end.run(ends, turns, &mut room);
        self.parts.taken(room.ends_taken(), turns > 0 && !room.may_be_full());
        // Without a turn it may be one alone that is left.
        self.has_more = room.has_more() && (turns > 0 || room.ends_taken() > 0 || room.actions().next().is_some());
        self.state = room.state();
        if self.state == State::Free {
            self.incoming.clear();
        }
        let done = self.do_all(&room, device);
        self.room = Some(room);
        done
    }

    fn do_all(&mut self, room: &Room, device: &mut impl Device) -> Result<(), Ended> {
        for action in room.actions() {
            self.expect_memory()?;
            self.act(action, device)?;
        }
        self.expect_memory()?;
        self.parts.end_run();
        while let Some((part, pieces)) = self.parts.take_kept() {
            let pieces = &pieces;
            self.serve(&Part { pieces, ..part }, device);
            self.expect_memory()?;
        }
        Ok(())
    }

    // No file lost bytes that were accessed.
    #[inline]
    fn expect_memory(&self) -> Result<(), Ended> {
        match self.back_end.is_lost() {
            true => Err(Ended::MemoryLost),
            false => Ok(()),
        }
    }

    #[inline]
    fn act(&mut self, action: Action<'_>, device: &mut impl Device) -> Result<(), Ended> {
        match action {
            Action::Serve(part) if self.parts.take(&part) => self.serve(&part, device),
            Action::Serve(_) | Action::UnmapAll => (),
            Action::Interrupt(ring) => self.notify(|it| it.rings[ring as usize].call.as_ref()),
            Action::Mark { first, count } => {
                let new = self.back_end.mark(first, count);
                self.stats.logged += new;
                self.notify(|it| it.log_call.as_ref().filter(|_| new > 0));
            }
            Action::Send { bytes } => {
                let file = self.file.take();
                let file = file.as_ref().map(AsFd::as_fd);
                incoming::send(&self.socket, bytes, file).map_err(Ended::failed("replying"))?;
                self.back_end.sent(bytes.len());
            }
            Action::Broke(ring) => {
                device.broke(ring);
                self.notify(|it| it.rings[ring as usize].err.as_ref());
            }
            Action::Ask { iova, access, .. } => {
                let sent = self.ask(|room| miss(iova, access, room));
                sent.map_err(Ended::failed("the back end's channel"))?;
            }
            Action::Stopped(ring) => self.forget_kick(ring, Notified::Not, device),
            Action::End(why) => return Err(self.end_of(why)),
            Action::Map(_) | Action::Log { .. } | Action::Keep { .. } | Action::File { .. } | Action::Region { .. } => {
                self.obey(action, device)
            }
        }
        Ok(())
    }

    // Sends a message on the channel, if there is one.
    fn ask(&self, message: impl FnOnce(&mut [u8; MAX_MESSAGE]) -> &[u8]) -> io::Result<()> {
        let room = &mut [0; MAX_MESSAGE];
        let channel = self.channel.as_ref();
        channel.map_or(Ok(()), |it| incoming::send(&it.socket, message(room), None))
    }

    #[inline]
    fn notify(&mut self, of: impl FnOnce(&Self) -> Option<&File>) {
        if !self.has_waited {
            self.has_waited = of(self).is_some_and(|signal| self.watchdog.notify(signal));
        }
    }

    fn end_of(&mut self, why: Over) -> Ended {
        let by = |what, text: &str| Ended::Failed(what, text.into());
        match why {
            Over::Refused(refusal) => Ended::Refused(self.incoming.request(), refusal),
            Over::Failed => self.failure.take().unwrap_or(Ended::Gone),
            Over::Memory => by("the device", "out of memory"),
            Over::Unread => by("replying", "the front end reads no replies"),
            Over::Log => by("the log", "the log has no bit for a page"),
            Over::HungUp => Ended::HungUp,
        }
    }

    // Does what a message asks for, and tells the library if that failed.
    fn obey(&mut self, action: Action<'_>, device: &mut impl Device) {
        let (what, done) = match action {
            Action::Map(region) => ("the table of memory", self.map(&region)),
            Action::Log { offset, len } => ("the log", self.set_log(offset, len)),
            Action::File { len } => (IN_FLIGHT, self.make_file(len).map_err(Into::into)),
            Action::Region { offset, len } => (IN_FLIGHT, self.track(offset, len)),
            Action::Keep { what, has_one } => (name_of(what), self.keep(what, has_one, device).map_err(Into::into)),
            _ => return,
        };
        if let Err(error) = done {
            self.failure = Some(Ended::Failed(what, error));
            self.back_end.failed();
        }
        self.has_more = true;
    }

    fn map(&mut self, region: &Region) -> Result<(), Box<dyn Error>> {
        let file = self.incoming.take_descriptor(region.number)?;
        Kind::expect(&file, &[Kind::File])?;
        Ok(self.back_end.map(region, file.as_fd())?)
    }

    fn set_log(&mut self, offset: u64, len: u64) -> Result<(), Box<dyn Error>> {
        let file = self.incoming.take_descriptor(0)?;
        Kind::expect(&file, &[Kind::File])?;
        self.back_end.map_log(offset, len, file.as_fd())?;
        self.stats.logged = 0;
        self.back_end.done();
        Ok(())
    }

    fn make_file(&mut self, len: u64) -> io::Result<()> {
        self.file = Some(memfd(len)?);
        self.back_end.done();
        Ok(())
    }

    fn track(&mut self, offset: u64, len: u64) -> Result<(), Box<dyn Error>> {
        let file = self.incoming.take_descriptor(0)?;
        Kind::expect(&file, &[Kind::File])?;
        self.back_end.track(offset, len, file.as_fd())?;
        self.tracked = self.incoming.inflight_queues();
        self.back_end.done();
        Ok(())
    }

    fn keep(&mut self, what: Kept, has_one: bool, device: &mut impl Device) -> io::Result<()> {
        let given = has_one.then(|| self.incoming.take_descriptor(0)).transpose()?;
        match what {
            Kept::Kick(ring) => self.set_kick(ring, given, device)?,
            Kept::Call(ring) => self.rings[ring as usize].call = given.map(signal).transpose()?,
            Kept::Err(ring) => self.rings[ring as usize].err = given.map(signal).transpose()?,
            Kept::LogCall => self.log_call = given.map(signal).transpose()?,
            Kept::Channel => {
                self.close_channel(device);
                self.channel = given.map(|it| self.channel_of(it)).transpose()?;
                if let Some(channel) = &self.channel {
                    device.watch(channel.socket.as_fd(), Event::Channel)?;
                }
            }
        }
        self.back_end.done();
        Ok(())
    }

    fn set_kick(&mut self, ring: u32, given: Option<OwnedFd>, device: &mut impl Device) -> io::Result<()> {
        device.started(&self.back_end, ring);
        if let (Parts::AtOnce(parts), Notified::Not) = (&mut self.parts, &self.rings[ring as usize].notified) {
            // A packed ring does not go on after a kill.
            let may_go_on = self.back_end.features() & RING_PACKED == 0 && ring >= self.tracked;
            parts.start(ring, may_go_on && !self.in_any_order);
        }
        // What came before is watched no more before this one is.
        self.forget_kick(ring, Notified::Polled, device);
        if let Some(descriptor) = given {
            let kick = Kick::new(descriptor)?;
            device.watch(kick.as_fd(), Event::Kick(ring))?;
            self.rings[ring as usize].notified = Notified::By(kick);
        }
        Ok(())
    }

    fn forget_kick(&mut self, ring: u32, new: Notified, device: &mut impl Device) {
        if let Notified::By(kick) = mem::replace(&mut self.rings[ring as usize].notified, new) {
            device.unwatch(kick.as_fd());
        }
    }

    // Takes a socket beside that of the connection. The front end's own end of that one is refused: as long as it is
    // held here, the connection does not end.
    fn channel_of(&self, descriptor: OwnedFd) -> io::Result<Channel> {
        Kind::expect(&descriptor, &[Kind::Socket])?;
        let socket = UnixStream::from(descriptor);
        let (peer, own) = (socket.peer_addr()?, self.socket.local_addr()?);
        let is_same = peer.as_pathname() == own.as_pathname() && peer.as_abstract_name() == own.as_abstract_name();
        if is_same && !peer.is_unnamed() {
            let text = "it is the front end's end of a connection with this program";
            return Err(io::Error::new(io::ErrorKind::InvalidInput, text));
        }
        Ok(Channel {
            socket,
            reply: [0; ANSWER_LEN],
            len: 0,
        })
    }

    #[inline]
    fn serve(&mut self, part: &Part<'_>, device: &mut impl Device) {
        let order = match &mut self.parts {
            Parts::InOrder(order) => order,
            Parts::AtOnce(parts) => {
                if parts.begin(part) {
                    self.stats.begin(part.way);
                }
                return self.begin(part, device);
            }
        };
        if order.begins(part) {
            self.stats.begin(part.way);
        }
        let mut is_served = !order.has_failed(part);
        if is_served {
            is_served = device.serve(part, self.back_end.pieces(part.pieces)).is_ok();
            self.stats.part(part.way, part.len, is_served);
        }
        self.stats.errors += u64::from(order.end(part, is_served));
    }

    #[inline]
    fn begin(&mut self, part: &Part<'_>, device: &mut impl Device) {
        let pieces = match part.way {
            // No other process touches these.
            Way::Name => self.back_end.pieces(part.pieces),
            _ => self.back_end.pieces_apart(part.pieces),
        };
        if let Begun::Ended(ticket, done) = device.begin(part, pieces, Ticket::of(part)) {
            self.ended(ticket, done);
        }
    }
}

const IN_FLIGHT: &str = "the region of requests in flight";

fn name_of(what: Kept) -> &'static str {
    match what {
        Kept::Kick(_) => "the descriptor of kicks",
        Kept::Call(_) => "the descriptor of calls",
        Kept::Err(_) => "the descriptor of errors",
        Kept::LogCall => "the descriptor of the log",
        Kept::Channel => "the back end's channel",
    }
}
