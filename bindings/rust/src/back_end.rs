//! A back end of vhost-user whose device is a disk, as one state machine: crates/vhost_backend/README.md of the
//! repository. Events come in and [`Action`]s go out. The library decides what each message, ring and request means,
//! and touches rings, headers and statuses. What uses it does the actions, in order, and moves the data of requests.
//!
//! ```
//! use vm_memory_proved::back_end::{Action, BackEnd, Disk, Room};
//! use vm_memory_proved::vhost_user::Offer;
//!
//! let offer = Offer { features: 1 << 32, queues: 1, max_queue_size: 1024, ..Offer::default() };
//! let mut back_end = BackEnd::new(&offer, &[0; 8], &Disk { unread: 4096, ..Disk::default() })?;
//! // GET_FEATURES, of the version 1 and without a payload.
//! assert!(back_end.message(&[1, 0, 0, 0, 1, 0, 0, 0, 0, 0, 0, 0], 0));
//! let mut room = Room::new();
//! back_end.run(&[], 1, &mut room);
//! let Some(Action::Send { bytes }) = room.actions().next() else { panic!("it is answered") };
//! assert_eq!(bytes[12..], (1_u64 << 32).to_le_bytes());
//! # Ok::<(), vm_memory_proved::vhost_user::Refusal>(())
//! ```

mod room;

pub use self::room::{Actions, Room};
use crate::ffi::Device;
use crate::log::Log;
use crate::lost::Guard;
use crate::machine::Permissions;
use crate::mapping::Mapping;
use crate::pieces::Vectors;
use crate::shared::{check, SharedBlockError};
use crate::vhost_user::{Offer, Refusal};
use std::fs::File;
use std::os::fd::BorrowedFd;
use std::os::unix::fs::MetadataExt;

/// The disk of a device.
#[repr(C)]
#[derive(Clone, Copy, Debug, Default, PartialEq, Eq)]
pub struct Disk {
    /// How many sectors of 512 bytes it has.
    pub sectors: u64,
    /// How many segments the data of a request have at most, if the driver accepted that there is such a bound.
    pub seg_max: u32,
    /// How many bytes a segment has at most, if the driver accepted that.
    pub size_max: u32,
    /// Whether it is only read: 0 or 1.
    pub read_only: u32,
    /// How many bytes of replies may wait for the front end. With more the connection ends.
    pub unread: u32,
    /// How many ranges the device's I/O table keeps: with 0 ACCESS_PLATFORM is not offered.
    pub table_limit: u32,
}

/// How often the device's I/O table was changed.
#[repr(C)]
#[derive(Clone, Copy, Debug, Default, PartialEq, Eq)]
pub struct TableCounts {
    /// How many mappings were asked for.
    pub misses: u64,
    /// How many messages mapped a range.
    pub updates: u64,
    /// How many invalidated one.
    pub invalidations: u64,
    /// How many ranges the table evicted for one that was mapped.
    pub evictions: u64,
}

/// The end of a part of a request.
#[repr(C)]
#[derive(Clone, Copy, Debug, Default, PartialEq, Eq)]
pub struct PartEnd {
    /// The ring.
    pub ring: u32,
    /// The request.
    pub id: u32,
    /// Whether it failed: 0 or 1.
    pub failed: u32,
    /// How many bytes of data were moved.
    pub bytes: u32,
}

/// Bytes of a region of guest memory.
#[repr(C)]
#[derive(Clone, Copy, Debug, Default, PartialEq, Eq)]
pub struct Piece {
    /// The number of the region.
    pub region: u64,
    /// The place of the first byte in it.
    pub offset: u64,
    /// How many there are.
    pub len: u64,
}

/// What a part of a request asks for.
#[derive(Clone, Copy, Debug, PartialEq, Eq)]
pub enum Way {
    /// From the disk to the pieces.
    Read,
    /// From the pieces to the disk.
    Write,
    /// What was written is made stable.
    Flush,
    /// The first bytes of the disk's name go to the pieces.
    Name,
}

/// A part of a request, or of such a part as many pieces as had room.
#[derive(Clone, Copy, Debug, PartialEq, Eq)]
pub struct Part<'a> {
    /// The ring.
    pub ring: u32,
    /// The request.
    pub id: u32,
    /// What it asks for.
    pub way: Way,
    /// The first byte of the disk.
    pub place: u64,
    /// How many bytes.
    pub len: u64,
    /// Where these lie in guest memory.
    pub pieces: &'a [Piece],
    /// It goes on with the next part that is served for this request, and both have one end.
    pub goes_on: bool,
    /// How many parts of the request come after this one, if none fails.
    pub left: u32,
}

/// What is kept of a descriptor that came.
#[derive(Clone, Copy, Debug, PartialEq, Eq)]
pub enum Kept {
    /// The driver of a ring notifies by it. Without one the ring is looked at now and then.
    Kick(u32),
    /// The driver of a ring is interrupted by it.
    Call(u32),
    /// The front end is told by it that a ring broke.
    Err(u32),
    /// It is the back end's own channel.
    Channel,
    /// The front end is told by it of new bits in the log.
    LogCall,
}

/// Why a connection is over.
#[derive(Clone, Copy, Debug, PartialEq, Eq)]
pub enum Over {
    /// A message was refused.
    Refused(Refusal),
    /// What a message asked for failed.
    Failed,
    /// An allocation failed.
    Memory,
    /// The front end reads no replies.
    Unread,
    /// The log has no bit for a page that was written.
    Log,
    /// It ended from outside.
    HungUp,
}

/// What is to be done, before the next event.
#[derive(Clone, Copy, Debug, PartialEq, Eq)]
pub enum Action<'a> {
    /// The front end is sent these bytes, with the descriptor of a file that was made before. [`BackEnd::sent`] is told
    /// how many its socket took.
    Send {
        /// The bytes.
        bytes: &'a [u8],
    },
    /// No region is mapped any more.
    UnmapAll,
    /// A region is mapped from the descriptor of its number: [`BackEnd::map`].
    Map(Region),
    /// The log is mapped from the descriptor that came.
    Log {
        /// The place of its first byte in the file.
        offset: u64,
        /// How many bytes it has.
        len: u64,
    },
    /// The descriptor that came, or none, takes the place of the one before.
    Keep {
        /// What it is for.
        what: Kept,
        /// Whether one came.
        has_one: bool,
    },
    /// A part of a request is served. Its end goes into a later [`BackEnd::run`].
    Serve(Part<'a>),
    /// The driver of a ring is interrupted.
    Interrupt(u32),
    /// The front end is told that a ring broke.
    Broke(u32),
    /// The bits of these pages are set in the log: one atomic OR for each of its words or bytes.
    Mark {
        /// The number of the first page.
        first: u64,
        /// How many there are.
        count: u64,
    },
    /// The connection is over.
    End(Over),
    /// A ring was stopped: its descriptor of kicks is the front end's again.
    Stopped(u32),
    /// The front end is sent a message on the back end's own channel, by [`miss`](crate::vhost_user::miss), whose reply
    /// goes to [`BackEnd::answered`].
    Ask {
        /// The ring that needs the address.
        ring: u32,
        /// The I/O address.
        iova: u64,
        /// The access.
        access: Permissions,
    },
    /// A shared file of zeros is made, for a region of requests in flight, and it goes with the next [`Action::Send`].
    /// [`BackEnd::done`] or [`BackEnd::failed`] is due.
    File {
        /// How many bytes it has.
        len: u64,
    },
    /// The region of requests in flight is mapped from the descriptor that came: [`BackEnd::track`].
    Region {
        /// The place of its first byte in the file.
        offset: u64,
        /// How many bytes it has.
        len: u64,
    },
}

/// A region of guest memory that is to be mapped.
#[derive(Clone, Copy, Debug, PartialEq, Eq)]
pub struct Region {
    /// Its number, which is that of its descriptor.
    pub number: u32,
    /// The place of its first byte in the file.
    pub offset: u64,
    /// How many bytes it has.
    pub len: u64,
    /// The first of its addresses in guest memory.
    pub guest_address: u64,
    /// The first of its addresses in the front end's own memory.
    pub user_address: u64,
}

/// Whether a message can be told.
#[derive(Clone, Copy, Debug, PartialEq, Eq)]
pub enum State {
    /// One can.
    Free,
    /// One is under way, or the next run has to be before one.
    Busy,
    /// The connection is over, and requests are under way.
    Over,
    /// The connection is over, and nothing touches guest memory.
    AtRest,
}

/// What crosses to the library and back.
pub(crate) mod raw {
    #[repr(C)]
    #[derive(Clone, Copy, Debug, Default)]
    pub(crate) struct Action {
        pub(crate) kind: u32,
        pub(crate) ring: u32,
        pub(crate) id: u32,
        pub(crate) way: u32,
        pub(crate) count: u32,
        pub(crate) more: u32,
        pub(crate) left: u32,
        pub(crate) place: u64,
        pub(crate) len: u64,
        pub(crate) guest: u64,
        pub(crate) user: u64,
    }

    #[repr(C)]
    #[derive(Clone, Copy, Debug, Default)]
    pub(crate) struct Counts {
        pub(crate) ends: usize,
        pub(crate) actions: usize,
        pub(crate) pieces: usize,
        pub(crate) bytes: usize,
        pub(crate) more: u32,
        pub(crate) state: u32,
    }

    pub(crate) const UNMAP_ALL: u32 = 2;
    pub(crate) const MARK: u32 = 9;
}

// A part of a file.
#[derive(Clone, Copy, PartialEq, Eq)]
struct FilePart {
    device: u64,
    inode: u64,
    offset: u64,
    len: u64,
}

impl FilePart {
    // A part of a file that has all of its bytes. What is no regular file says it has none, or cannot be mapped.
    fn of(file: BorrowedFd<'_>, offset: u64, len: u64) -> Result<FilePart, SharedBlockError> {
        let file = file.try_clone_to_owned().map(File::from);
        let data = file.and_then(|it| it.metadata()).map_err(SharedBlockError::NotMapped)?;
        if data.len().checked_sub(offset).is_none_or(|left| left < len) {
            return Err(SharedBlockError::FileShort);
        }
        Ok(FilePart {
            device: data.dev(),
            inode: data.ino(),
            offset,
            len,
        })
    }

    fn shares(&self, other: &FilePart) -> bool {
        let is_same_file = (self.device, self.inode) == (other.device, other.inode);
        let end = |it: &FilePart| it.offset.saturating_add(it.len);
        is_same_file && self.offset < end(other) && other.offset < end(self)
    }
}

// A region that is mapped.
struct Mapped {
    part: FilePart,
    // It goes before its mapping does, since fields are dropped in order.
    guard: Guard,
    mapping: Mapping,
    // The same bytes once more, which nothing replaces if the memory goes away.
    apart: Option<Mapping>,
}

impl Mapped {
    fn new(part: FilePart, file: BorrowedFd<'_>, is_apart: bool) -> Result<Mapped, SharedBlockError> {
        let len = usize::try_from(part.len).map_err(|_| SharedBlockError::FileShort)?;
        let map = || Mapping::of_file(len, file, part.offset).map_err(SharedBlockError::NotMapped);
        let (mapping, apart) = (map()?, is_apart.then(map).transpose()?);
        let guard = Guard::new(mapping.whole()).map_err(SharedBlockError::NotMapped)?;
        Ok(Mapped {
            part,
            guard,
            mapping,
            apart,
        })
    }
}

/// A connection with a front end.
///
/// It moves to another thread, and no two threads have it at once.
pub struct BackEnd {
    // It is closed before the regions are unmapped, since fields are dropped in order.
    device: Device,
    regions: Vec<Mapped>,
    // Those that were unmapped by the message that is under way: a new table may have the same parts of files.
    before: Vec<Mapped>,
    // The region of requests in flight.
    tracked: Option<Mapped>,
    pub(crate) log: Option<Log>,
    pub(crate) vectors: Vectors,
    pub(crate) lacks_memory: bool,
    is_apart: bool,
}

impl BackEnd {
    /// A connection with nothing negotiated, whose device has a configuration of at most 256 bytes, of which the first
    /// 8 are the size of the disk. Refused with `Offer` if no back end offers this, and with `Memory`.
    pub fn new(offer: &Offer, config: &[u8], disk: &Disk) -> Result<BackEnd, Refusal> {
        let device = Device::open(offer, config, disk).map_err(Refusal::of)?;
        Ok(BackEnd {
            device,
            regions: Vec::new(),
            before: Vec::new(),
            tracked: None,
            log: None,
            vectors: Vectors::default(),
            lacks_memory: false,
            is_apart: false,
        })
    }

    /// From now on regions are mapped twice, for [`pieces_apart`](BackEnd::pieces_apart). None is there yet.
    pub fn keep_apart(&mut self) {
        self.is_apart = true;
    }

    /// Takes a whole message, and how many descriptors came with it, which are kept until its actions are done. It is
    /// not taken, and nothing changes, while one is under way and after the connection is over.
    pub fn message(&mut self, message: &[u8], descriptors: usize) -> bool {
        self.device.message(message, descriptors) == 0
    }

    /// Maps a region that an action asked for from its file, and says so. If a mapping that was there before has the
    /// same part of the same file, that is used. If it cannot be mapped, [`failed`](BackEnd::failed) is due.
    pub fn map(&mut self, region: &Region, file: BorrowedFd<'_>) -> Result<(), SharedBlockError> {
        let len = usize::try_from(region.len).map_err(|_| SharedBlockError::FileShort)?;
        check(len, Some((file, region.offset)))?;
        let part = FilePart::of(file, region.offset, region.len)?;
        if self.regions.iter().chain(&self.tracked).any(|it| it.part.shares(&part)) {
            return Err(SharedBlockError::Shared);
        }
        let mapped = match self.before.iter().position(|other| other.part == part) {
            Some(place) => self.before.swap_remove(place),
            None => Mapped::new(part, file, self.is_apart)?,
        };
        if self.device.mapped(&mapped.mapping) == 0 {
            self.regions.push(mapped);
        }
        Ok(())
    }

    /// Maps the region of requests in flight that an action asked for, in place of the one before, if its file has it
    /// and guest memory has no byte of it. [`done`](BackEnd::done) or [`failed`](BackEnd::failed) is due after it.
    pub fn track(&mut self, offset: u64, len: u64, file: BorrowedFd<'_>) -> Result<(), SharedBlockError> {
        let part = FilePart::of(file, offset, len)?;
        if self.regions.iter().any(|it| it.part.shares(&part)) {
            return Err(SharedBlockError::Shared);
        }
        let mapped = Mapped::new(part, file, false)?;
        self.device.track(&mapped.mapping);
        // The library has let go of the one before.
        self.tracked = Some(mapped);
        Ok(())
    }

    /// Where the bytes of a region lie as long as it is mapped, and how many there are. A guest may write them at any
    /// moment.
    #[inline]
    pub fn region(&self, number: u64) -> Option<(*mut u8, usize)> {
        let mapping = &self.regions.get(usize::try_from(number).ok()?)?.mapping;
        Some((mapping.bytes().as_ptr(), mapping.len()))
    }

    /// Where they lie in the mapping that stays as it is if the memory goes away.
    #[inline]
    pub(crate) fn region_apart(&self, number: u64) -> Option<(*mut u8, usize)> {
        let mapping = self.regions.get(usize::try_from(number).ok()?)?.apart.as_ref()?;
        Some((mapping.bytes().as_ptr(), mapping.len()))
    }

    /// Whether memory of the front end went away: the log, or a region that is mapped, of guest memory or of requests
    /// in flight. What was read of it since then
    /// are zeros. [`survive_lost_memory`](crate::survive_lost_memory) has to be called before, or an access of the
    /// library ends the process.
    #[inline]
    pub fn is_lost(&self) -> bool {
        let is_lost = |it: &Mapped| it.guard.is_lost();
        self.lacks_memory
            || self.regions.iter().chain(&self.tracked).any(is_lost)
            || self.log.as_ref().is_some_and(Log::is_lost)
    }

    /// What the last action asked for was done, except for a mapping of a region.
    pub fn done(&mut self) {
        self.device.done();
    }

    /// What the last action asked for failed: the connection ends.
    pub fn failed(&mut self) {
        self.device.failed();
    }

    /// Takes a whole reply that came on the back end's own channel. If none was due, the connection ends.
    pub fn answered(&mut self, message: &[u8]) -> bool {
        self.device.answered(message) == 0
    }

    /// The back end's own channel is lost: no reply comes any more.
    pub fn channel_lost(&mut self) {
        self.device.channel_lost();
    }

    /// The driver of a ring notified.
    pub fn kick(&mut self, ring: u32) {
        self.device.kick(ring);
    }

    /// The front end's socket took so many bytes.
    pub fn sent(&mut self, bytes: usize) {
        self.device.sent(bytes);
    }

    /// The disk has so many sectors from now on.
    pub fn resize(&mut self, sectors: u64) {
        self.device.resize(sectors);
    }

    /// The connection ended.
    pub fn hang_up(&mut self) {
        self.device.hang_up();
    }

    /// The features that the front end accepted.
    pub fn features(&self) -> u64 {
        self.device.state().features
    }

    /// The features of the protocol that the front end accepted.
    pub fn protocol_features(&self) -> u64 {
        self.device.state().protocol_features
    }

    /// How often the device's I/O table was changed.
    pub fn table(&self) -> TableCounts {
        self.device.table()
    }

    /// Takes the ends of parts, and puts what is to be done into the room, as far as it goes. Rings have so many turns.
    #[inline]
    pub fn run(&mut self, ends: &[PartEnd], turns: u32, room: &mut Room) {
        self.device.run(ends, turns, room);
        let counts = &room.counts;
        if room.actions[..counts.actions]
            .iter()
            .any(|it| it.kind == raw::UNMAP_ALL)
        {
            // Actions before it name no region, and the library has let go of all.
            self.before = std::mem::take(&mut self.regions);
        }
        if room.state() == State::Free {
            self.before.clear();
        }
    }
}
