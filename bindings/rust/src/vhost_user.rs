//! A back end's side of the vhost-user protocol: crates/vhost_user/README.md of the repository.
//!
//! The program receives messages and descriptors, has [`Backend::handle`] say what each message asks for, does that,
//! and sends the bytes of [`Backend::reply`] or [`Backend::refuse`]. Nothing here opens, keeps or maps anything.
//!
//! ```
//! use vm_memory_proved::vhost_user::{wanted, Backend, Offer, Request, HEADER_LEN, MAX_MESSAGE};
//!
//! let offer = Offer { features: 1 << 32, queues: 1, max_queue_size: 1024, ..Offer::default() };
//! let mut backend = Backend::new(&offer, &[0; 8])?;
//! // GET_FEATURES, of the version 1 and without a payload.
//! let message = [1, 0, 0, 0, 1, 0, 0, 0, 0, 0, 0, 0];
//! assert_eq!(wanted(&message[..5])?.bytes, HEADER_LEN - 5);
//! assert_eq!(wanted(&message)?.bytes, 0);
//! assert_eq!(backend.handle(&message, 0)?, Request::GetFeatures);
//! let mut room = [0; MAX_MESSAGE];
//! assert_eq!(backend.reply(&message, &mut room)[12..], (1_u64 << 32).to_le_bytes());
//! # Ok::<(), Box<dyn std::error::Error>>(())
//! ```

pub(crate) mod raw;

use crate::ffi::{vhost_access_fail, vhost_answered, vhost_config_change, vhost_miss, vhost_wanted, Connection};
use crate::machine::Permissions;
use crate::raw::code;
use std::{error, fmt};

/// How many bytes a header has.
pub const HEADER_LEN: usize = 12;

/// How many bytes a message has at most.
pub const MAX_MESSAGE: usize = 280;

/// How many bytes of configuration there are at most.
pub const MAX_CONFIG: usize = 256;

/// How many descriptors come with a message at most.
pub const MAX_DESCRIPTORS: usize = 8;

/// How many bytes a reply on the back end's own channel has.
pub const ANSWER_LEN: usize = 20;

/// What a back end offers.
#[repr(C)]
#[derive(Clone, Copy, Debug, Default, PartialEq, Eq)]
pub struct Offer {
    /// The features of the device, of its rings and of the back end, each as its bit.
    pub features: u64,
    /// The features of the protocol, each as its bit.
    pub protocol_features: u64,
    /// How many rings there are: 1 to 256.
    pub queues: u32,
    /// How many descriptors a ring has at most: 1 to 32,768.
    pub max_queue_size: u32,
    /// The first byte of the configuration that a driver may write.
    pub writable_from: u32,
    /// How many bytes it may write.
    pub writable_len: u32,
}

/// What is still to come of a message.
#[repr(C)]
#[derive(Clone, Copy, Debug, Default, PartialEq, Eq)]
pub struct Wanted {
    /// How many bytes: of the header, and if that is there, of the payload. 0 if the message is whole.
    pub bytes: usize,
    /// How many descriptors come with the whole message at most.
    pub descriptors: usize,
}

/// A region of the memory that the front end shares.
#[repr(C)]
#[derive(Clone, Copy, Debug, Default, PartialEq, Eq)]
pub struct Region {
    /// The first of its addresses in guest memory.
    pub guest_address: u64,
    /// How many bytes it has.
    pub size: u64,
    /// The first of its addresses in the front end's own memory.
    pub user_address: u64,
    /// The place of its first byte in its file.
    pub mmap_offset: u64,
}

/// Pages of guest memory that are marked in the log of dirty pages. The bit of page `p` is bit `p % 8` of the byte `p /
/// 8` of the log.
#[repr(C)]
#[derive(Clone, Copy, Debug, Default, PartialEq, Eq)]
pub struct LogPages {
    /// The number of the first: its address by 4,096.
    pub first: u64,
    /// How many there are.
    pub count: u64,
}

/// A part of the device's configuration.
#[derive(Clone, Copy, Debug, PartialEq, Eq)]
pub struct ConfigSpace {
    /// The place of its first byte.
    pub offset: u32,
    /// How many bytes it has.
    pub size: u32,
    /// Whether a migration asks, and not the driver.
    pub is_migration: bool,
}

/// A region in which a back end keeps which requests of each ring are in flight.
#[derive(Clone, Copy, Debug, PartialEq, Eq)]
pub struct Inflight {
    /// How many bytes it has. A GET_INFLIGHT_FD does not say so.
    pub mmap_size: u64,
    /// The place of its first byte in its file. A GET_INFLIGHT_FD does not say so.
    pub mmap_offset: u64,
    /// How many rings it is for.
    pub num_queues: u16,
    /// How many descriptors each of them has at most.
    pub queue_size: u16,
}

/// What a message asks for. All of it that is part of the connection's state is there already.
#[derive(Clone, Copy, Debug, PartialEq, Eq)]
#[allow(missing_docs)]
pub enum Request {
    GetFeatures,
    SetFeatures(u64),
    SetOwner,
    ResetOwner,
    /// The memory is that of [`Backend::regions`] from now on. A descriptor of a file came for each region.
    SetMemTable,
    /// The log of dirty pages has `size` bytes, from `offset` on in the file whose descriptor came.
    SetLogBase {
        size: u64,
        offset: u64,
    },
    /// The descriptor that came is signalled when the log is written.
    SetLogFd,
    SetVringNum {
        index: u32,
        num: u32,
    },
    SetVringAddr {
        index: u32,
    },
    SetVringBase {
        index: u32,
        base: u32,
    },
    /// The ring is stopped. [`Backend::stop`] sets where it goes on, before the reply is sent.
    GetVringBase {
        index: u32,
    },
    /// The ring is started. `descriptor` says whether one came by which the driver notifies.
    SetVringKick {
        index: u32,
        descriptor: bool,
    },
    SetVringCall {
        index: u32,
        descriptor: bool,
    },
    SetVringErr {
        index: u32,
        descriptor: bool,
    },
    GetProtocolFeatures,
    SetProtocolFeatures(u64),
    GetQueueNum,
    SetVringEnable {
        index: u32,
        enable: bool,
    },
    /// The descriptor that came is the back end's own channel.
    SetBackendReqFd,
    /// The payload is an UPDATE or an INVALIDATE for the device's I/O table.
    IotlbMsg,
    GetConfig(ConfigSpace),
    /// The bytes are those of the payload after the first 12.
    SetConfig(ConfigSpace),
    /// The reply has a region of this shape. The descriptor of its file is sent with it.
    GetInflightFd(Inflight),
    /// What is in flight is in this region of the file whose descriptor came.
    SetInflightFd(Inflight),
}

/// How one end of a ring notifies the other.
#[derive(Clone, Copy, Debug, Default, PartialEq, Eq)]
pub enum Notifier {
    /// No message said so.
    #[default]
    Unset,
    /// Not at all: the other end has to look by itself.
    Polled,
    /// By the descriptor that came last.
    Descriptor,
}

/// A ring that is to be served. Its addresses are those of guest memory, or I/O addresses if ACCESS_PLATFORM was
/// accepted.
#[derive(Clone, Copy, Debug, PartialEq, Eq)]
pub struct Vring {
    /// How many descriptors it has.
    pub size: u32,
    /// The index of the next available descriptor, from which it was started.
    pub base: u32,
    /// The address of the descriptor table.
    pub descriptor: u64,
    /// The address of the available ring.
    pub available: u64,
    /// The address of the used ring.
    pub used: u64,
    /// How many bytes the used ring has.
    pub used_len: u64,
    /// The address in the log of the used ring, if writes to it are marked.
    pub log: Option<u64>,
    /// How the driver notifies the back end.
    pub kick: Notifier,
    /// How the back end notifies the driver.
    pub call: Notifier,
}

/// Why a message is refused, or a ring not to be served.
#[derive(Clone, Copy, Debug, PartialEq, Eq)]
pub enum Refusal {
    /// An allocation failed.
    Memory,
    /// No back end offers this.
    Offer,
    /// The message ends in its header.
    Header,
    /// The two lowest bits of the flags are not 1.
    Version,
    /// It is a reply, and a request is due.
    Direction,
    /// No request that a back end serves has this number.
    Request,
    /// The payload is not as long as the request has it.
    PayloadSize,
    /// The request does not come with this number of descriptors.
    Descriptors,
    /// The feature that the request belongs to was not negotiated.
    NotNegotiated,
    /// Features that were not offered.
    Features,
    /// There is no ring of this number, or there are not so many.
    Index,
    /// A ring has a descriptor, and no more of them than were offered.
    QueueSize,
    /// No split ring has this index.
    Base,
    /// A flag or a switch that means nothing.
    Flags,
    /// A part of a ring is not aligned.
    Alignment,
    /// This must not change while a ring is started.
    Started,
    /// A region has no bytes or too few, or passes the last address.
    RegionRange,
    /// Two regions have guest addresses in common.
    RegionOverlap,
    /// The configuration does not have these bytes.
    ConfigRange,
    /// A front end must not write these bytes of the configuration.
    ConfigReadOnly,
    /// A message on the I/O table has another kind than UPDATE and INVALIDATE.
    IotlbKind,
    /// A message on the I/O table maps no address.
    IotlbEmptyRange,
    /// A message on the I/O table maps the last address, or ones past it.
    IotlbRange,
    /// A message on the I/O table has no permissions.
    IotlbPermissions,
    /// No kick came since the last GET_VRING_BASE.
    Stopped,
    /// The ring is not enabled.
    Disabled,
    /// The ring has no size.
    NoSize,
    /// The ring has no addresses.
    NoAddress,
    /// No region has the ring.
    UserAddress,
    /// The log has no bit for a page.
    Log,
}

// Each refusal, its code and its text.
const REFUSALS: [(Refusal, u32, &str); 30] = [
    (Refusal::Memory, code::MEMORY, "out of memory"),
    (Refusal::Offer, code::VHOST_OFFER, "invalid offer"),
    (Refusal::Header, code::VHOST_HEADER, "the message ends in its header"),
    (Refusal::Version, code::VHOST_VERSION, "unknown version"),
    (Refusal::Direction, code::VHOST_DIRECTION, "a reply for a request"),
    (Refusal::Request, code::VHOST_REQUEST, "unknown request"),
    (
        Refusal::PayloadSize,
        code::VHOST_PAYLOAD_SIZE,
        "invalid size of the payload",
    ),
    (
        Refusal::Descriptors,
        code::VHOST_DESCRIPTORS,
        "invalid number of descriptors",
    ),
    (
        Refusal::NotNegotiated,
        code::VHOST_NOT_NEGOTIATED,
        "feature not negotiated",
    ),
    (Refusal::Features, code::VHOST_FEATURES, "features not offered"),
    (Refusal::Index, code::VHOST_INDEX, "no such ring"),
    (Refusal::QueueSize, code::VHOST_QUEUE_SIZE, "invalid size of a ring"),
    (Refusal::Base, code::VHOST_BASE, "invalid index of a ring"),
    (Refusal::Flags, code::VHOST_FLAGS, "invalid flags"),
    (Refusal::Alignment, code::VHOST_ALIGNMENT, "misaligned ring"),
    (Refusal::Started, code::VHOST_STARTED, "ring is started"),
    (Refusal::RegionRange, code::VHOST_REGION_RANGE, "invalid region"),
    (Refusal::RegionOverlap, code::VHOST_REGION_OVERLAP, "regions overlap"),
    (
        Refusal::ConfigRange,
        code::VHOST_CONFIG_RANGE,
        "range past the configuration",
    ),
    (
        Refusal::ConfigReadOnly,
        code::VHOST_CONFIG_READ_ONLY,
        "configuration is read only",
    ),
    (
        Refusal::IotlbKind,
        code::MESSAGE_KIND,
        "malformed message on the table: unknown kind of message",
    ),
    (
        Refusal::IotlbEmptyRange,
        code::MESSAGE_EMPTY_RANGE,
        "malformed message on the table: empty range",
    ),
    (
        Refusal::IotlbRange,
        code::MESSAGE_RANGE,
        "malformed message on the table: range past the last address",
    ),
    (
        Refusal::IotlbPermissions,
        code::MESSAGE_PERMISSIONS,
        "malformed message on the table: no permissions",
    ),
    (Refusal::Stopped, code::VHOST_STOPPED, "ring is stopped"),
    (Refusal::Disabled, code::VHOST_DISABLED, "ring is disabled"),
    (Refusal::NoSize, code::VHOST_NO_SIZE, "ring has no size"),
    (Refusal::NoAddress, code::VHOST_NO_ADDRESS, "ring has no addresses"),
    (Refusal::UserAddress, code::VHOST_USER_ADDRESS, "no region has the ring"),
    (Refusal::Log, code::VHOST_LOG, "the log has no bit for a page"),
];

impl Refusal {
    pub(crate) fn of(code: u32) -> Refusal {
        let found = REFUSALS.iter().find(|(_, number, _)| *number == code);
        found.expect("the library refuses by these codes alone").0
    }
}

impl fmt::Display for Refusal {
    fn fmt(&self, f: &mut fmt::Formatter<'_>) -> fmt::Result {
        let found = REFUSALS.iter().find(|(refusal, ..)| refusal == self);
        f.write_str(found.expect("each refusal has a row").2)
    }
}

impl error::Error for Refusal {}

fn request_of(raw: &raw::Request) -> Request {
    let (index, is_set) = (raw.index, raw.flag == 1);
    let space = ConfigSpace {
        offset: raw.value as u32,
        size: raw.size as u32,
        is_migration: is_set,
    };
    let region = Inflight {
        mmap_size: raw.size,
        mmap_offset: raw.value,
        num_queues: raw.index as u16,
        queue_size: raw.queue_size as u16,
    };
    match raw.request {
        1 => Request::GetFeatures,
        2 => Request::SetFeatures(raw.value),
        3 => Request::SetOwner,
        4 => Request::ResetOwner,
        5 => Request::SetMemTable,
        6 => Request::SetLogBase {
            size: raw.size,
            offset: raw.value,
        },
        7 => Request::SetLogFd,
        8 => Request::SetVringNum {
            index,
            num: raw.value as u32,
        },
        9 => Request::SetVringAddr { index },
        10 => Request::SetVringBase {
            index,
            base: raw.value as u32,
        },
        11 => Request::GetVringBase { index },
        12 => Request::SetVringKick {
            index,
            descriptor: is_set,
        },
        13 => Request::SetVringCall {
            index,
            descriptor: is_set,
        },
        14 => Request::SetVringErr {
            index,
            descriptor: is_set,
        },
        15 => Request::GetProtocolFeatures,
        16 => Request::SetProtocolFeatures(raw.value),
        17 => Request::GetQueueNum,
        18 => Request::SetVringEnable { index, enable: is_set },
        21 => Request::SetBackendReqFd,
        22 => Request::IotlbMsg,
        24 => Request::GetConfig(space),
        25 => Request::SetConfig(space),
        31 => Request::GetInflightFd(region),
        32 => Request::SetInflightFd(region),
        number => unreachable!("the library takes no request of the number {number}"),
    }
}

fn notifier_of(number: u32) -> Notifier {
    match number {
        0 => Notifier::Unset,
        1 => Notifier::Polled,
        _ => Notifier::Descriptor,
    }
}

/// What is still to come of a message that begins with these bytes, or why its header is refused. After a refusal
/// nobody knows the beginning of the next message.
pub fn wanted(start: &[u8]) -> Result<Wanted, Refusal> {
    vhost_wanted(start).map_err(Refusal::of)
}

/// A MISS for the back end's own channel: it asks for the mapping of an address and for a reply. Without an access
/// there is no such message, and no bytes.
pub fn miss(iova: u64, access: Permissions, room: &mut [u8; MAX_MESSAGE]) -> &[u8] {
    let count = vhost_miss(iova, access as u32, room);
    &room[..count]
}

/// An ACCESS_FAIL for the back end's own channel: a mapping forbids an access. It asks for no reply.
pub fn access_fail(iova: u64, access: Permissions, room: &mut [u8; MAX_MESSAGE]) -> &[u8] {
    let count = vhost_access_fail(iova, access as u32, room);
    &room[..count]
}

/// The message on the back end's own channel that the configuration changed: the front end reads it again. It asks for
/// no reply.
pub fn config_change(room: &mut [u8; MAX_MESSAGE]) -> &[u8] {
    let count = vhost_config_change(room);
    &room[..count]
}

/// The number in a reply that came on the back end's own channel, of [`ANSWER_LEN`] bytes: 0 if what the back end asked
/// for was done.
pub fn answered(message: &[u8]) -> Result<u64, Refusal> {
    vhost_answered(message).map_err(Refusal::of)
}

/// A connection with a front end: what was negotiated, and what the front end said of its memory and its rings.
///
/// It moves to another thread, and no two threads have it at once:
///
/// ```
/// use vm_memory_proved::vhost_user::{Backend, Offer, Refusal};
///
/// let backend = Backend::new(&Offer { queues: 1, max_queue_size: 1, ..Offer::default() }, &[])?;
/// std::thread::scope(|scope| drop(scope.spawn(move || backend.features())));
/// # Ok::<(), Refusal>(())
/// ```
///
/// ```compile_fail,E0277
/// use vm_memory_proved::vhost_user::{Backend, Offer, Refusal};
///
/// let backend = Backend::new(&Offer { queues: 1, max_queue_size: 1, ..Offer::default() }, &[])?;
/// std::thread::scope(|scope| drop(scope.spawn(|| backend.features())));
/// # Ok::<(), Refusal>(())
/// ```
pub struct Backend {
    connection: Connection,
}

impl Backend {
    /// A connection with nothing negotiated, with a configuration of at most [`MAX_CONFIG`] bytes. Refused with `Offer`
    /// if no back end offers this, and with `Memory`.
    pub fn new(offer: &Offer, config: &[u8]) -> Result<Backend, Refusal> {
        let connection = Connection::open(offer, config).map_err(Refusal::of)?;
        Ok(Backend { connection })
    }

    /// Takes a whole message, and how many descriptors came with it. If it is refused, nothing changed.
    pub fn handle(&mut self, message: &[u8], descriptors: usize) -> Result<Request, Refusal> {
        let handled = self.connection.handle(message, descriptors);
        handled.map(|request| request_of(&request)).map_err(Refusal::of)
    }

    /// The reply to a message that was taken and done, or no bytes.
    pub fn reply<'a>(&self, message: &[u8], room: &'a mut [u8; MAX_MESSAGE]) -> &'a [u8] {
        let count = self.connection.reply(message, room);
        &room[..count]
    }

    /// The reply to a message that was refused or could not be done, or no bytes.
    pub fn refuse<'a>(&self, message: &[u8], room: &'a mut [u8; MAX_MESSAGE]) -> &'a [u8] {
        let count = self.connection.refuse(message, room);
        &room[..count]
    }

    /// Replaces bytes of the configuration from an offset on, as a device does that changed. Refused with
    /// `ConfigRange`, and nothing changes, if the configuration does not have them. [`config_change`] is what tells the
    /// front end.
    pub fn change_config(&mut self, offset: u32, bytes: &[u8]) -> Result<(), Refusal> {
        self.connection.change_config(offset, bytes).map_err(Refusal::of)
    }

    /// Sets where a stopped ring goes on. Refused with `Index`, `Started`, or `Base`: a split ring has indices of 16
    /// bits.
    pub fn stop(&mut self, index: u32, base: u32) -> Result<(), Refusal> {
        self.connection.stop(index, base).map_err(Refusal::of)
    }

    /// A ring as it is to be served, or why it is not.
    pub fn running(&self, index: u32) -> Result<Vring, Refusal> {
        let vring = self.connection.running(index).map_err(Refusal::of)?;
        Ok(Vring {
            size: vring.size,
            base: vring.base,
            descriptor: vring.descriptor,
            available: vring.available,
            used: vring.used,
            used_len: vring.used_len,
            log: (vring.is_logged == 1).then_some(vring.log),
            kick: notifier_of(vring.kick),
            call: notifier_of(vring.call),
        })
    }

    /// The regions of the memory, in the order in which they came.
    pub fn regions(&self) -> Vec<Region> {
        (0..).map_while(|number| self.connection.region(number).ok()).collect()
    }

    /// The pages to mark in the log for `len` bytes of guest memory that were written, from `address` on: none if
    /// LOG_ALL was not accepted or no log was shared. Refused with `Log` if the log has no bit for one of them.
    pub fn logged(&self, address: u64, len: u64) -> Result<LogPages, Refusal> {
        self.connection.logged(address, len).map_err(Refusal::of)
    }

    /// The features that the front end accepted.
    pub fn features(&self) -> u64 {
        self.connection.state().features
    }

    /// The features of the protocol that the front end accepted.
    pub fn protocol_features(&self) -> u64 {
        self.connection.state().protocol_features
    }

    /// How many rings there are.
    pub fn queues(&self) -> usize {
        self.connection.state().queues
    }

    /// Whether a front end said that it owns the connection.
    pub fn is_owned(&self) -> bool {
        self.connection.state().is_owned == 1
    }

    /// The configuration, to which a front end may have written.
    pub fn config(&self) -> Vec<u8> {
        let mut bytes = vec![0; MAX_CONFIG];
        let count = self.connection.config(&mut bytes);
        bytes.truncate(count);
        bytes
    }
}
