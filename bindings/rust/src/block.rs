//! Requests to a virtio block device whose disk is the caller's. crates/virtio_blk/README.md of the repository has
//! their rules.
//!
//! A request is a chain, and is served in two steps: [`begin_request`](DescriptorChain::begin_request) says what the
//! device has to do, and [`finish_request`](DescriptorChain::finish_request) writes the status. A device over a disk in
//! memory:
//!
//! ```
//! use vm_memory_proved::block::{DeviceLimits, Request, HEADER_LEN, SECTOR_LEN, VIRTIO_BLK_S_IOERR, VIRTIO_BLK_S_OK};
//! use vm_memory_proved::queue::{DescriptorChain, QueueError};
//! use vm_memory_proved::GuestMemory;
//!
//! // Serves a request, and returns the length for `add_used`.
//! fn serve(disk: &mut [u8], chain: &DescriptorChain<'_>, memory: &GuestMemory<'_>) -> Result<u32, QueueError> {
//!     let limits = DeviceLimits {
//!         sectors: (disk.len() / SECTOR_LEN) as u64,
//!         ..DeviceLimits::default()
//!     };
//!     let status_of = |is_done| if is_done { VIRTIO_BLK_S_OK } else { VIRTIO_BLK_S_IOERR };
//!     let (status, moved) = match chain.begin_request(memory, limits)? {
//!         Request::Read { sector, len } => {
//!             let start = SECTOR_LEN * sector as usize;
//!             let moved = chain.write_at(memory, 0, &disk[start..start + len]).unwrap_or(0);
//!             (status_of(moved == len), moved)
//!         }
//!         Request::Write { sector, len, .. } => {
//!             let start = SECTOR_LEN * sector as usize;
//!             let moved = chain.read_at(memory, HEADER_LEN, &mut disk[start..start + len]).unwrap_or(0);
//!             (status_of(moved == len), 0)
//!         }
//!         Request::Flush => (VIRTIO_BLK_S_OK, 0),
//!         Request::GetId { len } => {
//!             let moved = chain.write_at(memory, 0, &b"a disk in memory\0\0\0\0"[..len]).unwrap_or(0);
//!             (status_of(moved == len), moved)
//!         }
//!         Request::Refused { status } => (status, 0),
//!         Request::Unserved => (VIRTIO_BLK_S_IOERR, 0),
//!     };
//!     chain.finish_request(memory, status, moved)
//! }
//! ```

use crate::machine::Permissions;
use crate::memory::GuestMemory;
use crate::queue::{DescriptorChain, QueueError};
use crate::raw::{kind, request, Answer};

/// The status of a request that was done.
pub const VIRTIO_BLK_S_OK: u8 = 0;

/// The status of a request that failed.
pub const VIRTIO_BLK_S_IOERR: u8 = 1;

/// The status of a request of a kind that the device does not know.
pub const VIRTIO_BLK_S_UNSUPP: u8 = 2;

/// The number of the feature FLUSH: its bit of [`DeviceLimits::acked`].
pub const VIRTIO_BLK_F_FLUSH: u32 = 9;

/// How many bytes a sector has.
pub const SECTOR_LEN: usize = 512;

/// How many bytes the header of a request has: at this offset of the readable bytes the data of a write begin.
pub const HEADER_LEN: usize = 16;

/// What a request is checked against: the disk, and what the driver accepted.
#[derive(Clone, Copy, Debug, Default, PartialEq, Eq)]
pub struct DeviceLimits {
    /// The number of sectors of the disk, each of 512 bytes.
    pub sectors: u64,
    /// Whether the disk is only read.
    pub read_only: bool,
    /// The features that the driver accepted, each as its bit. [`VIRTIO_BLK_F_FLUSH`] is the one that counts.
    pub acked: u64,
    /// The most data segments of a request, if the driver accepted SEG_MAX: a chain may have two more, for the header
    /// and the status. 0 is no limit.
    pub seg_max: Option<u32>,
    /// The most bytes of a segment, if the driver accepted SIZE_MAX. It counts for each segment of a chain, those of
    /// the header and the status too. 0 is no limit.
    pub size_max: Option<u32>,
}

/// What a device has to do for a request. The sectors of a `Read` or a `Write` are whole, and lie on the disk.
#[derive(Clone, Copy, Debug, PartialEq, Eq)]
pub enum Request {
    /// Bytes of the disk go to the front of the chain's writable bytes.
    Read {
        /// Where they begin on the disk.
        sector: u64,
        /// How many bytes they are.
        len: usize,
    },
    /// The chain's readable bytes from [`HEADER_LEN`] on go to the disk.
    Write {
        /// Where they begin on the disk.
        sector: u64,
        /// How many bytes they are.
        len: usize,
        /// Whether the device makes them stable before it finishes the request: the driver did not accept FLUSH.
        flush: bool,
    },
    /// What was written before is made stable.
    Flush,
    /// The first bytes of the device's name of 20 bytes go to the front of the chain's writable bytes.
    GetId {
        /// How many bytes they are.
        len: usize,
    },
    /// Nothing is done.
    Refused {
        /// The status that the request is finished with: `VIRTIO_BLK_S_IOERR` for a request that is wrong,
        /// `VIRTIO_BLK_S_UNSUPP` for a kind that the device does not know.
        status: u8,
    },
    /// Nothing is done: the chain has no byte for the status.
    Unserved,
}

impl Request {
    // The one of an answer to BEGIN_REQUEST.
    #[inline]
    fn new(answer: &Answer) -> Request {
        let (sector, len) = (answer.address, answer.count);
        let flush = answer.value == request::WRITE_STABLE;
        match answer.value {
            request::READ => Request::Read { sector, len },
            request::WRITE | request::WRITE_STABLE => Request::Write { sector, len, flush },
            request::FLUSH => Request::Flush,
            request::GET_ID => Request::GetId { len },
            request::UNSERVED => Request::Unserved,
            _ => Request::Refused {
                status: answer.count as u8,
            },
        }
    }
}

impl DescriptorChain<'_> {
    /// Reads the header of a request and says what the device has to do. Nothing changes.
    ///
    /// A wrong request is not an error, but [`Request::Refused`]. One that breaks one of the limits is refused
    /// before its header is read. If an IOMMU refuses an access to the header, or an
    /// allocation fails, nothing is decided. A device whose mappings come later makes the call again then.
    #[inline]
    pub fn begin_request(&self, mem: &GuestMemory<'_>, limits: DeviceLimits) -> Result<Request, QueueError> {
        let access = if limits.read_only {
            Permissions::Read
        } else {
            Permissions::ReadWrite
        };
        let mut call = self.call_at(kind::BEGIN_REQUEST, mem, 0);
        call.target = limits.sectors;
        call.access = access as u32;
        call.value = limits.acked;
        call.length = limits.seg_max.unwrap_or(0) as usize;
        call.other_length = limits.size_max.unwrap_or(0) as usize;
        self.ask(&call).map(|answer| Request::new(&answer))
    }

    /// Writes the status of a request to the last writable byte, and returns the length for
    /// [`add_used`](crate::queue::Queue::add_used): how many bytes were written without a gap, from the first writable
    /// one on. The caller has written `moved` bytes there. A larger number than there is room for before the status
    /// counts as that room.
    ///
    /// If the status has no memory, nothing is written, and only the bytes before it count. If the chain has no
    /// writable byte, the length is 0. If an IOMMU refuses the access, or an allocation fails, nothing has changed. A
    /// device whose mappings come later makes the call again then.
    #[inline]
    pub fn finish_request(&self, mem: &GuestMemory<'_>, status: u8, moved: usize) -> Result<u32, QueueError> {
        let mut call = self.call_at(kind::FINISH_REQUEST, mem, 0);
        call.value = status.into();
        call.length = moved;
        self.ask(&call).map(|answer| answer.value as u32)
    }
}
