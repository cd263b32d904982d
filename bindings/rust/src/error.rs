//! Why calls are refused.

use crate::machine::IovaRange;
use crate::memory::GuestAddress;
use crate::raw::{code, Answer};
use std::{error, fmt, io};

/// Why a call of guest memory was refused.
#[derive(Debug)]
pub enum GuestMemoryError {
    /// No region holds the address.
    InvalidGuestAddress(GuestAddress),
    /// A source or a sink failed.
    IOError(io::Error),
    /// Fewer bytes were moved than were asked for.
    PartialBuffer {
        /// How many were asked for.
        expected: usize,
        /// How many were moved.
        completed: usize,
    },
    /// The access does not fit the region or the window.
    InvalidBackendAddress,
    /// The region has no host bytes.
    HostAddressNotAvailable,
    /// A callback returned more than was left. No call of this crate takes one.
    CallbackOutOfRange,
    /// A callback went past the greatest address. No call of this crate takes one.
    GuestAddressOverflow,
    /// The translation was refused.
    IommuError(IommuError),
    /// An allocation failed.
    Memory,
}

impl fmt::Display for GuestMemoryError {
    fn fmt(&self, f: &mut fmt::Formatter<'_>) -> fmt::Result {
        match self {
            GuestMemoryError::InvalidGuestAddress(addr) => {
                write!(f, "Guest memory error: invalid guest address {}", addr.0)
            }
            GuestMemoryError::IOError(error) => write!(f, "Guest memory error: {error}"),
            GuestMemoryError::PartialBuffer { expected, completed } => {
                write!(
                    f,
                    "Guest memory error: only used {completed} bytes in {expected} long buffer"
                )
            }
            GuestMemoryError::InvalidBackendAddress => write!(f, "Guest memory error: invalid backend address"),
            GuestMemoryError::HostAddressNotAvailable => {
                write!(f, "Guest memory error: host virtual address not available")
            }
            GuestMemoryError::CallbackOutOfRange => write!(
                f,
                "The length returned by the callback passed to `try_access` is outside the address range."
            ),
            GuestMemoryError::GuestAddressOverflow => {
                write!(f, "The address to be read by `try_access` is outside the address range")
            }
            GuestMemoryError::IommuError(error) => {
                write!(f, "IOMMU failed to translate guest address: {error}")
            }
            GuestMemoryError::Memory => write!(f, "Guest memory error: out of memory"),
        }
    }
}

impl error::Error for GuestMemoryError {}

/// Why an IOMMU allows no access.
#[derive(Clone, Copy, Debug, PartialEq, Eq)]
pub enum Reason {
    /// An address is not mapped, or the range ends past the greatest address.
    MissingMapping,
    /// Each address is mapped, but one without the access.
    AccessNotAllowed,
    /// The IOMMU is not configured.
    NotConfigured,
}

impl fmt::Display for Reason {
    fn fmt(&self, f: &mut fmt::Formatter<'_>) -> fmt::Result {
        f.write_str(match self {
            Reason::MissingMapping => "missing mapping",
            Reason::AccessNotAllowed => "access not allowed",
            Reason::NotConfigured => "not configured",
        })
    }
}

/// Why a translation was refused.
#[derive(Clone, Copy, Debug, PartialEq, Eq)]
pub enum IommuError {
    /// The table does not allow the access to this range.
    CannotResolve {
        /// The whole range.
        iova_range: IovaRange,
        /// Why it does not.
        reason: Reason,
    },
    /// The call needs more ranges than the table keeps. It was made again after each of its mappings came.
    TableTooSmall {
        /// The whole range.
        iova_range: IovaRange,
    },
    /// The range does not lie in a row.
    Fragmented {
        /// The whole range.
        iova_range: IovaRange,
        /// How many addresses from its beginning on do.
        continuous_length: usize,
    },
    /// The IOMMU is misconfigured.
    IommuMisconfigured {
        /// Why.
        reason: Reason,
    },
    /// An allocation failed.
    Memory,
}

impl fmt::Display for IommuError {
    fn fmt(&self, f: &mut fmt::Formatter<'_>) -> fmt::Result {
        match self {
            IommuError::CannotResolve { iova_range, reason } => write!(
                f,
                "Cannot translate I/O virtual address range {:#x}+{}: {reason}",
                iova_range.base.0, iova_range.length
            ),
            IommuError::TableTooSmall { iova_range } => write!(
                f,
                "The I/O table keeps fewer ranges than an access with the range {:#x}+{} needs",
                iova_range.base.0, iova_range.length
            ),
            IommuError::Fragmented {
                iova_range,
                continuous_length,
            } => write!(
                f,
                "Expected {:#x}+{} to be a continuous I/O virtual address range, but only {continuous_length} bytes are",
                iova_range.base.0, iova_range.length
            ),
            IommuError::IommuMisconfigured { reason } => {
                write!(f, "IOMMU not configured correctly, cannot operate: {reason}")
            }
            IommuError::Memory => write!(f, "out of memory"),
        }
    }
}

impl error::Error for IommuError {}

/// Why regions make no layout.
#[derive(Clone, Copy, Debug, PartialEq, Eq)]
pub enum GuestRegionCollectionError {
    /// There is no region, or none like the one to remove.
    NoMemoryRegion,
    /// Two regions overlap.
    MemoryRegionOverlap,
    /// The regions do not ascend.
    UnsortedMemoryRegions,
}

impl fmt::Display for GuestRegionCollectionError {
    fn fmt(&self, f: &mut fmt::Formatter<'_>) -> fmt::Result {
        f.write_str(match self {
            GuestRegionCollectionError::NoMemoryRegion => "No memory region found",
            GuestRegionCollectionError::MemoryRegionOverlap => "Some of the memory regions intersect with each other",
            GuestRegionCollectionError::UnsortedMemoryRegions => "The provided memory regions haven't been sorted",
        })
    }
}

impl error::Error for GuestRegionCollectionError {}

/// Why a machine refused a call. All but `GuestMemory` changed nothing.
#[derive(Debug)]
pub enum MachineError {
    /// A number of the call names nothing.
    NoSuch,
    /// A range passes its block, or the greatest address; or a value has too many bytes.
    BadRange,
    /// An allocation failed.
    Memory,
    /// A block has 1 to 2^63 - 1 bytes.
    InvalidSize,
    /// A region ends past the greatest address.
    InvalidRegion,
    /// A region, a layout or a memory is there, which may name the block.
    InUse,
    /// A page or a limit is 0, or a call of plain numbers has no meaning.
    BadCall,
    /// An output of a call of plain numbers is too short: it has to have this many bytes.
    Short(usize),
    /// The regions make no layout.
    Layout(GuestRegionCollectionError),
    /// The access was refused.
    GuestMemory(GuestMemoryError),
}

impl fmt::Display for MachineError {
    fn fmt(&self, f: &mut fmt::Formatter<'_>) -> fmt::Result {
        match self {
            MachineError::NoSuch => write!(f, "a number names nothing"),
            MachineError::BadRange => write!(f, "a range passes its end"),
            MachineError::Memory => write!(f, "out of memory"),
            MachineError::InvalidSize => write!(f, "invalid size of a block"),
            MachineError::InvalidRegion => write!(f, "invalid guest region"),
            MachineError::InUse => write!(f, "a region, a layout or a memory is there"),
            MachineError::BadCall => write!(f, "a page or a limit is 0, or a call has no meaning"),
            MachineError::Short(needed) => write!(f, "the output has to have {needed} bytes"),
            MachineError::Layout(error) => error.fmt(f),
            MachineError::GuestMemory(error) => error.fmt(f),
        }
    }
}

impl error::Error for MachineError {}

impl From<MachineError> for GuestMemoryError {
    fn from(error: MachineError) -> GuestMemoryError {
        match error {
            MachineError::GuestMemory(error) => error,
            // Calls of a memory that is there are refused in no other way.
            _ => GuestMemoryError::Memory,
        }
    }
}

fn io_error(kind: io::ErrorKind) -> GuestMemoryError {
    GuestMemoryError::IOError(io::Error::from(kind))
}

/// The error of an answer, if it is one.
pub(crate) fn error_of(answer: &Answer) -> Option<MachineError> {
    let iova_range = IovaRange {
        base: GuestAddress(answer.address),
        length: answer.value as usize,
    };
    let iommu = |error| GuestMemoryError::IommuError(error);
    let unresolved = |reason| iommu(IommuError::CannotResolve { iova_range, reason });
    let misconfigured = |reason| iommu(IommuError::IommuMisconfigured { reason });
    let error = match answer.code {
        code::DONE | code::FAILS => return None,
        code::NO_SUCH => return Some(MachineError::NoSuch),
        code::BAD_RANGE => return Some(MachineError::BadRange),
        code::MEMORY => return Some(MachineError::Memory),
        code::INVALID_SIZE => return Some(MachineError::InvalidSize),
        code::INVALID_REGION => return Some(MachineError::InvalidRegion),
        code::IN_USE => return Some(MachineError::InUse),
        code::BAD_CALL => return Some(MachineError::BadCall),
        code::SHORT => return Some(MachineError::Short(answer.count)),
        code::NO_MEMORY_REGION => return Some(MachineError::Layout(GuestRegionCollectionError::NoMemoryRegion)),
        code::MEMORY_REGION_OVERLAP => {
            return Some(MachineError::Layout(GuestRegionCollectionError::MemoryRegionOverlap))
        }
        code::UNSORTED_MEMORY_REGIONS => {
            return Some(MachineError::Layout(GuestRegionCollectionError::UnsortedMemoryRegions))
        }
        code::INVALID_GUEST_ADDRESS => GuestMemoryError::InvalidGuestAddress(GuestAddress(answer.address)),
        code::IO_INTERRUPTED => io_error(io::ErrorKind::Interrupted),
        code::IO_WRITE_ZERO => io_error(io::ErrorKind::WriteZero),
        code::IO_UNEXPECTED_EOF => io_error(io::ErrorKind::UnexpectedEof),
        code::PARTIAL_BUFFER => GuestMemoryError::PartialBuffer {
            expected: answer.value as usize,
            completed: answer.count,
        },
        code::INVALID_BACKEND_ADDRESS => GuestMemoryError::InvalidBackendAddress,
        code::HOST_ADDRESS_NOT_AVAILABLE => GuestMemoryError::HostAddressNotAvailable,
        code::CALLBACK_OUT_OF_RANGE => GuestMemoryError::CallbackOutOfRange,
        code::GUEST_ADDRESS_OVERFLOW => GuestMemoryError::GuestAddressOverflow,
        code::IOMMU_MISSING => unresolved(Reason::MissingMapping),
        code::IOTLB_TOO_SMALL => iommu(IommuError::TableTooSmall { iova_range }),
        code::IOMMU_NOT_ALLOWED => unresolved(Reason::AccessNotAllowed),
        code::IOMMU_NOT_CONFIGURED => unresolved(Reason::NotConfigured),
        code::IOMMU_FRAGMENTED => iommu(IommuError::Fragmented {
            iova_range,
            continuous_length: answer.count,
        }),
        code::MISCONFIGURED_MISSING => misconfigured(Reason::MissingMapping),
        code::MISCONFIGURED_NOT_ALLOWED => misconfigured(Reason::AccessNotAllowed),
        code::MISCONFIGURED_NOT_CONFIGURED => misconfigured(Reason::NotConfigured),
        code::IOMMU_MEMORY => iommu(IommuError::Memory),
        _ => io_error(io::ErrorKind::Other),
    };
    Some(MachineError::GuestMemory(error))
}
