//! Why calls of a queue are refused.

use crate::error::{error_of, GuestMemoryError, MachineError};
use crate::raw::{code, Answer};
use std::{error, fmt, io};

/// Why segments make no chain.
#[derive(Clone, Copy, Debug, PartialEq, Eq)]
pub enum ChainFault {
    /// A segment that is read comes after one that is written.
    Order,
    /// The segments have more than 2^32 - 1 bytes in all.
    TooLong,
    /// A segment ends past the greatest address.
    Range,
}

impl fmt::Display for ChainFault {
    fn fmt(&self, f: &mut fmt::Formatter<'_>) -> fmt::Result {
        f.write_str(match self {
            ChainFault::Order => "chain order",
            ChainFault::TooLong => "chain too long",
            ChainFault::Range => "chain range",
        })
    }
}

impl error::Error for ChainFault {}

/// Why a call of a queue was refused.
#[derive(Debug)]
pub enum QueueError {
    /// The greatest size of a queue is a power of two, 1 to 32768.
    InvalidMaxSize,
    /// The size of a queue is a power of two, 1 to the greatest.
    InvalidSize,
    /// The table of descriptors lies at a multiple of 16.
    InvalidDescTableAlign,
    /// The available ring lies at a multiple of 2.
    InvalidAvailRingAlign,
    /// The used ring lies at a multiple of 4.
    InvalidUsedRingAlign,
    /// The queue is not ready.
    QueueNotReady,
    /// A field of the queue lies past the greatest address.
    AddressOverflow,
    /// The driver's index is more than the queue's size ahead.
    InvalidAvailRingIndex,
    /// A head or the next descriptor is at or past the length of its table.
    InvalidDescriptorIndex,
    /// A chain has more descriptors than its table: it is a loop.
    DescriptorLoop,
    /// A descriptor leads to an indirect table and to a next descriptor.
    IndirectWithNext,
    /// A descriptor of an indirect table leads to an indirect table.
    NestedIndirect,
    /// The length of an indirect table is 0, no multiple of 16, or above 65,535 descriptors.
    InvalidIndirectTable,
    /// The segments of the descriptors make no chain.
    InvalidChain(ChainFault),
    /// The entry of the used ring does not lie whole in memory that may be written.
    InvalidUsedEntry,
    /// The driver published a head whose chain is in flight.
    InFlight,
    /// With this chain those in flight would have more descriptors than the queue was made for.
    TooMany,
    /// No chain of this head is in flight.
    NotInFlight,
    /// A packed queue was asked for what only a split one has, or a split one for what only a packed one has.
    OtherKind,
    /// An access of guest memory was refused.
    GuestMemory(GuestMemoryError),
    /// An allocation failed.
    Memory,
}

impl fmt::Display for QueueError {
    fn fmt(&self, f: &mut fmt::Formatter<'_>) -> fmt::Result {
        f.write_str(match self {
            QueueError::InvalidMaxSize => "invalid greatest size of a queue",
            QueueError::InvalidSize => "invalid size of a queue",
            QueueError::InvalidDescTableAlign => "descriptor table is not aligned",
            QueueError::InvalidAvailRingAlign => "available ring is not aligned",
            QueueError::InvalidUsedRingAlign => "used ring is not aligned",
            QueueError::QueueNotReady => "queue is not ready",
            QueueError::AddressOverflow => "address overflow",
            QueueError::InvalidAvailRingIndex => "invalid index of the available ring",
            QueueError::InvalidDescriptorIndex => "invalid descriptor index",
            QueueError::DescriptorLoop => "loop of descriptors",
            QueueError::IndirectWithNext => "indirect descriptor with a next one",
            QueueError::NestedIndirect => "indirect table inside an indirect table",
            QueueError::InvalidIndirectTable => "invalid length of an indirect table",
            QueueError::InvalidChain(fault) => return write!(f, "invalid chain: {fault}"),
            QueueError::InvalidUsedEntry => "used entry is not in memory",
            QueueError::InFlight => "the chain of this head is in flight",
            QueueError::TooMany => "too many descriptors in flight",
            QueueError::NotInFlight => "no chain of this head is in flight",
            QueueError::OtherKind => "queue is of the other kind",
            QueueError::GuestMemory(error) => return error.fmt(f),
            QueueError::Memory => "out of memory",
        })
    }
}

impl error::Error for QueueError {}

impl From<QueueError> for io::Error {
    fn from(error: QueueError) -> io::Error {
        match error {
            QueueError::Memory => io::Error::new(io::ErrorKind::OutOfMemory, error),
            error => io::Error::other(error),
        }
    }
}

/// The error of an answer that is a refusal.
#[cold]
#[inline(never)]
pub(super) fn refusal_of(answer: &Answer) -> QueueError {
    match answer.code {
        code::INVALID_MAX_SIZE => QueueError::InvalidMaxSize,
        code::INVALID_QUEUE_SIZE => QueueError::InvalidSize,
        code::INVALID_DESC_TABLE_ALIGN => QueueError::InvalidDescTableAlign,
        code::INVALID_AVAIL_RING_ALIGN => QueueError::InvalidAvailRingAlign,
        code::INVALID_USED_RING_ALIGN => QueueError::InvalidUsedRingAlign,
        code::QUEUE_NOT_READY => QueueError::QueueNotReady,
        code::ADDRESS_OVERFLOW => QueueError::AddressOverflow,
        code::INVALID_AVAIL_RING_INDEX => QueueError::InvalidAvailRingIndex,
        code::INVALID_DESCRIPTOR_INDEX => QueueError::InvalidDescriptorIndex,
        code::DESCRIPTOR_LOOP => QueueError::DescriptorLoop,
        code::INDIRECT_WITH_NEXT => QueueError::IndirectWithNext,
        code::NESTED_INDIRECT => QueueError::NestedIndirect,
        code::INVALID_INDIRECT_TABLE => QueueError::InvalidIndirectTable,
        code::CHAIN_ORDER => QueueError::InvalidChain(ChainFault::Order),
        code::CHAIN_TOO_LONG => QueueError::InvalidChain(ChainFault::TooLong),
        code::CHAIN_RANGE => QueueError::InvalidChain(ChainFault::Range),
        code::INVALID_USED_ENTRY => QueueError::InvalidUsedEntry,
        code::IN_FLIGHT => QueueError::InFlight,
        code::TOO_MANY => QueueError::TooMany,
        code::NOT_IN_FLIGHT => QueueError::NotInFlight,
        code::BAD_CALL => QueueError::OtherKind,
        _ => match error_of(answer) {
            Some(MachineError::GuestMemory(GuestMemoryError::Memory)) => QueueError::Memory,
            Some(MachineError::GuestMemory(error)) => QueueError::GuestMemory(error),
            // A queue and a memory that are there are refused in no other way.
            _ => QueueError::Memory,
        },
    }
}
