//! Messages of a vhost front end on a device's I/O table. crates/vhost_iotlb/README.md of the repository has their
//! rules, and docs/BINDINGS.md how a call that misses a mapping is made again.
//!
//! ```
//! use vm_memory_proved::iotlb::UserRegion;
//! use vm_memory_proved::{GuestAddress, Machine};
//!
//! let machine = Machine::new()?;
//! let block = machine.block(0x1000, 0x1000)?;
//! let layout = machine.layout(&[machine.region(block, GuestAddress(0x4000))?])?;
//! let translator = machine.translator(machine.table(Some(64))?)?;
//! let memory = machine.new_memory(layout, translator, machine.space(1 << 20, 0x1000)?, true)?;
//!
//! // The front end announced the block, and maps the address 0x10 to its third byte, to read and write: UPDATE is 2.
//! let announced = [UserRegion {
//!     user_address: 0x7f00_0000,
//!     guest_address: GuestAddress(0x4000),
//!     len: 0x1000,
//! }];
//! let mut update = [0; 32];
//! for (place, number) in [0x10_u64, 1, 0x7f00_0002, 0x0203].into_iter().enumerate() {
//!     update[8 * place..8 * (place + 1)].copy_from_slice(&number.to_le_bytes());
//! }
//! machine.apply_iotlb(memory, &update, &announced)?;
//! machine.memory(memory).unwrap().write_obj(7_u8, GuestAddress(0x10))?;
//! # Ok::<(), Box<dyn std::error::Error>>(())
//! ```

use crate::error::{error_of, MachineError};
use crate::machine::{zeroed, Machine};
use crate::memory::GuestAddress;
use crate::number::MemoryId;
use crate::raw::{code, kind, Answer, Call};
use std::{error, fmt};

/// How many bytes a message has.
pub const PAYLOAD_LEN: usize = 32;

// Where a message has its kind, and which kind has a user address.
const KIND: usize = 25;
const UPDATE: u8 = 2;

// How many bytes a part of announced memory has in the input.
const ROW_LEN: usize = 24;

/// A part of the front end's memory, and the guest memory that it is.
#[derive(Clone, Copy, Debug, PartialEq, Eq)]
pub struct UserRegion {
    /// Where it begins in the front end's memory.
    pub user_address: u64,
    /// Where it begins in guest memory.
    pub guest_address: GuestAddress,
    /// How many bytes it has.
    pub len: u64,
}

/// Why a message is malformed. It maps nothing.
#[derive(Clone, Copy, Debug, PartialEq, Eq)]
pub enum Malformed {
    /// No kind of messages has this number, or a front end sends none of this kind.
    Kind,
    /// An UPDATE or an INVALIDATE of no addresses.
    EmptyRange,
    /// The range of an UPDATE ends past 2^64 - 1, or that of an INVALIDATE past 2^64.
    Range,
    /// The permissions are none, or no permissions.
    Permissions,
    /// The memory that the front end announced does not hold the range of an UPDATE.
    UserAddress,
}

impl fmt::Display for Malformed {
    fn fmt(&self, f: &mut fmt::Formatter<'_>) -> fmt::Result {
        f.write_str(match self {
            Malformed::Kind => "unknown kind of message",
            Malformed::EmptyRange => "empty range",
            Malformed::Range => "range past the last address",
            Malformed::Permissions => "no permissions",
            Malformed::UserAddress => "user address outside the announced memory",
        })
    }
}

impl error::Error for Malformed {}

/// Why a message was not applied. Then no mapping was added; a malformed INVALIDATE took back all that there were.
#[derive(Debug)]
pub enum IotlbError {
    /// The message is malformed.
    Malformed(Malformed),
    /// The memory does not lie behind an I/O table, or its IOMMU is off.
    NoTable,
    /// The machine has no such memory, or an allocation failed. No INVALIDATE is refused for the latter.
    Machine(MachineError),
}

impl fmt::Display for IotlbError {
    fn fmt(&self, f: &mut fmt::Formatter<'_>) -> fmt::Result {
        match self {
            IotlbError::Malformed(malformed) => write!(f, "malformed message: {malformed}"),
            IotlbError::NoTable => f.write_str("the memory lies behind no I/O table"),
            IotlbError::Machine(error) => error.fmt(f),
        }
    }
}

impl error::Error for IotlbError {}

fn refusal_of(answer: &Answer) -> Option<IotlbError> {
    let malformed = match answer.code {
        code::NO_IOTLB => return Some(IotlbError::NoTable),
        code::MESSAGE_KIND => Malformed::Kind,
        code::MESSAGE_EMPTY_RANGE => Malformed::EmptyRange,
        code::MESSAGE_RANGE => Malformed::Range,
        code::MESSAGE_PERMISSIONS => Malformed::Permissions,
        code::MESSAGE_USER_ADDRESS => Malformed::UserAddress,
        _ => return error_of(answer).map(IotlbError::Machine),
    };
    Some(IotlbError::Malformed(malformed))
}

// A message, and a row for each part of the announced memory.
fn input_of(message: &[u8; PAYLOAD_LEN], announced: &[UserRegion]) -> Result<Vec<u8>, MachineError> {
    let mut input = zeroed(PAYLOAD_LEN + ROW_LEN * announced.len())?;
    let (payload, rows) = input.split_at_mut(PAYLOAD_LEN);
    payload.copy_from_slice(message);
    for (row, region) in rows.chunks_exact_mut(ROW_LEN).zip(announced) {
        let numbers = [region.user_address, region.guest_address.0, region.len];
        for (bytes, number) in row.chunks_exact_mut(8).zip(numbers) {
            bytes.copy_from_slice(&number.to_le_bytes());
        }
    }
    Ok(input)
}

impl Machine {
    /// Applies the 32 bytes of a front end's message to the I/O table of a memory whose IOMMU is on: an UPDATE maps its
    /// range to the announced memory that its user address is, and an INVALIDATE takes the mappings of its range back.
    /// It reads none of `announced` for an INVALIDATE. Returns how many ranges the table evicted for an UPDATE, and 0
    /// for an INVALIDATE.
    ///
    /// A call that was refused for a missing mapping ([`take_miss`](Machine::take_miss)) is made again after its UPDATE
    /// was applied so, and again, until it is not. It passes the same bytes each time: a device keeps what it took from
    /// a source, such as a socket, until then. If the front end maps each address that is missed, and takes no mapping
    /// back meanwhile, this ends: behind a table that keeps `limit` ranges by the call of number `limit + 2` at the
    /// latest, with [`TableTooSmall`](crate::IommuError::TableTooSmall) if it needs more ranges. If another call misses
    /// in between, this begins anew: two calls that take turns may never end.
    pub fn apply_iotlb(
        &self,
        memory: MemoryId,
        message: &[u8; PAYLOAD_LEN],
        announced: &[UserRegion],
    ) -> Result<usize, IotlbError> {
        let call = Call {
            kind: kind::IOTLB_MESSAGE,
            first: memory.number(),
            ..Call::default()
        };
        let answer = if message[KIND] == UPDATE {
            let input = input_of(message, announced).map_err(IotlbError::Machine)?;
            self.call(&call, &input, &mut [])
        } else {
            self.call(&call, message, &mut [])
        };
        refusal_of(&answer).map_or(Ok(answer.value as usize), Err)
    }
}
