//! Guest memory of a machine.

use crate::error::{error_of, GuestMemoryError};
use crate::machine::{Machine, Permissions};
use crate::number::MemoryId;
use crate::raw::{code, kind, Answer, Call};
use crate::value::{AtomicAccess, ByteValued};
use std::sync::atomic::Ordering;

/// An address of a guest: physical, or an I/O address behind an IOMMU.
#[derive(Clone, Copy, Debug, Default, PartialEq, Eq, PartialOrd, Ord, Hash)]
pub struct GuestAddress(pub u64);

/// A memory of a machine, which it lends. Its calls are those of `Bytes<GuestAddress>` of the Rust crate vm-memory,
/// with the same names, over `Read` and `Write`.
#[derive(Clone, Copy, Debug)]
pub struct GuestMemory<'a> {
    machine: &'a Machine,
    id: MemoryId,
}

impl<'a> GuestMemory<'a> {
    pub(crate) fn new(machine: &'a Machine, id: MemoryId) -> GuestMemory<'a> {
        GuestMemory { machine, id }
    }

    /// The machine that has it.
    pub fn machine(&self) -> &'a Machine {
        self.machine
    }

    /// Its number.
    pub fn id(&self) -> MemoryId {
        self.id
    }

    #[inline]
    pub(crate) fn at(&self, kind: u32, addr: GuestAddress, length: usize) -> Call {
        Call {
            kind,
            first: self.id.number(),
            address: addr.0,
            length,
            ..Call::default()
        }
    }

    // Makes a call that accesses the memory, and tells why it was refused, if it was.
    #[inline]
    fn access(
        &self,
        call: &Call,
        input: &[u8],
        output: &mut [u8],
        answer: &mut Answer,
    ) -> Result<(), GuestMemoryError> {
        self.machine.call_into(call, input, output, answer);
        if answer.code == code::DONE {
            Ok(())
        } else {
            Err(refusal_of(answer))
        }
    }

    /// Writes the beginning of the buffer that fits, and returns how many bytes that is.
    #[inline]
    pub fn write(&self, buf: &[u8], addr: GuestAddress) -> Result<usize, GuestMemoryError> {
        let mut answer = Answer::default();
        self.access(&self.at(kind::WRITE, addr, 0), buf, &mut [], &mut answer)?;
        Ok(answer.count)
    }

    /// Marks the pages that a write of `count` bytes at an address would reach, and returns the number of these bytes.
    /// It reads and writes none of them. It marks the blocks themselves, also behind an IOMMU, where a write marks only
    /// its space.
    pub fn mark_reached(&self, addr: GuestAddress, count: usize) -> Result<usize, GuestMemoryError> {
        let mut answer = Answer::default();
        self.access(&self.at(kind::MARK_REACHED, addr, count), &[], &mut [], &mut answer)?;
        Ok(answer.count)
    }

    /// Reads into the beginning of the buffer, and returns how many bytes that is.
    #[inline]
    pub fn read(&self, buf: &mut [u8], addr: GuestAddress) -> Result<usize, GuestMemoryError> {
        let mut answer = Answer::default();
        self.access(&self.at(kind::READ, addr, buf.len()), &[], buf, &mut answer)?;
        Ok(answer.count)
    }

    /// Writes the whole buffer. If only its beginning fits, it writes that, and the error says how long it is.
    #[inline]
    pub fn write_slice(&self, buf: &[u8], addr: GuestAddress) -> Result<(), GuestMemoryError> {
        self.access(
            &self.at(kind::WRITE_SLICE, addr, 0),
            buf,
            &mut [],
            &mut Answer::default(),
        )
    }

    /// Fills the whole buffer. If only its beginning can be filled, it fills that, and the error says how long it is.
    #[inline]
    pub fn read_slice(&self, buf: &mut [u8], addr: GuestAddress) -> Result<(), GuestMemoryError> {
        self.access(
            &self.at(kind::READ_SLICE, addr, buf.len()),
            &[],
            buf,
            &mut Answer::default(),
        )
    }

    /// Writes the bytes of a value.
    pub fn write_obj<T: ByteValued>(&self, val: T, addr: GuestAddress) -> Result<(), GuestMemoryError> {
        self.write_slice(val.to_bytes().as_ref(), addr)
    }

    /// Reads the bytes of a value.
    pub fn read_obj<T: ByteValued>(&self, addr: GuestAddress) -> Result<T, GuestMemoryError> {
        let mut bytes = T::zeroed();
        self.read_slice(bytes.as_mut(), addr)?;
        Ok(T::from_bytes(bytes))
    }

    /// Stores a value as one integer. The machine is not shared, so each order is the same.
    #[inline]
    pub fn store<T: AtomicAccess>(&self, val: T, addr: GuestAddress, _order: Ordering) -> Result<(), GuestMemoryError> {
        let mut call = self.at(kind::STORE, addr, 0);
        call.width = T::WIDTH;
        call.value = val.to_number();
        self.access(&call, &[], &mut [], &mut Answer::default())
    }

    /// Loads a value as one integer.
    #[inline]
    pub fn load<T: AtomicAccess>(&self, addr: GuestAddress, _order: Ordering) -> Result<T, GuestMemoryError> {
        let mut call = self.at(kind::LOAD, addr, 0);
        call.width = T::WIDTH;
        let mut answer = Answer::default();
        self.access(&call, &[], &mut [], &mut answer)?;
        Ok(T::from_number(answer.value))
    }

    /// Whether each of `count` bytes exists and may be accessed so.
    pub fn check_range(&self, addr: GuestAddress, count: usize, access: Permissions) -> bool {
        let mut call = self.at(kind::CHECK_RANGE, addr, count);
        call.access = access as u32;
        matches!(self.machine.ask(call), Ok(answer) if answer.value == 1)
    }
}

#[cold]
#[inline(never)]
fn refusal_of(answer: &Answer) -> GuestMemoryError {
    // No access lists ranges, so each answer but `DONE` has an error.
    error_of(answer).map_or(GuestMemoryError::Memory, GuestMemoryError::from)
}
