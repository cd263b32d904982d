//! Chains that were popped, and what reads and writes them.

use super::error::refusal_of;
use super::{Queue, QueueError};
use crate::memory::{GuestAddress, GuestMemory};
use crate::raw::{code, kind, Answer, Call};
use crate::value::ByteValued;
use std::io;

// How many bytes a list has for a segment: its address and its length.
const ROW: usize = 16;

// How many segments the first call for a list has room for.
const SEGMENTS: usize = 1024;

/// A chain that was popped: bytes that the device reads, and then bytes that it writes.
///
/// It is in flight until [`Queue::add_used`] or [`complete_at`](Self::complete_at) returns its head, or
/// [`Queue::forget`] drops it. Dropping this value does
/// neither. A call on a chain that is in flight no more is refused with `NotInFlight`; if its head was popped again, it
/// reaches the new chain.
#[derive(Clone, Debug)]
#[must_use = "the chain is in flight until `add_used` or `forget`"]
pub struct DescriptorChain<'a> {
    queue: Queue<'a>,
    head: u16,
    readable: usize,
    writable: usize,
}

/// What a program keeps of a chain in flight, if it goes on with it later. [`Queue::chain_by_id`] gives the chain.
#[derive(Clone, Copy, Debug, PartialEq, Eq)]
pub struct ChainId {
    head: u16,
    readable: usize,
    writable: usize,
}

/// A part of a chain: `len` bytes of guest memory from an address on.
#[derive(Clone, Copy, Debug, PartialEq, Eq)]
pub struct Segment {
    /// The guest address of its first byte.
    pub addr: GuestAddress,
    /// Its number of bytes.
    pub len: usize,
    /// Whether the device writes it. Otherwise the device reads it.
    pub is_write_only: bool,
}

impl Segment {
    // The one of a row of a list.
    fn new(row: &[u8], is_write_only: bool) -> Segment {
        let number = |bytes: &[u8]| u64::from_le_bytes(bytes.try_into().expect("a number has eight bytes"));
        let (addr, len) = row.split_at(ROW / 2);
        Segment {
            addr: GuestAddress(number(addr)),
            len: number(len) as usize,
            is_write_only,
        }
    }
}

impl<'a> Queue<'a> {
    /// A chain that this queue popped. It is in flight until it is returned or forgotten.
    pub fn chain_by_id(&self, id: ChainId) -> DescriptorChain<'a> {
        DescriptorChain {
            queue: *self,
            head: id.head,
            readable: id.readable,
            writable: id.writable,
        }
    }
}

impl<'a> DescriptorChain<'a> {
    // The one of an answer to POP.
    #[inline]
    pub(super) fn new(queue: Queue<'a>, answer: &Answer) -> DescriptorChain<'a> {
        DescriptorChain {
            queue,
            head: answer.value as u16,
            readable: answer.count,
            writable: answer.address as usize,
        }
    }

    /// What a program keeps of it.
    pub fn id(&self) -> ChainId {
        ChainId {
            head: self.head,
            readable: self.readable,
            writable: self.writable,
        }
    }

    /// The index of its first descriptor.
    pub fn head_index(&self) -> u16 {
        self.head
    }

    /// How many bytes the device may read.
    pub fn readable_len(&self) -> usize {
        self.readable
    }

    /// How many bytes the device may write.
    pub fn writable_len(&self) -> usize {
        self.writable
    }

    /// Its segments, as the driver's descriptors had them when it was popped: those that the device reads, and then
    /// those that it writes. `NotInFlight` if it is in flight no more.
    pub fn segments(&self) -> Result<Vec<Segment>, QueueError> {
        let mut call = self.queue.call_of(kind::LIST_SEGMENTS);
        call.third = self.head.into();
        let (mut rows, mut answer) = (vec![0; ROW * SEGMENTS], Answer::default());
        self.queue.machine.call_into(&call, &[], &mut rows, &mut answer);
        if answer.code == code::SHORT {
            rows.resize(answer.count, 0);
            self.queue.machine.call_into(&call, &[], &mut rows, &mut answer);
        }
        if answer.code != code::DONE {
            return Err(refusal_of(&answer));
        }
        let readable = answer.value as usize;
        let rows = rows.chunks_exact(ROW).take(answer.count).enumerate();
        Ok(rows.map(|(place, row)| Segment::new(row, place >= readable)).collect())
    }

    #[inline]
    pub(crate) fn call_at(&self, kind: u32, mem: &GuestMemory<'_>, offset: usize) -> Call {
        let mut call = self.queue.call_on(kind, mem);
        call.third = self.head.into();
        call.address = offset as u64;
        call
    }

    // Makes a call without input and output.
    #[inline]
    pub(crate) fn ask(&self, call: &Call) -> Result<Answer, QueueError> {
        self.queue.ask(call)
    }

    /// Reads its readable bytes from `offset` on into the front of the buffer, and returns how many: fewer than the
    /// buffer has at their end, or before an address without memory. An error if that is the first address.
    #[inline]
    pub fn read_at(&self, mem: &GuestMemory<'_>, offset: usize, buf: &mut [u8]) -> Result<usize, QueueError> {
        let mut call = self.call_at(kind::READ_CHAIN, mem, offset);
        call.length = buf.len();
        let mut answer = Answer::default();
        self.queue.make(&call, &[], buf, &mut answer)?;
        Ok(answer.count)
    }

    /// Writes the beginning of the buffer to its writable bytes from `offset` on, and returns how many bytes that is:
    /// fewer than the buffer has at their end, or before an address without memory. An error if that is the first
    /// address.
    #[inline]
    pub fn write_at(&self, mem: &GuestMemory<'_>, offset: usize, buf: &[u8]) -> Result<usize, QueueError> {
        let call = self.call_at(kind::WRITE_CHAIN, mem, offset);
        let mut answer = Answer::default();
        self.queue.make(&call, buf, &mut [], &mut answer)?;
        Ok(answer.count)
    }

    /// Writes the buffer to its writable bytes from `offset` on, and returns the chain to the driver, to which `len`
    /// bytes were written in all: `write_at` and `add_used` in one call of the machine. If the chain does not take the
    /// whole buffer, it stays in flight, and the error is that of the write, or `PartialBuffer` with how many bytes it
    /// took.
    #[inline]
    pub fn complete_at(&self, mem: &GuestMemory<'_>, offset: usize, buf: &[u8], len: u32) -> Result<(), QueueError> {
        let mut call = self.call_at(kind::COMPLETE_CHAIN, mem, offset);
        call.value = len.into();
        let mut answer = Answer::default();
        self.queue.make(&call, buf, &mut [], &mut answer)
    }

    /// A reader of its readable bytes, from the first on.
    pub fn reader(&self, mem: &GuestMemory<'a>) -> Reader<'a> {
        Reader {
            chain: self.clone(),
            mem: *mem,
            count: 0,
        }
    }

    /// A writer of its writable bytes, from the first on.
    pub fn writer(&self, mem: &GuestMemory<'a>) -> Writer<'a> {
        Writer {
            chain: self.clone(),
            mem: *mem,
            count: 0,
        }
    }
}

/// A place in the readable bytes of a chain. Each `read` is one call of the machine, whatever its length.
#[derive(Clone, Debug)]
pub struct Reader<'a> {
    chain: DescriptorChain<'a>,
    mem: GuestMemory<'a>,
    count: usize,
}

impl Reader<'_> {
    /// How many bytes are left.
    pub fn available_bytes(&self) -> usize {
        self.chain.readable.saturating_sub(self.count)
    }

    /// How many bytes were read.
    pub fn bytes_read(&self) -> usize {
        self.count
    }

    /// Reads the bytes of a value.
    pub fn read_obj<T: ByteValued>(&mut self) -> io::Result<T> {
        let mut bytes = T::zeroed();
        io::Read::read_exact(self, bytes.as_mut())?;
        Ok(T::from_bytes(bytes))
    }
}

impl io::Read for Reader<'_> {
    fn read(&mut self, buf: &mut [u8]) -> io::Result<usize> {
        let read = self.chain.read_at(&self.mem, self.count, buf)?;
        self.count += read;
        Ok(read)
    }
}

/// A place in the writable bytes of a chain. Each `write` is one call of the machine, whatever its length.
#[derive(Clone, Debug)]
pub struct Writer<'a> {
    chain: DescriptorChain<'a>,
    mem: GuestMemory<'a>,
    count: usize,
}

impl Writer<'_> {
    /// How many bytes are left.
    pub fn available_bytes(&self) -> usize {
        self.chain.writable.saturating_sub(self.count)
    }

    /// How many bytes were written.
    pub fn bytes_written(&self) -> usize {
        self.count
    }

    /// Writes the bytes of a value.
    pub fn write_obj<T: ByteValued>(&mut self, val: T) -> io::Result<()> {
        io::Write::write_all(self, val.to_bytes().as_ref())
    }
}

impl io::Write for Writer<'_> {
    fn write(&mut self, buf: &[u8]) -> io::Result<usize> {
        let written = self.chain.write_at(&self.mem, self.count, buf)?;
        self.count += written;
        Ok(written)
    }

    fn flush(&mut self) -> io::Result<()> {
        Ok(())
    }
}
