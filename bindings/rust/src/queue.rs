//! Virtqueues, split and packed, with the names of rust-vmm's `virtio-queue`. crates/virtio_queue/README.md of the
//! repository has their rules.
//!
//! ```
//! use std::io::{Read, Write};
//! use vm_memory_proved::{GuestAddress, Machine};
//!
//! # fn main() -> Result<(), Box<dyn std::error::Error>> {
//! let machine = Machine::new()?;
//! let block = machine.block(0x4000, 0x1000)?;
//! let layout = machine.layout(&[machine.region(block, GuestAddress(0))?])?;
//! let memory = machine.memory(machine.plain(layout)?).unwrap();
//!
//! // A driver publishes one chain: it asks by the bytes at 0x2000, and has room for 8 bytes at 0x3000.
//! memory.write_slice(b"ask", GuestAddress(0x2000))?;
//! for (place, addr, len, flags, next) in [(0, 0x2000_u64, 3_u32, 1_u16, 1_u16), (16, 0x3000, 8, 2, 0)] {
//!     memory.write_obj(addr, GuestAddress(place))?;
//!     memory.write_obj(len, GuestAddress(place + 8))?;
//!     memory.write_obj(flags, GuestAddress(place + 12))?;
//!     memory.write_obj(next, GuestAddress(place + 14))?;
//! }
//! memory.write_obj(1_u16, GuestAddress(0x1002))?;
//!
//! // The device.
//! let queue = machine.queue(2, 16)?;
//! queue.try_set_avail_ring_address(GuestAddress(0x1000))?;
//! queue.try_set_used_ring_address(GuestAddress(0x1100))?;
//! queue.set_ready(true);
//! for chain in queue.iter(&memory) {
//!     let chain = chain?;
//!     let mut asked = String::new();
//!     chain.reader(&memory).read_to_string(&mut asked)?;
//!     let mut writer = chain.writer(&memory);
//!     writer.write_all(asked.to_uppercase().as_bytes())?;
//!     queue.add_used(&memory, chain.head_index(), writer.bytes_written() as u32)?;
//! }
//! assert_eq!(memory.read_obj::<[u8; 4]>(GuestAddress(0x3000))?, *b"ASK\0");
//! assert_eq!(queue.used_idx(&memory)?, 1);
//! # Ok(())
//! # }
//! ```
//!
//! What differs from `virtio-queue`:
//!
//! - What it logs is an error here: of [`set_size`](Queue::set_size), and of
//!   [`pop_descriptor_chain`](Queue::pop_descriptor_chain), where its `None` may be an error or the end.
//! - The machine has the queue, and a [`Queue`] lends the machine. So calls take `&self`, and [`Queue::id`] is what a
//!   program keeps.
//! - Each call takes the memory, as do the reader and the writer of a chain, which keeps none.
//! - A chain that was popped is in flight until its head is returned or forgotten. If the driver publishes that head
//!   again meanwhile, it is not popped. All chains in flight together have at most as many segments as the queue was
//!   made for. The descriptors in an indirect table are segments; the one that names the table is none.
//! - So there is no `go_to_previous_position`: [`forget`](Queue::forget) and [`set_next_avail`](Queue::set_next_avail)
//!   make a chain the next one again.
//! - No call takes an order. Each reads and writes in the order that the VirtIO specification asks of a device.
//! - A [packed](Machine::packed_queue) queue has the same calls. The head of its chain is the driver's id for it. A
//!   chain whose id is not below the greatest size is refused as `InvalidDescriptorIndex`. Its two positions are set
//!   [together](Queue::set_vring_base).

mod chain;
mod error;

pub use chain::{ChainId, DescriptorChain, Reader, Segment, Writer};
pub use error::{ChainFault, QueueError};

use crate::machine::Machine;
use crate::memory::{GuestAddress, GuestMemory};
use crate::number::QueueId;
use crate::raw::{code, kind, part, Answer, Call};
use error::refusal_of;
use std::iter::FusedIterator;
use std::ptr;

/// Everything that a queue keeps, except what lies in guest memory and its chains in flight.
#[derive(Clone, Copy, Debug, PartialEq, Eq)]
pub struct QueueState {
    /// The greatest size that the device allows.
    pub max_size: u16,
    /// How many chains were popped, modulo 2^16. Of a packed queue: the slot where the next chain is popped, with its
    /// wrap counter in bit 15.
    pub next_avail: u16,
    /// How many entries were added to the used ring, modulo 2^16. Of a packed queue: the slot where the next chain is
    /// returned, with its wrap counter in bit 15.
    pub next_used: u16,
    /// Whether notifications go by event indices, and not by flags.
    pub event_idx_enabled: bool,
    /// How many descriptors the table has, and how many entries each ring has.
    pub size: u16,
    /// Whether the driver has enabled the queue.
    pub ready: bool,
    /// The guest address of the table of descriptors, or of the ring of a packed queue.
    pub desc_table: u64,
    /// The guest address of the available ring, or of the driver's area of a packed queue.
    pub avail_ring: u64,
    /// The guest address of the used ring, or of the device's area of a packed queue.
    pub used_ring: u64,
}

impl QueueState {
    /// Both positions of a packed queue, as [`Queue::set_vring_base`] takes them.
    pub fn vring_base(&self) -> u32 {
        u32::from(self.next_avail) | u32::from(self.next_used) << 16
    }
}

/// A queue of a machine, which it lends.
///
/// The calls that take a memory panic if it is one of another machine.
#[derive(Clone, Copy, Debug)]
pub struct Queue<'a> {
    machine: &'a Machine,
    id: QueueId,
}

impl Machine {
    /// Makes a queue in its reset state, with the maximum size. `InvalidMaxSize` if that is not a power of two
    /// from 1 to 32768. All chains that are in flight together have at most `max_descriptors` segments: the descriptors
    /// in an indirect table count, and the one that names the table does not.
    pub fn queue(&self, max_size: u16, max_descriptors: usize) -> Result<Queue<'_>, QueueError> {
        self.make_queue(kind::QUEUE, max_size, max_descriptors)
    }

    /// Makes a packed queue in its reset state, as `queue` makes a split one. `InvalidMaxSize` if the maximum size is
    /// not 1 to 32768.
    pub fn packed_queue(&self, max_size: u16, max_descriptors: usize) -> Result<Queue<'_>, QueueError> {
        self.make_queue(kind::PACKED_QUEUE, max_size, max_descriptors)
    }

    fn make_queue(&self, kind: u32, max_size: u16, max_descriptors: usize) -> Result<Queue<'_>, QueueError> {
        let call = Call {
            kind,
            length: max_size.into(),
            other_length: max_descriptors,
            ..Call::default()
        };
        let answer = self.call(&call, &[], &mut []);
        if answer.code != code::DONE {
            return Err(refusal_of(&answer));
        }
        Ok(Queue {
            machine: self,
            id: QueueId::new(answer.value as usize),
        })
    }

    /// The queue of this number, if there is one.
    pub fn queue_by_id(&self, id: QueueId) -> Option<Queue<'_>> {
        let queue = Queue { machine: self, id };
        queue.try_state().map(|_| queue)
    }
}

impl<'a> Queue<'a> {
    /// The machine that has it.
    pub fn machine(&self) -> &'a Machine {
        self.machine
    }

    /// Its number.
    pub fn id(&self) -> QueueId {
        self.id
    }

    fn call_of(&self, kind: u32) -> Call {
        Call {
            kind,
            first: self.id.number(),
            ..Call::default()
        }
    }

    #[inline]
    fn call_on(&self, kind: u32, mem: &GuestMemory<'_>) -> Call {
        assert!(ptr::eq(self.machine, mem.machine()), "a memory of another machine");
        Call {
            kind,
            first: self.id.number(),
            second: mem.id().number(),
            ..Call::default()
        }
    }

    // Makes a call without input and output.
    #[inline]
    fn ask(&self, call: &Call) -> Result<Answer, QueueError> {
        let mut answer = Answer::default();
        self.make(call, &[], &mut [], &mut answer)?;
        Ok(answer)
    }

    // Makes a call, and puts its answer where it is wanted.
    #[inline]
    fn make(&self, call: &Call, input: &[u8], output: &mut [u8], answer: &mut Answer) -> Result<(), QueueError> {
        self.machine.call_into(call, input, output, answer);
        if answer.code == code::DONE {
            Ok(())
        } else {
            Err(refusal_of(answer))
        }
    }

    // ---- its setup

    /// All that it keeps.
    pub fn state(&self) -> QueueState {
        self.try_state().expect("the machine has the queue that it lent")
    }

    fn try_state(&self) -> Option<QueueState> {
        let mut output = [0; 72];
        let answer = self.machine.call(&self.call_of(kind::QUEUE_STATE), &[], &mut output);
        let number = |place: usize| {
            let bytes = output[8 * place..8 * place + 8].try_into();
            u64::from_le_bytes(bytes.expect("a number has eight bytes"))
        };
        (answer.code == code::DONE).then(|| QueueState {
            max_size: number(0) as u16,
            size: number(1) as u16,
            ready: number(2) == 1,
            desc_table: number(3),
            avail_ring: number(4),
            used_ring: number(5),
            next_avail: number(6) as u16,
            next_used: number(7) as u16,
            event_idx_enabled: number(8) == 1,
        })
    }

    fn set(&self, part: usize, value: u64) -> Result<(), QueueError> {
        let mut call = self.call_of(kind::SET_QUEUE);
        call.second = part;
        call.value = value;
        self.ask(&call).map(drop)
    }

    // Sets a part that may have this value whatever the others are.
    fn set_any(&self, part: usize, value: u64) {
        self.set(part, value).expect("a part that may have any value");
    }

    /// The greatest size that the device allows.
    pub fn max_size(&self) -> u16 {
        self.state().max_size
    }

    /// How many descriptors the table has, and how many entries each ring has.
    pub fn size(&self) -> u16 {
        self.state().size
    }

    /// Sets the size. `InvalidSize` if it is not a power of two from 1 to the greatest size; that of a packed queue
    /// need not be a power of two, and both positions become the beginning of the ring.
    pub fn set_size(&self, size: u16) -> Result<(), QueueError> {
        self.set(part::SIZE, size.into())
    }

    /// Whether the driver has enabled the queue.
    pub fn ready(&self) -> bool {
        self.state().ready
    }

    /// Sets whether the driver has enabled the queue.
    pub fn set_ready(&self, ready: bool) {
        self.set_any(part::READY, ready.into());
    }

    /// The guest address of the table of descriptors, or of the ring of a packed queue.
    pub fn desc_table(&self) -> u64 {
        self.state().desc_table
    }

    /// Sets the address of the table of descriptors. `InvalidDescTableAlign` if it is not a multiple of 16.
    pub fn try_set_desc_table_address(&self, desc_table: GuestAddress) -> Result<(), QueueError> {
        self.set(part::DESC_TABLE, desc_table.0)
    }

    /// The guest address of the available ring, or of the driver's event suppression structure of a packed queue.
    pub fn avail_ring(&self) -> u64 {
        self.state().avail_ring
    }

    /// Sets the address of the available ring. `InvalidAvailRingAlign` if it is not a multiple of 2, or that of the
    /// driver's area of a packed queue not one of 4.
    pub fn try_set_avail_ring_address(&self, avail_ring: GuestAddress) -> Result<(), QueueError> {
        self.set(part::AVAIL_RING, avail_ring.0)
    }

    /// The guest address of the used ring, or of the device's event suppression structure of a packed queue.
    pub fn used_ring(&self) -> u64 {
        self.state().used_ring
    }

    /// Sets the address of the used ring. `InvalidUsedRingAlign` if it is not a multiple of 4.
    pub fn try_set_used_ring_address(&self, used_ring: GuestAddress) -> Result<(), QueueError> {
        self.set(part::USED_RING, used_ring.0)
    }

    /// Whether notifications go by event indices, and not by flags.
    pub fn event_idx_enabled(&self) -> bool {
        self.state().event_idx_enabled
    }

    /// Sets whether notifications go by event indices, and not by flags.
    pub fn set_event_idx(&self, enabled: bool) {
        self.set_any(part::EVENT_IDX, enabled.into());
    }

    /// The index of the entry of the available ring that is popped next, modulo 2^16. Of a packed queue: the slot, with
    /// its wrap counter in bit 15.
    pub fn next_avail(&self) -> u16 {
        self.state().next_avail
    }

    /// Sets which entry of the available ring is popped next. It panics if the queue is packed.
    pub fn set_next_avail(&self, next_avail: u16) {
        self.set_any(part::NEXT_AVAIL, next_avail.into());
    }

    /// The index of the entry of the used ring that is written next, modulo 2^16. Of a packed queue: the slot, with its
    /// wrap counter in bit 15.
    pub fn next_used(&self) -> u16 {
        self.state().next_used
    }

    /// Sets which entry of the used ring is written next. Which entries the driver was notified of is not known then,
    /// so the next `needs_notification` is true. It panics if the queue is packed.
    pub fn set_next_used(&self, next_used: u16) {
        self.set_any(part::NEXT_USED, next_used.into());
    }

    /// Sets both positions of a packed queue, as messages of vhost have them: in the low half where the next chain is
    /// popped, in the high half where the next one is returned, each as a slot with its wrap counter in bit 15. Which
    /// slots the driver was notified of is not known then, so the next `needs_notification` is true.
    /// `InvalidAvailRingIndex` if the queue cannot stand there, and `OtherKind` if it is split.
    pub fn set_vring_base(&self, base: u32) -> Result<(), QueueError> {
        self.set(part::VRING_BASE, base.into())
    }

    /// Makes it what [`Machine::queue`] or [`Machine::packed_queue`] made: not ready, of the greatest size, at the
    /// beginning, with no addresses, and with no chain in flight.
    pub fn reset(&self) {
        let done = self.ask(&self.call_of(kind::RESET_QUEUE));
        done.expect("the machine has the queue that it lent");
    }

    // ---- chains

    /// Whether the table of descriptors and the rings lie whole in memory, and the device may read the first two and
    /// write the third.
    pub fn is_valid(&self, mem: &GuestMemory<'_>) -> Result<bool, QueueError> {
        let answer = self.ask(&self.call_on(kind::QUEUE_IS_VALID, mem))?;
        Ok(answer.value == 1)
    }

    /// How many heads the driver has published, modulo 2^16. `OtherKind` if the queue is packed.
    pub fn avail_idx(&self, mem: &GuestMemory<'_>) -> Result<u16, QueueError> {
        let answer = self.ask(&self.call_on(kind::AVAIL_IDX, mem))?;
        Ok(answer.value as u16)
    }

    /// How many entries the device has published, modulo 2^16, as it lies in the used ring. `OtherKind` if the queue is
    /// packed.
    pub fn used_idx(&self, mem: &GuestMemory<'_>) -> Result<u16, QueueError> {
        let answer = self.ask(&self.call_on(kind::USED_IDX, mem))?;
        Ok(answer.value as u16)
    }

    /// Pops the next chain that the driver has published, or `None` if there is none. It is in flight then.
    ///
    /// The first thing that is wrong is the error, in the order of crates/virtio_queue/README.md, "Popping". `InFlight`
    /// if the chain of this head is in flight, and `TooMany` if all chains in flight would have too many descriptors.
    /// After an error the next call meets the same chain. After one that is the driver's fault a device has to be
    /// reset.
    #[inline]
    pub fn pop_descriptor_chain(&self, mem: &GuestMemory<'_>) -> Result<Option<DescriptorChain<'a>>, QueueError> {
        let call = self.call_on(kind::POP, mem);
        let mut answer = Answer::default();
        self.machine.call_into(&call, &[], &mut [], &mut answer);
        match answer.code {
            code::DONE => Ok(Some(DescriptorChain::new(*self, &answer))),
            code::NO_CHAIN => Ok(None),
            _ => Err(refusal_of(&answer)),
        }
    }

    /// Pops chains until there is none or one is refused, which is the last item. A guest may publish without end:
    /// `take` bounds how many are popped.
    pub fn iter(&self, mem: &GuestMemory<'a>) -> AvailIter<'a> {
        AvailIter {
            queue: *self,
            mem: *mem,
            is_over: false,
        }
    }

    /// Returns the chain in flight of this head, to which `len` bytes were written, so that it is in flight no more.
    /// `NotInFlight` if there is none. After any other error it stays in flight.
    #[inline]
    pub fn add_used(&self, mem: &GuestMemory<'_>, head_index: u16, len: u32) -> Result<(), QueueError> {
        let mut call = self.call_on(kind::ADD_USED, mem);
        call.third = head_index.into();
        call.value = len.into();
        self.ask(&call).map(drop)
    }

    /// Drops the chain in flight of this head and returns nothing to the driver. `NotInFlight` if there is none.
    pub fn forget(&self, head_index: u16) -> Result<(), QueueError> {
        let mut call = self.call_of(kind::FORGET);
        call.third = head_index.into();
        self.ask(&call).map(drop)
    }

    // ---- notifications

    /// Whether the driver wants to be notified: with event indices only of what was returned since this was asked.
    #[inline]
    pub fn needs_notification(&self, mem: &GuestMemory<'_>) -> Result<bool, QueueError> {
        let answer = self.ask(&self.call_on(kind::NEEDS_NOTIFICATION, mem))?;
        Ok(answer.value == 1)
    }

    /// Asks the driver to notify the device of what it publishes next, and says whether it has published more by then.
    /// If so, the device goes on popping, as the driver may not notify it of that. If not, it may wait.
    #[inline]
    pub fn enable_notification(&self, mem: &GuestMemory<'_>) -> Result<bool, QueueError> {
        let answer = self.ask(&self.call_on(kind::ENABLE_NOTIFICATION, mem))?;
        Ok(answer.value == 1)
    }

    /// Asks the driver not to notify the device. With event indices it does nothing for a split queue.
    #[inline]
    pub fn disable_notification(&self, mem: &GuestMemory<'_>) -> Result<(), QueueError> {
        self.ask(&self.call_on(kind::DISABLE_NOTIFICATION, mem)).map(drop)
    }
}

/// The chains that a driver has published, each popped as it is asked for.
#[derive(Clone, Debug)]
pub struct AvailIter<'a> {
    queue: Queue<'a>,
    mem: GuestMemory<'a>,
    is_over: bool,
}

impl<'a> Iterator for AvailIter<'a> {
    type Item = Result<DescriptorChain<'a>, QueueError>;

    fn next(&mut self) -> Option<Self::Item> {
        if self.is_over {
            return None;
        }
        let popped = self.queue.pop_descriptor_chain(&self.mem).transpose();
        self.is_over = !matches!(popped, Some(Ok(_)));
        popped
    }
}

impl FusedIterator for AvailIter<'_> {}
