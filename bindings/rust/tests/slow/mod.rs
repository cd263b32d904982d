//! A slow reading of queues: what a ring holds for a device, byte by byte, by the rules of the VirtIO specification for
//! split virtqueues (version 1.2, 2.7) in the order of crates/virtio_queue/README.md.
#![allow(dead_code)]

use std::collections::HashSet;
use vm_memory_proved::queue::{ChainFault, QueueError};

/// The bytes of a guest: ranges of addresses, ascending.
pub struct Image {
    ranges: Vec<(u64, Vec<u8>)>,
}

impl Image {
    pub fn new(ranges: &[(u64, usize)], byte: impl Fn(usize) -> u8) -> Image {
        let bytes = |size: usize| (0..size).map(&byte).collect();
        let ranges = ranges.iter().map(|&(addr, size)| (addr, bytes(size)));
        Image {
            ranges: ranges.collect(),
        }
    }

    /// These ranges, ascending.
    pub fn of(ranges: Vec<(u64, Vec<u8>)>) -> Image {
        Image { ranges }
    }

    pub fn ranges(&self) -> &[(u64, Vec<u8>)] {
        &self.ranges
    }

    fn place(&self, addr: u64) -> Option<(usize, usize)> {
        let range = self
            .ranges
            .partition_point(|(start, _)| *start <= addr)
            .checked_sub(1)?;
        let offset = (addr - self.ranges[range].0) as usize;
        (offset < self.ranges[range].1.len()).then_some((range, offset))
    }

    pub fn byte(&self, addr: u64) -> Option<u8> {
        self.place(addr).map(|(range, offset)| self.ranges[range].1[offset])
    }

    /// Sets a byte, if there is one.
    pub fn set(&mut self, addr: u64, value: u8) {
        if let Some((range, offset)) = self.place(addr) {
            self.ranges[range].1[offset] = value;
        }
    }

    /// Sets those of the lowest bytes of a number that are there.
    pub fn put(&mut self, addr: u64, value: u64, count: usize) {
        for (i, byte) in value.to_le_bytes()[..count].iter().enumerate() {
            self.set(addr.wrapping_add(i as u64), *byte);
        }
    }

    /// A number of a given width in bytes.
    pub fn number(&self, addr: u64, count: u64) -> Result<u64, Refusal> {
        if addr.checked_add(count - 1).is_none() {
            return Err(Refusal::new("AddressOverflow"));
        }
        let mut value = 0;
        for i in (0..count).rev() {
            let byte = self.byte(addr + i).ok_or(Refusal::GuestMemory(addr, count))?;
            value = value << 8 | u64::from(byte);
        }
        Ok(value)
    }
}

/// A queue as its device has it.
#[derive(Clone, Copy, Debug)]
pub struct Setup {
    pub size: u64,
    pub desc_table: u64,
    pub avail_ring: u64,
    pub next_avail: u16,
}

#[derive(Clone, Copy, Debug, PartialEq, Eq)]
pub struct Segment {
    pub addr: u64,
    pub len: u64,
    pub is_written: bool,
}

#[derive(Clone, Copy, Debug, PartialEq, Eq)]
pub enum Refusal {
    /// The access of these bytes is refused.
    GuestMemory(u64, u64),
    /// Another error, by its name.
    Named(&'static str),
}

impl Refusal {
    fn new(name: &'static str) -> Refusal {
        Refusal::Named(name)
    }

    pub fn name(&self) -> &'static str {
        match self {
            Refusal::GuestMemory(..) => "GuestMemory",
            Refusal::Named(name) => name,
        }
    }
}

/// The name of an error.
pub fn name_of(error: &QueueError) -> &'static str {
    match error {
        QueueError::QueueNotReady => "QueueNotReady",
        QueueError::AddressOverflow => "AddressOverflow",
        QueueError::InvalidAvailRingIndex => "InvalidAvailRingIndex",
        QueueError::InvalidDescriptorIndex => "InvalidDescriptorIndex",
        QueueError::DescriptorLoop => "DescriptorLoop",
        QueueError::IndirectWithNext => "IndirectWithNext",
        QueueError::NestedIndirect => "NestedIndirect",
        QueueError::InvalidIndirectTable => "InvalidIndirectTable",
        QueueError::InvalidChain(ChainFault::Order) => "InvalidChain order",
        QueueError::InvalidChain(ChainFault::TooLong) => "InvalidChain length",
        QueueError::InvalidChain(ChainFault::Range) => "InvalidChain range",
        QueueError::GuestMemory(_) => "GuestMemory",
        QueueError::Memory => "Memory",
        _ => "other",
    }
}

/// A chain with its head, or none, or why there is none.
pub type Popped = Result<Option<(u16, Vec<Segment>)>, Refusal>;

/// What a device pops next.
pub fn popped(image: &Image, setup: &Setup) -> Popped {
    let index = image.number(setup.avail_ring.saturating_add(2), 2)?;
    let ahead = (index as u16).wrapping_sub(setup.next_avail);
    if ahead == 0 {
        return Ok(None);
    }
    if u64::from(ahead) > setup.size {
        return Err(Refusal::new("InvalidAvailRingIndex"));
    }
    let slot = u64::from(setup.next_avail) % setup.size;
    let head = image.number(setup.avail_ring.saturating_add(4 + 2 * slot), 2)?;
    let segments = segments(image, setup, head)?;
    match fault(&segments) {
        Some(name) => Err(Refusal::new(name)),
        None => Ok(Some((head as u16, segments))),
    }
}

// The segments of a head: those of its descriptors, up to an indirect one, and then those of its table.
fn segments(image: &Image, setup: &Setup, head: u64) -> Result<Vec<Segment>, Refusal> {
    let (mut table, mut len, mut index) = (setup.desc_table, setup.size, head);
    let (mut seen, mut is_inner, mut segments) = (HashSet::new(), false, Vec::new());
    loop {
        if index >= len {
            return Err(Refusal::new("InvalidDescriptorIndex"));
        }
        if !seen.insert(index) {
            return Err(Refusal::new("DescriptorLoop"));
        }
        let [addr, bytes, flags, next] = descriptor(image, table, index)?;
        let (has_next, is_written, is_indirect) = (flags & 1 != 0, flags & 2 != 0, flags & 4 != 0);
        if is_indirect {
            len = indirect_len(is_inner, has_next, bytes)?;
            (table, index, is_inner) = (addr, 0, true);
            seen.clear();
            continue;
        }
        segments.push(Segment {
            addr,
            len: bytes,
            is_written,
        });
        if !has_next {
            return Ok(segments);
        }
        index = next;
    }
}

/// The fields of a descriptor: address, length, flags and next.
pub fn descriptor(image: &Image, table: u64, index: u64) -> Result<[u64; 4], Refusal> {
    let place = table.checked_add(16 * index).filter(|place| *place <= u64::MAX - 15);
    let place = place.ok_or(Refusal::new("AddressOverflow"))?;
    let field = |(offset, count)| image.number(place + offset, count);
    match [(0, 8), (8, 4), (12, 2), (14, 2)].map(field) {
        [Ok(addr), Ok(len), Ok(flags), Ok(next)] => Ok([addr, len, flags, next]),
        _ => Err(Refusal::GuestMemory(place, 16)),
    }
}

/// How many descriptors the table of an indirect one has.
pub fn indirect_len(is_inner: bool, has_next: bool, bytes: u64) -> Result<u64, Refusal> {
    if is_inner {
        Err(Refusal::new("NestedIndirect"))
    } else if has_next {
        Err(Refusal::new("IndirectWithNext"))
    } else if bytes == 0 || bytes % 16 != 0 || bytes > 16 * 65_535 {
        Err(Refusal::new("InvalidIndirectTable"))
    } else {
        Ok(bytes / 16)
    }
}

/// Why segments make no chain: the first one that cannot follow those before it.
pub fn fault(segments: &[Segment]) -> Option<&'static str> {
    let (mut total, mut writes) = (0, false);
    for segment in segments {
        if segment.addr.checked_add(segment.len).is_none() {
            return Some("InvalidChain range");
        }
        if writes && !segment.is_written {
            return Some("InvalidChain order");
        }
        total += segment.len;
        if total >= 1 << 32 {
            return Some("InvalidChain length");
        }
        writes = segment.is_written;
    }
    None
}

/// How many bytes a device reads, or writes.
pub fn total(segments: &[Segment], is_written: bool) -> u64 {
    let those = segments.iter().filter(|segment| segment.is_written == is_written);
    those.map(|segment| segment.len).sum()
}

/// The addresses of the bytes that a device reads, or writes, from an offset on, up to a number of them.
pub fn addresses(segments: &[Segment], is_written: bool, offset: u64, count: usize) -> Vec<u64> {
    let (mut before, mut found) = (offset, Vec::new());
    for segment in segments.iter().filter(|segment| segment.is_written == is_written) {
        let skipped = before.min(segment.len);
        before -= skipped;
        let room = (count - found.len()) as u64;
        found.extend((skipped..segment.len.min(skipped + room)).map(|i| segment.addr + i));
    }
    found
}
