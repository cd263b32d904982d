//! A driver's half of a queue in guest memory, and numbers from a fixed seed.
#![allow(dead_code)]

use std::sync::atomic::Ordering::SeqCst;
use vm_memory_proved::queue::Queue;
use vm_memory_proved::{GuestAddress, GuestMemory, Machine, MemoryId};

pub const NEXT: u16 = 1;
pub const WRITE: u16 = 2;
pub const INDIRECT: u16 = 4;

pub fn at(addr: u64) -> GuestAddress {
    GuestAddress(addr)
}

/// A generator of numbers: xorshift.
pub struct Numbers(pub u64);

impl Numbers {
    pub fn any(&mut self) -> u64 {
        self.0 ^= self.0 << 13;
        self.0 ^= self.0 >> 7;
        self.0 ^= self.0 << 17;
        self.0.wrapping_mul(0x2545_f491_4f6c_dd1d)
    }

    pub fn below(&mut self, bound: u64) -> u64 {
        (self.any() >> 11) % bound
    }

    pub fn one_in(&mut self, many: u64) -> bool {
        self.below(many) == 0
    }
}

/// A memory of one block at an address, with dirty pages of 16 bytes.
pub fn memory_of(machine: &Machine, addr: u64, size: usize) -> MemoryId {
    let block = machine.block(size, 16).unwrap();
    let region = machine.region(block, at(addr)).unwrap();
    machine.plain(machine.layout(&[region]).unwrap()).unwrap()
}

#[derive(Clone, Copy, Debug, Default)]
pub struct Descriptor {
    pub addr: u64,
    pub len: u32,
    pub flags: u16,
    pub next: u16,
}

impl Descriptor {
    pub fn bytes(self) -> [u8; 16] {
        let mut bytes = [0; 16];
        bytes[..8].copy_from_slice(&self.addr.to_le_bytes());
        bytes[8..12].copy_from_slice(&self.len.to_le_bytes());
        bytes[12..14].copy_from_slice(&self.flags.to_le_bytes());
        bytes[14..].copy_from_slice(&self.next.to_le_bytes());
        bytes
    }
}

/// A driver that writes its rings through the machine.
pub struct Driver<'a> {
    pub memory: GuestMemory<'a>,
    pub size: u16,
    pub desc_table: u64,
    pub avail_ring: u64,
    pub used_ring: u64,
    pub next_avail: u16,
    pub next_used: u16,
}

impl<'a> Driver<'a> {
    /// A driver whose table and rings lie in a row from an address on.
    pub fn new(memory: GuestMemory<'a>, base: u64, size: u16) -> Driver<'a> {
        let avail_ring = base + 16 * u64::from(size);
        let used_ring = (avail_ring + 6 + 2 * u64::from(size)).next_multiple_of(4);
        Driver {
            memory,
            size,
            desc_table: base,
            avail_ring,
            used_ring,
            next_avail: 0,
            next_used: 0,
        }
    }

    /// Where the areas end.
    pub fn end(&self) -> u64 {
        self.used_ring + 6 + 8 * u64::from(self.size)
    }

    /// Sets a queue up for this driver, with indices from 0 on.
    pub fn set_up(&self, queue: &Queue<'_>) {
        queue.reset();
        queue.set_size(self.size).unwrap();
        queue.try_set_desc_table_address(at(self.desc_table)).unwrap();
        queue.try_set_avail_ring_address(at(self.avail_ring)).unwrap();
        queue.try_set_used_ring_address(at(self.used_ring)).unwrap();
        queue.set_ready(true);
    }

    /// The device's half, for a number of descriptors in flight.
    pub fn queue(&self, max_descriptors: usize) -> Queue<'a> {
        let queue = self.memory.machine().queue(self.size, max_descriptors).unwrap();
        self.set_up(&queue);
        queue
    }

    pub fn put(&self, index: u16, descriptor: Descriptor) {
        let place = self.desc_table + 16 * u64::from(index);
        self.memory.write_slice(&descriptor.bytes(), at(place)).unwrap();
    }

    /// Puts segments as the descriptors from an index on.
    pub fn put_chain(&self, first: u16, segments: &[(u64, u32, bool)]) {
        for (i, &(addr, len, is_written)) in segments.iter().enumerate() {
            let is_last = i + 1 == segments.len();
            let index = first + i as u16;
            let descriptor = Descriptor {
                addr,
                len,
                flags: if is_last { 0 } else { NEXT } | if is_written { WRITE } else { 0 },
                next: if is_last { 0 } else { index + 1 },
            };
            self.put(index, descriptor);
        }
    }

    pub fn set_word(&self, addr: u64, value: u16) {
        self.memory.store(value, at(addr), SeqCst).unwrap();
    }

    pub fn word(&self, addr: u64) -> u16 {
        self.memory.load(at(addr), SeqCst).unwrap()
    }

    pub fn set_avail_flags(&self, flags: u16) {
        self.set_word(self.avail_ring, flags);
    }

    pub fn set_used_event(&self, index: u16) {
        self.set_word(self.avail_ring + 4 + 2 * u64::from(self.size), index);
    }

    pub fn used_flags(&self) -> u16 {
        self.word(self.used_ring)
    }

    pub fn used_idx(&self) -> u16 {
        self.word(self.used_ring + 2)
    }

    pub fn avail_event(&self) -> u16 {
        self.word(self.used_ring + 4 + 8 * u64::from(self.size))
    }

    pub fn publish(&mut self, head: u16) {
        let slot = u64::from(self.next_avail % self.size);
        self.set_word(self.avail_ring + 4 + 2 * slot, head);
        self.next_avail = self.next_avail.wrapping_add(1);
        self.set_word(self.avail_ring + 2, self.next_avail);
    }

    /// The next used entry, if there is one: a head and how many bytes were written.
    pub fn take(&mut self) -> Option<(u32, u32)> {
        if self.used_idx() == self.next_used {
            return None;
        }
        let slot = u64::from(self.next_used % self.size);
        let place = self.used_ring + 4 + 8 * slot;
        self.next_used = self.next_used.wrapping_add(1);
        let entry = [place, place + 4].map(|addr| self.memory.read_obj(at(addr)).unwrap());
        Some((entry[0], entry[1]))
    }
}
