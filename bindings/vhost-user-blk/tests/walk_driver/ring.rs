//! The driver's side of a ring, split or packed.

use super::link::counter;
use super::memory::Memory;
use super::stream::Stream;
use super::Numbers;
use std::os::fd::OwnedFd;

const NEXT: u16 = 1;
const WRITTEN: u16 = 2;
const INDIRECT: u16 = 4;
const AVAIL: u16 = 1 << 7;
const USED: u16 = 1 << 15;

/// How a ring is made.
#[derive(Clone, Copy, Debug)]
pub struct Shape {
    pub size: u16,
    pub is_packed: bool,
    pub event_idx: bool,
}

// A place in a packed ring.
#[derive(Clone, Copy, Debug, PartialEq, Eq)]
struct Slot {
    at: u16,
    wrap: bool,
}

impl Slot {
    fn go_on(&mut self, count: u16, size: u16) {
        self.at += count;
        if self.at >= size {
            self.at -= size;
            self.wrap = !self.wrap;
        }
    }

    // As event suppression and bases have it.
    fn word(self) -> u16 {
        self.at | u16::from(self.wrap) << 15
    }
}

/// A chain that was published.
#[derive(Clone, Debug)]
struct Chain {
    head: u16,
    ids: Vec<u16>,
    // How many slots it has.
    slots: u16,
}

pub struct Ring {
    pub shape: Shape,
    /// Descriptors, what the driver writes, and what the device writes.
    pub parts: [Stream; 3],
    pub kick: OwnedFd,
    pub call: OwnedFd,
    pub err: OwnedFd,
    // Free ids, in any order.
    free: Vec<u16>,
    chains: std::collections::VecDeque<Chain>,
    // Of a split ring.
    next_avail: u16,
    next_used: u16,
    // Of a packed ring.
    avail: Slot,
    used: Slot,
    free_slots: u16,
    // What was published since the device was last notified.
    fresh: u16,
}

/// How many bytes the parts of a ring have, and how each is aligned.
pub fn parts_of(shape: Shape) -> [(usize, u64); 3] {
    let size = usize::from(shape.size);
    if shape.is_packed {
        return [(16 * size, 16), (4, 4), (4, 4)];
    }
    [(16 * size, 16), (6 + 2 * size, 2), (6 + 8 * size, 4)]
}

fn row(addr: u64, len: u32, words: [u16; 2]) -> Vec<u8> {
    let words = words.iter().flat_map(|it| it.to_le_bytes());
    let numbers = addr.to_le_bytes().into_iter().chain(len.to_le_bytes());
    numbers.chain(words).collect()
}

/// What the device wrote of a ring: the part, the first byte, and how many.
pub type Wrote = Vec<(usize, usize, usize)>;

/// A chain by its descriptors: address, length, and whether the device writes there.
pub type Rows = Vec<(u64, u32, bool)>;

/// The bytes of an indirect table of a chain.
pub fn table_of(shape: Shape, rows: &Rows) -> Vec<u8> {
    let last = rows.len() - 1;
    let of = |(at, &(addr, len, is_written)): (usize, &(u64, u32, bool))| {
        let written = if is_written { WRITTEN } else { 0 };
        match shape.is_packed {
            true => row(addr, len, [0x5555, written]),
            false if at < last => row(addr, len, [written | NEXT, at as u16 + 1]),
            false => row(addr, len, [written, 0x5555]),
        }
    };
    rows.iter().enumerate().flat_map(of).collect()
}

impl Ring {
    /// A ring in new places, from any index of a split ring on.
    pub fn new(shape: Shape, parts: [Stream; 3], memory: &mut Memory, numbers: &mut Numbers) -> Ring {
        // An index wraps soon, or begins there.
        let any = numbers.any() as u16;
        let start = numbers.of(&[0, 0xffff, 0xffff, 0xfffe, 0xfffc, any]);
        let mut free: Vec<u16> = (0..shape.size).collect();
        numbers.mix(&mut free);
        let beginning = Slot { at: 0, wrap: true };
        for part in &parts {
            part.put(memory, 0, &vec![if shape.is_packed { 0 } else { 0xaa }; part.len()]);
        }
        let ring = Ring {
            shape,
            parts,
            kick: counter(numbers),
            call: counter(numbers),
            err: counter(numbers),
            free,
            chains: Default::default(),
            next_avail: start,
            next_used: start,
            avail: beginning,
            used: beginning,
            free_slots: shape.size,
            fresh: 0,
        };
        if !shape.is_packed {
            for part in &ring.parts[1..] {
                memory.store(part.spot(0), 0);
                memory.store(part.spot(2), start);
            }
        }
        ring
    }

    /// How many chains the device has.
    pub fn pending(&self) -> usize {
        self.chains.len()
    }

    /// How many descriptors are free.
    pub fn room(&self) -> usize {
        if self.shape.is_packed {
            return usize::from(self.free_slots).min(self.free.len());
        }
        self.free.len()
    }

    /// Publishes a chain. With `table` it lies in an indirect table there.
    pub fn publish(&mut self, memory: &mut Memory, rows: &Rows, table: Option<(u64, u32)>) {
        let slots = if table.is_some() { 1 } else { rows.len() as u16 };
        if self.shape.is_packed {
            self.publish_packed(memory, rows, table, slots);
        } else {
            self.publish_split(memory, rows, table, slots);
        }
        // Event indices count chains, and those of packed rings slots.
        self.fresh += if self.shape.is_packed { slots } else { 1 };
    }

    fn publish_split(&mut self, memory: &mut Memory, rows: &Rows, table: Option<(u64, u32)>, slots: u16) {
        let ids = self.free.split_off(self.free.len() - usize::from(slots));
        if let Some((addr, len)) = table {
            self.parts[0].put(memory, 16 * usize::from(ids[0]), &row(addr, len, [INDIRECT, 0x5555]));
        } else {
            for (at, &(addr, len, is_written)) in rows.iter().enumerate() {
                let flags = if is_written { WRITTEN } else { 0 } | if at + 1 < rows.len() { NEXT } else { 0 };
                let next = ids.get(at + 1).copied().unwrap_or(0x5555);
                self.parts[0].put(memory, 16 * usize::from(ids[at]), &row(addr, len, [flags, next]));
            }
        }
        let place = 4 + 2 * usize::from(self.next_avail % self.shape.size);
        memory.store(self.parts[1].spot(place), ids[0]);
        self.next_avail = self.next_avail.wrapping_add(1);
        memory.store(self.parts[1].spot(2), self.next_avail);
        self.chains.push_back(Chain {
            head: ids[0],
            ids,
            slots,
        });
    }

    fn publish_packed(&mut self, memory: &mut Memory, rows: &Rows, table: Option<(u64, u32)>, slots: u16) {
        let id = self.free.pop().unwrap();
        let start = self.avail;
        let mut place = start;
        let mut flags = Vec::new();
        let rows: Vec<(u64, u32, u16)> = match table {
            Some((addr, len)) => vec![(addr, len, INDIRECT)],
            None => rows
                .iter()
                .map(|it| (it.0, it.1, if it.2 { WRITTEN } else { 0 }))
                .collect(),
        };
        for (at, &(addr, len, how)) in rows.iter().enumerate() {
            let state = if place.wrap { AVAIL } else { USED };
            let next = if at + 1 < rows.len() { NEXT } else { 0 };
            let from = 16 * usize::from(place.at);
            self.parts[0].put(memory, from, &row(addr, len, [id, 0])[..14]);
            flags.push((self.parts[0].spot(from + 14), how | state | next));
            place.go_on(1, self.shape.size);
        }
        // The first one comes last: then the chain is there.
        for &(spot, value) in flags.iter().rev() {
            memory.store(spot, value);
        }
        self.avail = place;
        self.free_slots -= slots;
        self.chains.push_back(Chain {
            head: id,
            ids: vec![id],
            slots,
        });
    }

    /// Takes a chain that came back: how many of those before it did not, its length, and which of the bytes of which
    /// part the device wrote.
    pub fn take(&mut self, memory: &mut Memory) -> Option<(usize, u32, Wrote)> {
        let (id, len, wrote) = match self.shape.is_packed {
            true => self.take_packed(memory)?,
            false => self.take_split(memory)?,
        };
        let place = self.place_of(id);
        let chain = self.chains.remove(place).expect("it is there");
        self.free.extend(chain.ids);
        Some((place, len, wrote))
    }

    fn place_of(&self, id: u32) -> usize {
        let place = self.chains.iter().position(|it| u32::from(it.head) == id);
        place.expect("a chain comes back that is not out")
    }

    fn take_split(&mut self, memory: &mut Memory) -> Option<(u32, u32, Wrote)> {
        let used = &self.parts[2];
        let ahead = memory.load(used.spot(2)).wrapping_sub(self.next_used);
        assert!(
            usize::from(ahead) <= self.chains.len(),
            "the used index is {ahead} ahead"
        );
        if ahead == 0 {
            return None;
        }
        let place = 4 + 8 * usize::from(self.next_used % self.shape.size);
        let entry = used.get(memory, place, 8);
        used.expect(memory, place, &entry);
        self.next_used = self.next_used.wrapping_add(1);
        used.expect(memory, 2, &self.next_used.to_le_bytes());
        let number = |at: usize| u32::from_le_bytes(entry[at..at + 4].try_into().unwrap());
        Some((number(0), number(4), vec![(2, place, 8), (2, 2, 2)]))
    }

    fn take_packed(&mut self, memory: &mut Memory) -> Option<(u32, u32, Wrote)> {
        let place = 16 * usize::from(self.used.at);
        let flags = memory.load(self.parts[0].spot(place + 14));
        let is = |bit: u16| flags & bit != 0;
        if self.chains.is_empty() || is(AVAIL) != self.used.wrap || is(USED) != self.used.wrap {
            return None;
        }
        let entry = self.parts[0].get(memory, place + 8, 8);
        self.parts[0].expect(memory, place + 8, &entry);
        let len = u32::from_le_bytes(entry[..4].try_into().unwrap());
        assert!(len == 0 || is(WRITTEN), "a length without bytes that were written");
        let id = u16::from_le_bytes(entry[4..6].try_into().unwrap()).into();
        let slots = self.chains[self.place_of(id)].slots;
        self.used.go_on(slots, self.shape.size);
        self.free_slots += slots;
        Some((id, len, vec![(0, place + 8, 8)]))
    }

    /// Whether the device asks to be notified of what was published.
    pub fn wants_kick(&mut self, memory: &Memory) -> bool {
        let fresh = std::mem::take(&mut self.fresh);
        let device = &self.parts[2];
        if !self.shape.is_packed {
            if !self.shape.event_idx {
                return memory.load(device.spot(0)) & 1 == 0;
            }
            let event = memory.load(device.spot(4 + 8 * usize::from(self.shape.size)));
            return self.next_avail.wrapping_sub(event).wrapping_sub(1) < fresh;
        }
        match memory.load(device.spot(2)) & 3 {
            0 => true,
            1 => false,
            _ => {
                let word = memory.load(device.spot(0));
                let mut event = word & 0x7fff;
                if (word >> 15 == 1) != self.avail.wrap {
                    event = event.wrapping_sub(self.shape.size);
                }
                self.avail.at.wrapping_sub(event).wrapping_sub(1) < fresh
            }
        }
    }

    /// Asks to be interrupted when so many more chains than now have come back, or not at all.
    pub fn ask_interrupt(&mut self, memory: &mut Memory, after: Option<usize>) {
        let driver = &self.parts[1];
        let (shape, next_used) = (self.shape, self.next_used);
        if !shape.is_packed {
            if shape.event_idx {
                let event = after.map_or(next_used.wrapping_sub(1), |many| next_used.wrapping_add(many as u16));
                memory.store(driver.spot(4 + 2 * usize::from(shape.size)), event);
            } else {
                memory.store(driver.spot(0), u16::from(after.is_none()));
            }
            return;
        }
        let mut place = self.used;
        for chain in self.chains.iter().take(after.unwrap_or(0)) {
            place.go_on(chain.slots, shape.size);
        }
        match after {
            None => memory.store(driver.spot(2), 1),
            Some(_) if shape.event_idx => {
                memory.store(driver.spot(0), place.word());
                memory.store(driver.spot(2), 2);
            }
            Some(_) => memory.store(driver.spot(2), 0),
        }
    }

    /// Where the device says at any time whether it wants notifications, byte by byte.
    pub fn suppression(&self) -> Vec<u64> {
        let device = &self.parts[2];
        let event = 4 + 8 * usize::from(self.shape.size);
        let places = match (self.shape.is_packed, self.shape.event_idx) {
            (true, _) => [0..2, 2..4],
            (false, true) => [0..2, event..event + 2],
            (false, false) => [0..2, 0..0],
        };
        places.into_iter().flatten().map(|at| device.spot(at)).collect()
    }

    /// Where the ring goes on if nothing that is out was begun.
    pub fn base(&self) -> u32 {
        if self.shape.is_packed {
            let word = u32::from(self.used.word());
            return word | word << 16;
        }
        self.next_used.into()
    }

    /// Forgets what was published. The ring is used no more.
    pub fn abandon(&mut self) {
        self.chains.clear();
    }
}
