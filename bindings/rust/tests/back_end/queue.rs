//! The device's half of a queue, split or packed, by the rules of the VirtIO specification (version 1.2, 2.7 and 2.8),
//! over an image of guest memory.

use crate::slow::{self, descriptor, fault, indirect_len, Image, Refusal, Segment, Setup};
use std::ops::Range;

/// A chain that was popped: what it is returned by, and its segments.
#[derive(Clone, Debug)]
pub struct Popped {
    pub id: u16,
    pub slots: u16,
    pub segments: Vec<Segment>,
}

/// A driver broke a rule, or its ring cannot be reached: then these bytes of it.
#[derive(Debug, Default)]
pub struct Broken {
    pub missed: Option<(u64, u64)>,
}

impl From<Refusal> for Broken {
    fn from(refusal: Refusal) -> Broken {
        match refusal {
            Refusal::GuestMemory(address, len) => Broken {
                missed: Some((address, len)),
            },
            Refusal::Named(_) => Broken::default(),
        }
    }
}

/// A place in a packed ring.
#[derive(Clone, Copy, Debug, PartialEq, Eq)]
pub struct Slot {
    pub at: u16,
    pub wrap: bool,
}

impl Slot {
    fn of(word: u16) -> Slot {
        Slot {
            at: word & 0x7fff,
            wrap: word >> 15 == 1,
        }
    }

    pub fn word(self) -> u16 {
        self.at | u16::from(self.wrap) << 15
    }

    fn moved(self, count: u16, size: u16) -> Slot {
        let at = self.at + count;
        if at < size {
            return Slot { at, wrap: self.wrap };
        }
        Slot {
            at: at - size,
            wrap: !self.wrap,
        }
    }

    // Positions count up to twice the size.
    fn count(self, size: u16) -> u32 {
        u32::from(self.at) + if self.wrap { 0 } else { u32::from(size) }
    }
}

#[derive(Clone, Debug)]
pub struct DeviceQueue {
    pub is_packed: bool,
    pub size: u16,
    /// Descriptors, what the driver writes, and what the device writes.
    pub parts: [u64; 3],
    pub event_idx: bool,
    /// Indices of a split ring.
    pub next: [u16; 2],
    /// Places of a packed one: where the next chain is, and where the next return goes.
    pub slots: [Slot; 2],
    /// How much was returned since the driver was last asked for, if that is known.
    added: Option<u32>,
}

impl DeviceQueue {
    /// A queue that begins at a base, or `None` if none of this size and base can be there. Where a split one returns
    /// the next chain is not read yet.
    pub fn new(is_packed: bool, size: u32, base: u32, parts: [u64; 3], event_idx: bool) -> Option<Self> {
        let size = u16::try_from(size).ok()?;
        let slots = [Slot::of(base as u16), Slot::of((base >> 16) as u16)];
        let fits = match is_packed {
            false => size.is_power_of_two(),
            // No more slots are out than there are.
            true => {
                let [avail, used] = slots;
                let out = match avail.wrap == used.wrap {
                    true => used.at <= avail.at,
                    false => avail.at <= used.at,
                };
                avail.at < size && used.at < size && out
            }
        };
        let queue = DeviceQueue {
            is_packed,
            size,
            parts,
            event_idx,
            next: [base as u16, 0],
            slots,
            added: None,
        };
        queue.moved(parts).filter(|_| fits)
    }

    /// A split queue returns the next chain where its used ring says.
    pub fn read_place(&mut self, image: &Image) -> Result<(), Broken> {
        if !self.is_packed {
            self.next[1] = image.number(self.parts[2] + 2, 2)? as u16;
        }
        Ok(())
    }

    /// The same queue, which lies elsewhere.
    pub fn moved(&self, parts: [u64; 3]) -> Option<DeviceQueue> {
        let aligned = if self.is_packed { [16, 4, 4] } else { [16, 2, 4] };
        let fits = parts.iter().zip(aligned).all(|(part, by)| part % by == 0);
        fits.then(|| DeviceQueue {
            parts,
            added: None,
            ..self.clone()
        })
    }

    /// Where it goes on.
    pub fn base(&self) -> u32 {
        if self.is_packed {
            let [avail, used] = self.slots.map(|it| u32::from(it.word()));
            return avail | used << 16;
        }
        self.next[0].into()
    }

    /// The next chain, if there is one.
    pub fn pop(&mut self, image: &Image) -> Result<Option<Popped>, Broken> {
        if self.is_packed {
            return self.pop_packed(image);
        }
        let setup = Setup {
            size: self.size.into(),
            desc_table: self.parts[0],
            avail_ring: self.parts[1],
            next_avail: self.next[0],
        };
        let found = slow::popped(image, &setup)?;
        Ok(found.map(|(id, segments)| {
            self.next[0] = self.next[0].wrapping_add(1);
            Popped { id, slots: 1, segments }
        }))
    }

    /// The same, where another one pops next.
    pub fn pops_as(&mut self, other: &DeviceQueue) {
        self.next[0] = other.next[0];
        self.slots[0] = other.slots[0];
    }

    /// What a front end calls the used ring: of a packed one, where the device says when it wants to be notified.
    pub fn used(&self) -> Range<u64> {
        let (used, event) = (self.parts[2], if self.event_idx { 2 } else { 0 });
        let len = if self.is_packed {
            4
        } else {
            4 + 8 * u64::from(self.size) + event
        };
        used..used + len
    }

    // Whether the slot that is popped next was made available.
    fn is_available(&self, image: &Image) -> Result<bool, Broken> {
        let [next, _] = self.slots;
        let flags = image.number(self.parts[0] + 16 * u64::from(next.at) + 14, 2)?;
        Ok((flags & 0x80 != 0) == next.wrap && (flags & 0x8000 != 0) != next.wrap)
    }

    fn out(&self) -> u32 {
        let [avail, used] = self.slots.map(|it| it.count(self.size));
        let all = 2 * u32::from(self.size);
        (all + avail - used) % all
    }

    fn pop_packed(&mut self, image: &Image) -> Result<Option<Popped>, Broken> {
        if !self.is_available(image)? {
            return Ok(None);
        }
        let (mut at, mut slots, mut segments) = (self.slots[0], 0_u16, Vec::new());
        let room = u32::from(self.size) - self.out();
        let id = loop {
            if u32::from(slots) == room {
                return Err(Broken::default());
            }
            let [addr, len, id, flags] = descriptor(image, self.parts[0], at.at.into())?;
            slots += 1;
            at = at.moved(1, self.size);
            if flags & 4 != 0 {
                segments.extend(table(image, addr, len, flags)?);
                break id;
            }
            segments.push(segment(addr, len, flags));
            if flags & 1 == 0 {
                break id;
            }
        };
        if fault(&segments).is_some() {
            return Err(Broken::default());
        }
        self.slots[0] = at;
        Ok(Some(Popped {
            id: id as u16,
            slots,
            segments,
        }))
    }

    /// Returns a chain, and says which bytes were written.
    pub fn give_back(&mut self, image: &mut Image, id: u16, slots: u16, len: u32) -> [(u64, u64); 2] {
        self.added = self.added.map(|it| (it + u32::from(slots)).min(1 << 16));
        if self.is_packed {
            let used = self.slots[1];
            let place = self.parts[0] + 16 * u64::from(used.at);
            let flags = if used.wrap { 0x8080 } else { 0 } | if len == 0 { 0 } else { 2 };
            image.put(place + 8, len.into(), 4);
            image.put(place + 12, id.into(), 2);
            image.put(place + 14, flags, 2);
            self.slots[1] = used.moved(slots, self.size);
            return [(place + 8, 6), (place + 14, 2)];
        }
        let (used, next) = (self.parts[2], self.next[1]);
        let place = used + 4 + 8 * u64::from(next % self.size);
        self.next[1] = next.wrapping_add(1);
        image.put(place, id.into(), 4);
        image.put(place + 4, len.into(), 4);
        image.put(used + 2, self.next[1].into(), 2);
        [(place, 8), (used + 2, 2)]
    }

    /// Asks the driver to notify, and returns whether there is a chain, and which bytes were written.
    pub fn ask(&self, image: &mut Image) -> Result<(bool, Vec<(u64, u64)>), Broken> {
        let used = self.parts[2];
        if self.is_packed {
            image.put(used, self.slots[0].word().into(), 2);
            image.put(used + 2, if self.event_idx { 2 } else { 0 }, 2);
            return Ok((self.is_available(image)?, vec![(used, 4)]));
        }
        let (place, value) = match self.event_idx {
            true => (used + 4 + 8 * u64::from(self.size), self.next[0]),
            false => (used, 0),
        };
        image.put(place, value.into(), 2);
        let index = image.number(self.parts[1] + 2, 2)?;
        Ok((index as u16 != self.next[0], vec![(place, 2)]))
    }

    /// Whether the driver wants to be interrupted for what was returned since it was last asked. If that cannot be
    /// read, it was not asked.
    pub fn wants_interrupt(&mut self, image: &Image) -> Result<bool, Broken> {
        let answer = self.is_to_know(image)?;
        self.added = Some(0);
        Ok(answer)
    }

    fn is_to_know(&self, image: &Image) -> Result<bool, Broken> {
        let Some(added) = self.added else {
            return Ok(true);
        };
        if self.is_packed {
            let flags = image.number(self.parts[1] + 2, 2)?;
            if !self.event_idx || flags & 3 != 2 {
                return Ok(flags & 3 != 1);
            }
            let event = Slot::of(image.number(self.parts[1], 2)? as u16);
            if event.at >= self.size {
                return Ok(true);
            }
            let [from, to] = [event, self.slots[1]].map(|it| it.count(self.size));
            let all = 2 * u32::from(self.size);
            // From the slot before the next one back.
            let between = if from < to { to - from } else { all + to - from };
            return Ok(between <= added);
        }
        if !self.event_idx {
            return Ok(image.number(self.parts[1], 2)? & 1 == 0);
        }
        let event = image.number(self.parts[1] + 4 + 2 * u64::from(self.size), 2)? as u16;
        let back = self.next[1].wrapping_sub(1).wrapping_sub(event);
        Ok(u32::from(back) < added)
    }
}

fn segment(addr: u64, len: u64, flags: u64) -> Segment {
    Segment {
        addr,
        len,
        is_written: flags & 2 != 0,
    }
}

// The segments of an indirect table of a packed ring, which is read whole.
fn table(image: &Image, addr: u64, len: u64, flags: u64) -> Result<Vec<Segment>, Broken> {
    let count = indirect_len(false, flags & 1 != 0, len)?;
    let row = |at| {
        let [addr, len, _, flags] = descriptor(image, addr, at)?;
        Ok(segment(addr, len, flags))
    };
    (0..count).map(row).collect()
}
