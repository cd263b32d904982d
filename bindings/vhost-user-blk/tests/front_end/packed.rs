//! The driver of a packed ring, as the VirtIO specification has it.

use super::*;
use std::collections::BTreeMap;

/// The features of packed rings.
pub const PACKED: u64 = USUAL | RING_PACKED;

/// Where a new packed ring begins: both positions in the first slot, with a wrap counter of 1.
pub const FRESH: u32 = 0x8000_8000;

pub const NEXT: u16 = 1;
pub const WRITTEN: u16 = 2;
pub const INDIRECT: u16 = 4;
pub const AVAIL: u16 = 0x80;
pub const USED: u16 = 0x8000;

/// A side's place: a slot, and its wrap counter.
#[derive(Clone, Copy, Debug, PartialEq, Eq)]
pub struct Place {
    pub slot: u16,
    pub wrap: bool,
}

impl Place {
    pub fn moved(self, size: u16, count: u16) -> Place {
        let slot = self.slot + count;
        if slot < size {
            Place { slot, ..self }
        } else {
            Place {
                slot: slot - size,
                wrap: !self.wrap,
            }
        }
    }

    pub fn bits(self) -> u16 {
        self.slot | u16::from(self.wrap) << 15
    }

    /// The base of a ring whose two positions are there.
    pub fn base(self) -> u32 {
        u32::from(self.bits()) | u32::from(self.bits()) << 16
    }
}

/// The driver of a packed ring.
pub struct Driver {
    pub front: FrontEnd,
    pub index: usize,
    pub size: u16,
    pub avail: Place,
    pub used: Place,
    // How many slots the chain of each id took.
    slots: BTreeMap<u16, u16>,
}

impl Driver {
    pub fn new(front: FrontEnd, size: u16) -> Driver {
        Driver::at(front, size, Place { slot: 0, wrap: true })
    }

    /// A driver whose ring begins somewhere.
    pub fn at(mut front: FrontEnd, size: u16, first: Place) -> Driver {
        let index = front.start_packed_ring(size, first.base());
        Driver {
            front,
            index,
            size,
            avail: first,
            used: first,
            slots: BTreeMap::new(),
        }
    }

    pub fn start(program: &Program, features: u64, size: u16) -> Driver {
        let mut front = program.connect();
        front.negotiate(features);
        front.set_memory();
        if features & ACCESS_PLATFORM != 0 {
            front.translate(log::SHIFT);
        }
        Driver::new(front, size)
    }

    pub fn entry(&self, addr: usize, len: u32) -> Vec<u8> {
        [&(addr as u64 + self.front.shift).to_le_bytes()[..], &len.to_le_bytes()].concat()
    }

    /// Makes a chain available, the flags of its first descriptor last.
    pub fn publish(&mut self, id: u16, chain: &[(usize, u32, u16)]) {
        let (ring, ..) = self.front.parts(self.index);
        let mut flags = Vec::new();
        let mut place = self.avail;
        for (at, (addr, len, more)) in chain.iter().enumerate() {
            let next = if at + 1 < chain.len() { NEXT } else { 0 };
            let from = ring + 16 * place.slot as usize;
            self.front.write(from, &self.entry(*addr, *len));
            self.front.write(from + 12, &id.to_le_bytes());
            flags.push((from + 14, more | next | if place.wrap { AVAIL } else { USED }));
            place = place.moved(self.size, 1);
        }
        for (from, flags) in flags.into_iter().rev() {
            self.front.word(from).store(flags, SeqCst);
        }
        self.avail = place;
        self.slots.insert(id, chain.len() as u16);
    }

    /// Where header, data and status of a request lie, and the request as a chain of three descriptors.
    pub fn chain(&self, place: u16, kind: u32, sector: u64, len: u32) -> Vec<(usize, u32, u16)> {
        let (data, status) = self.front.places(self.index, 3 * place);
        let header = data - 0x1000;
        let bytes = [&kind.to_le_bytes()[..], &[0; 4], &sector.to_le_bytes()].concat();
        self.front.write(header, &bytes);
        self.front.write(status, &[0xff]);
        let is_written = if kind == 1 { 0 } else { WRITTEN };
        vec![(header, 16, 0), (data, len, is_written), (status, 1, WRITTEN)]
    }

    pub fn flags_of(&self, place: Place) -> u16 {
        let (ring, ..) = self.front.parts(self.index);
        self.front.word(ring + 16 * place.slot as usize + 14).load(SeqCst)
    }

    pub fn is_back(&self) -> bool {
        let both = if self.used.wrap { AVAIL | USED } else { 0 };
        self.flags_of(self.used) & (AVAIL | USED) == both
    }

    /// The id and the length of the next used chain, which has to come.
    pub fn take(&mut self) -> (u16, u32) {
        let begun = Instant::now();
        while !self.is_back() {
            assert!(begun.elapsed() < LONG, "no request comes back");
            self.front.serve_table();
            can_read(&self.front.rings[self.index].call, Duration::from_millis(5));
            take(&self.front.rings[self.index].call);
        }
        let (ring, ..) = self.front.parts(self.index);
        let bytes = self.front.read(ring + 16 * self.used.slot as usize + 8, 6);
        let id = u16::from_le_bytes(bytes[4..].try_into().unwrap());
        // WRITE says whether bytes were written.
        let len = u32::from_le_bytes(bytes[..4].try_into().unwrap());
        assert_eq!(self.flags_of(self.used) & WRITTEN != 0, len > 0);
        self.used = self
            .used
            .moved(self.size, self.slots.remove(&id).expect("the id is out"));
        (id, len)
    }

    pub fn kick(&self) {
        self.front.kick(self.index);
    }

    /// Makes a request available whose descriptors lie in a table, with these segments of data.
    pub fn publish_long(&mut self, id: u16, kind: u32, sector: u64, data: &[(usize, usize)]) {
        let header = HEADERS + 0x1000 * usize::from(id);
        let status = header + 0x800;
        let bytes = [&kind.to_le_bytes()[..], &[0; 4], &sector.to_le_bytes()];
        self.front.write(header, &bytes.concat());
        self.front.write(status, &[0xff]);
        let data = data.iter().map(|&(addr, len)| (addr, len as u32, WRITTEN));
        let chain: Vec<_> = [(header, 16, 0)].into_iter().chain(data).collect();
        self.publish_table(id, &[&chain[..], &[(status, 1, WRITTEN)]].concat());
    }

    /// Makes a chain available whose descriptors lie in a table.
    pub fn publish_table(&mut self, id: u16, chain: &[(usize, u32, u16)]) {
        let table = TABLES + TABLE_LEN * usize::from(id);
        // No id of a table's descriptors means anything.
        let row = |&(addr, len, flags): &(usize, u32, u16)| {
            [&self.entry(addr, len)[..], &[0xff; 2], &flags.to_le_bytes()].concat()
        };
        let rows: Vec<_> = chain.iter().map(row).collect();
        self.front.write(table, &rows.concat());
        self.publish(id, &[(table, 16 * chain.len() as u32, INDIRECT)]);
    }

    /// Answers what the back end asks for after a request came back, until it waits for the next one.
    pub fn settle(&mut self, program: &Program) {
        for _ in 0..3 {
            program.rest();
            self.front.serve_table();
        }
        program.rest();
        take(&self.front.rings[self.index].call);
    }

    /// One request, and its status and length.
    pub fn request(&mut self, id: u16, kind: u32, sector: u64, len: u32) -> (u8, u32) {
        let chain = self.chain(0, kind, sector, len);
        self.publish(id, &chain);
        self.kick();
        let (back, written) = self.take();
        assert_eq!(back, id);
        (self.front.read(self.front.places(self.index, 0).1, 1)[0], written)
    }

    pub fn data(&self, len: usize) -> Vec<u8> {
        self.front.read(self.front.places(self.index, 0).0, len)
    }

    /// Both positions, as GET_VRING_BASE has them if nothing is out.
    pub fn base(&self) -> u32 {
        u32::from(self.avail.bits()) | u32::from(self.used.bits()) << 16
    }

    pub fn set_event(&self, offset: u16, flags: u16) {
        let (_, driver, _) = self.front.parts(self.index);
        self.front.word(driver).store(offset, SeqCst);
        self.front.word(driver + 2).store(flags, SeqCst);
        fence(SeqCst);
    }

    /// The offset and the flags by which the device asks to be notified.
    pub fn asked(&self) -> (u16, u16) {
        let (.., device) = self.front.parts(self.index);
        (
            self.front.word(device).load(SeqCst),
            self.front.word(device + 2).load(SeqCst),
        )
    }
}
