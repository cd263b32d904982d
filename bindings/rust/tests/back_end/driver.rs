//! A driver with a ring in guest memory, which publishes chains of any kind. It is mostly honest.

use super::memory::Memory;
use super::space::{Space, SMALL};
use crate::guest::Guest;
use crate::ring::Numbers;

/// How many bytes a file of guest memory has, and how many of them rings lie in, and buffers mostly do not.
pub const FILE: u64 = 0x8000;
pub const RINGS: u64 = 0x4000;
pub const PAGE: u64 = 0x1000;

/// To how many pieces of guest memory a request may lead: 1,024 more than a ring has entries at most.
pub const MOST_PIECES: u64 = 128 + 1024;

/// How many sectors the disk has at first.
pub const SECTORS: u64 = 1 << 16;

/// Where the parts of a ring lie behind its first byte.
pub const PARTS: [u64; 3] = [0, 0x800, 0xa00];

/// The bytes of guest memory: those that the device has, and those of the model. A driver names them by places in
/// files, and an IOMMU may have others there.
pub struct Bytes<'a> {
    pub guests: &'a [Guest; 2],
    pub memory: &'a mut Memory,
    pub space: &'a Space,
}

impl Bytes<'_> {
    /// Bytes of a file itself change.
    pub fn put_there(&mut self, file: usize, offset: u64, bytes: &[u8]) {
        self.guests[file].write(offset as usize, bytes);
        self.memory.write(file, offset, bytes);
    }

    /// The driver writes.
    pub fn put(&mut self, file: usize, offset: u64, mut bytes: &[u8]) {
        for (file, at, count) in self.space.places(file, offset, bytes.len() as u64) {
            let (here, rest) = bytes.split_at(count as usize);
            self.put_there(file, at, here);
            bytes = rest;
        }
    }

    fn word(&mut self, file: usize, offset: u64, value: u16) {
        self.put(file, offset, &value.to_le_bytes());
    }

    fn read_word(&self, file: usize, offset: u64) -> u16 {
        word_at(self.guests, self.space, file, offset)
    }

    // The address of a named place, if it has one.
    fn address(&self, file: usize, offset: u64) -> Option<u64> {
        if self.space.is_on {
            return Some(self.space.iova(file, offset));
        }
        let shows = |it: &&super::memory::Shown| it.file == file && it.offset <= offset && offset < it.offset + it.len;
        let it = self.memory.regions.iter().find(shows)?;
        Some(it.guest + (offset - it.offset))
    }
}

/// A word of a driver's.
pub fn word_at(guests: &[Guest; 2], space: &Space, file: usize, offset: u64) -> u16 {
    let (file, at) = space.place(file, offset);
    let bytes = guests[file].read(at as usize, 2);
    u16::from_le_bytes([bytes[0], bytes[1]])
}

/// A chain that was published.
pub struct Published {
    pub id: u16,
    pub slots: u16,
    /// What the device may write, and what it reads.
    pub written: Vec<(u64, u64)>,
    pub read: Vec<(u64, u64)>,
    /// The ring says so.
    pub is_honest: bool,
}

// A buffer: its guest address, its bytes, and whether the device writes there.
type Row = (u64, u32, bool);

pub struct Driver {
    pub file: usize,
    pub base: u64,
    pub size: u16,
    pub is_packed: bool,
    event_idx: bool,
    next_avail: u16,
    next_used: u16,
    // The place in a packed ring, and its wrap counter.
    slot: (u16, bool),
    used_slot: (u16, bool),
    free: Vec<u16>,
    // Of each chain that is out: its id, its descriptors or slots.
    out: Vec<(u16, Vec<u16>, u16)>,
    free_slots: u16,
    /// A buffer lies among rings.
    pub has_scribbled: bool,
    /// A page among those of rings in which none lies.
    pub spare: (usize, u64),
}

fn row(addr: u64, len: u32, words: [u16; 2]) -> Vec<u8> {
    let words = words.iter().flat_map(|it| it.to_le_bytes());
    addr.to_le_bytes()
        .into_iter()
        .chain(len.to_le_bytes())
        .chain(words)
        .collect()
}

impl Driver {
    /// A driver whose ring lies in a file, in a place of its own there.
    pub fn new(file: usize, base: u64, size: u16, is_packed: bool, event_idx: bool) -> Driver {
        Driver {
            file,
            base,
            size,
            is_packed,
            event_idx,
            next_avail: 0,
            next_used: 0,
            slot: (0, true),
            used_slot: (0, true),
            free: Vec::new(),
            out: Vec::new(),
            free_slots: size,
            has_scribbled: false,
            spare: (file, base),
        }
    }

    /// Makes the ring anew, and returns its base. A split ring begins at any index.
    pub fn begin(&mut self, bytes: &mut Bytes<'_>, numbers: &mut Numbers) -> u32 {
        bytes.put(self.file, self.base, &[0; PAGE as usize]);
        self.free = (0..self.size).collect();
        self.out.clear();
        self.free_slots = self.size;
        if self.is_packed {
            self.slot = (numbers.below(self.size.into()) as u16, numbers.one_in(2));
            self.used_slot = self.slot;
            // Those before it were used in this round, and the others in the one before.
            for at in 0..self.size {
                let is_set = (at < self.slot.0) == self.slot.1;
                let place = self.base + 16 * u64::from(at) + 14;
                bytes.word(self.file, place, if is_set { 0x8080 } else { 0 });
            }
            let word = u32::from(self.slot.0) | u32::from(self.slot.1) << 15;
            return word | word << 16;
        }
        let base = match numbers.below(3) {
            0 => 0,
            1 => 0xfffe,
            _ => numbers.any() as u16,
        };
        (self.next_avail, self.next_used) = (base, base);
        bytes.word(self.file, self.base + PARTS[1] + 2, base);
        bytes.word(self.file, self.base + PARTS[2] + 2, base);
        base.into()
    }

    /// Takes the chains that were returned.
    pub fn take_used(&mut self, bytes: &Bytes<'_>) {
        while !self.out.is_empty() {
            let id = match self.is_packed {
                true => {
                    let place = self.base + 16 * u64::from(self.used_slot.0);
                    let flags = bytes.read_word(self.file, place + 14);
                    let is_used = (flags & 0x80 != 0) == self.used_slot.1 && (flags & 0x8000 != 0) == self.used_slot.1;
                    if !is_used {
                        return;
                    }
                    bytes.read_word(self.file, place + 12)
                }
                false => {
                    if bytes.read_word(self.file, self.base + PARTS[2] + 2) == self.next_used {
                        return;
                    }
                    let place = self.base + PARTS[2] + 4 + 8 * u64::from(self.next_used % self.size);
                    self.next_used = self.next_used.wrapping_add(1);
                    bytes.read_word(self.file, place)
                }
            };
            let Some(place) = self.out.iter().position(|it| it.0 == id) else {
                return;
            };
            let (_, ids, slots) = self.out.swap_remove(place);
            self.free.extend(ids);
            self.free_slots += slots;
            self.used_slot = moved(self.used_slot, slots, self.size);
        }
    }

    /// Says when it wants to be interrupted.
    pub fn suppress(&mut self, bytes: &mut Bytes<'_>, numbers: &mut Numbers) {
        let area = self.base + PARTS[1];
        if self.is_packed {
            let word = (numbers.below(u64::from(self.size) + 2) as u16) | (numbers.below(2) as u16) << 15;
            bytes.word(self.file, area, word);
            bytes.word(self.file, area + 2, numbers.below(4) as u16);
            return;
        }
        bytes.word(self.file, area, numbers.below(2) as u16);
        if self.event_idx {
            let event = self.next_used.wrapping_add(numbers.below(4) as u16);
            bytes.word(self.file, area + 4 + 2 * u64::from(self.size), event);
        }
    }

    // ---- buffers

    // A place of so many bytes in the buffers of a file, and its address, or maybe another one.
    fn buffer(&mut self, bytes: &Bytes<'_>, numbers: &mut Numbers, len: u64) -> (usize, u64, u64) {
        let from = if numbers.one_in(400) { 0 } else { RINGS };
        self.has_scribbled |= from == 0;
        let (file, offset) = (numbers.below(2) as usize, from + numbers.below(FILE - from - len + 1));
        let address = bytes.address(file, offset).filter(|_| !numbers.one_in(300));
        let address = address.unwrap_or_else(|| numbers.any() >> numbers.below(64));
        (file, offset, address)
    }

    // The header of a request, and how many bytes of data it has.
    fn header(&self, numbers: &mut Numbers, len: u64) -> [u8; 16] {
        let kind = match numbers.below(16) {
            0..=6 => 0,
            7..=12 => 1,
            13 => 4,
            14 => 8,
            _ => numbers.below(20) as u32,
        };
        let most = SECTORS.saturating_sub(len / 512).max(1);
        let sector = match numbers.below(40) {
            0 => SECTORS - numbers.below(8),
            1 => numbers.any() >> numbers.below(64),
            _ => numbers.below(most),
        };
        let mut bytes = [0; 16];
        bytes[..4].copy_from_slice(&u32::to_le_bytes(kind));
        bytes[8..].copy_from_slice(&sector.to_le_bytes());
        bytes
    }

    // A request to flush that leads to about as many pieces as one may.
    fn long_rows(&mut self, bytes: &mut Bytes<'_>, numbers: &mut Numbers) -> Vec<Row> {
        let (file, most) = (numbers.below(2) as usize, MOST_PIECES - 1 + numbers.below(3));
        let mut place = |len: u64| RINGS + SMALL * numbers.below((FILE - RINGS - len) / SMALL);
        let (header, status) = (place(16), place(1));
        bytes.put(file, header, &[4, 0, 0, 0, 0, 0, 0, 0, 0, 0, 0, 0, 0, 0, 0, 0]);
        let row = |offset, len: u64, is_written| (bytes.space.iova(file, offset), len as u32, is_written);
        // Header and status are a piece each.
        let (mut rows, mut count) = (vec![row(header, 16, false)], 2);
        while count < most {
            let offset = place(0x3e00);
            let mut len = 0x3e00;
            while count + pieces(offset, len) > most {
                len /= 2;
            }
            rows.push(row(offset, len, true));
            count += pieces(offset, len);
        }
        rows.push(row(status, 1, true));
        rows
    }

    // The buffers of a request.
    fn rows(&mut self, bytes: &mut Bytes<'_>, numbers: &mut Numbers) -> Vec<Row> {
        if bytes.space.is_said && numbers.one_in(2) {
            return self.long_rows(bytes, numbers);
        }
        let is_large = numbers.one_in(150);
        let count = if is_large {
            70 + numbers.below(90)
        } else {
            numbers.below(5)
        };
        let mut data = Vec::new();
        for _ in 0..count {
            let len = match numbers.below(12) {
                _ if is_large => 0x3e00,
                0 => numbers.below(600),
                1 => 0x1000,
                _ => 512 * (1 + numbers.below(3)),
            };
            let (_, _, address) = self.buffer(bytes, numbers, len);
            data.push((address, len as u32));
        }
        let total = data.iter().map(|it| u64::from(it.1)).sum();
        let header = self.header(numbers, total);
        let is_read = header[0] != 1;
        let (file, offset, at) = self.buffer(bytes, numbers, 16);
        bytes.put(file, offset, &header);
        let mut rows = vec![(at, 16, false)];
        if numbers.one_in(20) {
            let cut = 1 + numbers.below(15) as u32;
            rows = vec![(at, cut, false), (at + u64::from(cut), 16 - cut, false)];
        }
        rows.extend(data.iter().map(|&(at, len)| (at, len, is_read)));
        self.end(bytes, numbers, &mut rows);
        rows
    }

    // Adds the status, or none, or more behind it.
    fn end(&mut self, bytes: &mut Bytes<'_>, numbers: &mut Numbers, rows: &mut Vec<Row>) {
        let (file, offset, status) = self.buffer(bytes, numbers, 1);
        // Another value than a device writes.
        bytes.put(file, offset, &[0xa5]);
        match numbers.below(60) {
            0 => (),
            1 => rows.push((status, 2, true)),
            _ => rows.push((status, 1, true)),
        }
        if numbers.one_in(200) {
            rows.reverse();
        }
    }

    // ---- chains

    /// Publishes a chain, if there is room for one: a request, or a single buffer.
    pub fn publish(&mut self, bytes: &mut Bytes<'_>, numbers: &mut Numbers, is_request: bool) -> Option<Published> {
        let rows = match is_request {
            true => self.rows(bytes, numbers),
            false => vec![(self.buffer(bytes, numbers, 1).2, 1, !numbers.one_in(4))],
        };
        let is_long = rows.len() > usize::from(self.size) || rows.len() > 6;
        let table = if is_long || numbers.one_in(3) {
            self.table(bytes, numbers, &rows)
        } else {
            None
        };
        let count = if table.is_some() { 1 } else { rows.len() };
        let (id, slots, is_honest) = if self.is_packed {
            self.publish_packed(bytes, numbers, &rows, table, count as u16)?
        } else {
            self.publish_split(bytes, numbers, &rows, table, count)?
        };
        let those = |is_written: bool| {
            let those = rows.iter().filter(move |it| it.2 == is_written);
            those.map(|it| (it.0, it.1.into())).collect()
        };
        Some(Published {
            id,
            slots,
            written: those(true),
            read: those(false),
            is_honest,
        })
    }

    // Where a table of so many bytes lies. Behind an IOMMU it is sometimes in the page of the ring, and never where
    // parts of rings are.
    fn table_place(&mut self, bytes: &Bytes<'_>, numbers: &mut Numbers, len: u64) -> (usize, u64, u64) {
        if !bytes.space.is_on {
            return self.buffer(bytes, numbers, len);
        }
        let (from, room) = (PARTS[2] + 0x410, PAGE - PARTS[2] - 0x410);
        let (file, offset) = match len <= room && numbers.one_in(6) {
            true => (self.file, self.base + from + numbers.below(room - len + 1)),
            false => (numbers.below(2) as usize, RINGS + numbers.below(FILE - RINGS - len + 1)),
        };
        let address = match numbers.one_in(300) {
            true => numbers.any() | 1 << 63,
            false => bytes.space.iova(file, offset),
        };
        (file, offset, address)
    }

    // Puts the rows into an indirect table, if one has room.
    fn table(&mut self, bytes: &mut Bytes<'_>, numbers: &mut Numbers, rows: &[Row]) -> Option<(u64, u32)> {
        let len = 16 * rows.len() as u64;
        let (file, offset, address) = self.table_place(bytes, numbers, len);
        let last = rows.len() - 1;
        let of = |(at, &(addr, len, is_written)): (usize, &Row)| {
            let written = if is_written { 2 } else { 0 };
            match self.is_packed {
                true => row(addr, len, [0x5555, written]),
                false if at < last => row(addr, len, [written | 1, at as u16 + 1]),
                false => row(addr, len, [written, 0x5555]),
            }
        };
        let table: Vec<u8> = rows.iter().enumerate().flat_map(of).collect();
        bytes.put(file, offset, &table);
        Some((address, len as u32))
    }

    fn publish_split(
        &mut self,
        bytes: &mut Bytes<'_>,
        numbers: &mut Numbers,
        rows: &[Row],
        table: Option<(u64, u32)>,
        count: usize,
    ) -> Option<(u16, u16, bool)> {
        if self.free.len() < count {
            return None;
        }
        let ids = self.free.split_off(self.free.len() - count);
        let (desc, avail) = (self.base, self.base + PARTS[1]);
        if let Some((addr, len)) = table {
            bytes.put(self.file, desc + 16 * u64::from(ids[0]), &row(addr, len, [4, 0x5555]));
        } else {
            for (at, &(addr, len, is_written)) in rows.iter().enumerate() {
                let flags = if is_written { 2 } else { 0 } | if at + 1 < rows.len() { 1 } else { 0 };
                let next = ids.get(at + 1).copied().unwrap_or(0x5555);
                bytes.put(
                    self.file,
                    desc + 16 * u64::from(ids[at]),
                    &row(addr, len, [flags, next]),
                );
            }
        }
        let mut head = ids[0];
        if numbers.one_in(1500) {
            // Maybe one that is out, or none at all.
            head = numbers.below(u64::from(self.size) + 1) as u16;
        }
        let slot = self.next_avail % self.size;
        bytes.word(self.file, avail + 4 + 2 * u64::from(slot), head);
        let ahead = if numbers.one_in(3000) { self.size } else { 0 };
        self.next_avail = self.next_avail.wrapping_add(1);
        bytes.word(self.file, avail + 2, self.next_avail.wrapping_add(ahead));
        let is_honest = head == ids[0] && ahead == 0;
        self.out.push((ids[0], ids, 0));
        Some((head, 1, is_honest))
    }

    fn publish_packed(
        &mut self,
        bytes: &mut Bytes<'_>,
        numbers: &mut Numbers,
        rows: &[Row],
        table: Option<(u64, u32)>,
        count: u16,
    ) -> Option<(u16, u16, bool)> {
        if self.free_slots < count || self.free.is_empty() {
            return None;
        }
        let mut id = self.free.pop().expect("there is one");
        let real = id;
        if numbers.one_in(1500) {
            id = numbers.below(u64::from(self.size) + 2) as u16;
        }
        let written = |is: bool| if is { 2 } else { 0 };
        let list: Vec<(u64, u32, u16)> = match table {
            Some((addr, len)) => vec![(addr, len, 4)],
            None => rows.iter().map(|&(addr, len, is)| (addr, len, written(is))).collect(),
        };
        let start = self.slot;
        let mut first = 0;
        for (at, &(addr, len, flags)) in list.iter().enumerate() {
            let (slot, wrap) = moved(start, at as u16, self.size);
            let next = if at + 1 < list.len() { 1 } else { 0 };
            let flags = flags | next | if wrap { 0x80 } else { 0x8000 };
            let place = self.base + 16 * u64::from(slot);
            bytes.put(self.file, place, &row(addr, len, [id, flags])[..14]);
            if at == 0 {
                first = flags;
            } else {
                bytes.word(self.file, place + 14, flags);
            }
        }
        bytes.word(self.file, self.base + 16 * u64::from(start.0) + 14, first);
        self.slot = moved(start, count, self.size);
        self.free_slots -= count;
        self.out.push((id, vec![real], count));
        Some((id, count, id == real))
    }
}

// To how many pieces so many bytes lead where small frames have no neighbours: as many bytes as one frame has of the
// page, of a half of that, and so on.
fn pieces(offset: u64, len: u64) -> u64 {
    let (mut at, end, mut found) = (offset, offset + len, 0);
    while at < end {
        let here = SMALL - at % SMALL;
        let mut count = end - at;
        if here < count {
            count = count.min(PAGE - at % PAGE);
            while here < count {
                count /= 2;
            }
        }
        (at, found) = (at + count, found + 1);
    }
    found
}

fn moved((at, wrap): (u16, bool), count: u16, size: u16) -> (u16, bool) {
    let next = at + count;
    if next < size {
        (next, wrap)
    } else {
        (next - size, !wrap)
    }
}
