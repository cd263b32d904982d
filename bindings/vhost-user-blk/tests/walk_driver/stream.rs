//! Bytes that lie in pieces anywhere in guest memory.

use super::iommu::{Iommu, READ, WRITE};
use super::memory::{Memory, Room};
use super::{Numbers, PAGE};

/// Where pieces are taken from.
pub struct Places {
    /// Guest addresses.
    pub guest: Room,
    /// I/O addresses.
    pub io: Room,
    pub is_translated: bool,
    // How many pieces were lost.
    lost: u64,
}

/// Bytes of the device: as it reaches them, and where they are in guest memory.
#[derive(Clone, Debug, Default)]
pub struct Stream {
    /// Address and length of each piece.
    pub pieces: Vec<(u64, u32)>,
    /// Guest address and length of each part. One that cannot be reached has no address.
    pub parts: Vec<(Option<u64>, usize)>,
    // What was taken: guest addresses, and I/O addresses with their lengths.
    guest: Vec<u64>,
    io: Vec<(u64, u64)>,
}

// An address without memory, in the hole.
const NOWHERE: u64 = 0x8000_0000;
// I/O addresses that lead nowhere.
const UNMAPPED: u64 = 0x7_0000_0000;

impl Places {
    pub fn new(memory: &Memory, is_translated: bool) -> Places {
        // From below 4 GiB downwards, as Linux takes them, and some above.
        let io = vec![(0xf000_0000, 0xfee0_0000), (0x5_0000_0000, 0x5_0800_0000)];
        Places {
            guest: Room::new(memory.spans()),
            io: Room::new(io),
            is_translated,
            lost: 0,
        }
    }

    // Adds a piece to a stream. False if there is no room for it.
    fn add(
        &mut self,
        numbers: &mut Numbers,
        io: &mut Option<Iommu>,
        to: &mut Stream,
        len: usize,
        how: (u8, u64),
    ) -> bool {
        let (access, align) = how;
        let Some(io) = io.as_mut().filter(|_| self.is_translated) else {
            let Some(at) = self.guest.take(numbers, len as u64, align) else {
                return false;
            };
            to.guest.push(at);
            to.pieces.push((at, len as u32));
            to.parts.push((Some(at), len));
            return true;
        };
        let from = numbers.below(PAGE / align) * align;
        let pages = (from + len as u64).div_ceil(PAGE);
        let Some(iova) = self.io.take(numbers, pages * PAGE, PAGE) else {
            return false;
        };
        to.io.push((iova, pages * PAGE));
        to.pieces.push((iova + from, len as u32));
        let (mut at, mut left) = (from, len as u64);
        for page in 0..pages {
            let Some(guest) = self.guest.take(numbers, PAGE, PAGE) else {
                return false;
            };
            to.guest.push(guest);
            io.pages.insert(iova + page * PAGE, (guest, access));
            let count = left.min(PAGE - at);
            to.parts.push((Some(guest + at), count as usize));
            (at, left) = (0, left - count);
        }
        true
    }

    /// Takes room for bytes in so many pieces of any lengths, for an access.
    pub fn stream(
        &mut self,
        numbers: &mut Numbers,
        io: &mut Option<Iommu>,
        lens: &[usize],
        how: (u8, u64),
    ) -> Option<Stream> {
        let mut stream = Stream::default();
        for &len in lens {
            if !self.add(numbers, io, &mut stream, len, how) {
                self.give(io, &stream);
                return None;
            }
        }
        Some(stream)
    }

    /// Adds a piece that the device cannot reach for an access.
    pub fn add_lost(&mut self, numbers: &mut Numbers, io: &mut Option<Iommu>, to: &mut Stream, len: usize, access: u8) {
        if self.is_translated && access == WRITE && numbers.one_in(2) {
            // The pages may be read alone.
            if let Some(mut piece) = self.stream(numbers, io, &[len], (READ, 1)) {
                piece.parts.iter_mut().for_each(|part| part.0 = None);
                return to.append(piece);
            }
        }
        let at = if self.is_translated { UNMAPPED } else { NOWHERE };
        self.lost += 1;
        to.pieces
            .push((at + ((self.lost % 1024) << 20) + numbers.below(PAGE), len as u32));
        to.parts.push((None, len));
    }

    /// Gives back what a stream has.
    pub fn give(&mut self, io: &mut Option<Iommu>, stream: &Stream) {
        for &at in &stream.guest {
            self.guest.give(at);
        }
        for &(iova, len) in &stream.io {
            self.io.give(iova);
            for page in 0..len / PAGE {
                io.as_mut().unwrap().pages.remove(&(iova + page * PAGE));
            }
        }
    }
}

impl Stream {
    pub fn len(&self) -> usize {
        self.parts.iter().map(|it| it.1).sum()
    }

    /// Adds the pieces of another one, and what it has.
    pub fn append(&mut self, other: Stream) {
        self.pieces.extend(other.pieces);
        self.parts.extend(other.parts);
        self.guest.extend(other.guest);
        self.io.extend(other.io);
    }

    /// The I/O addresses that it has.
    pub fn mapped(&self) -> &[(u64, u64)] {
        &self.io
    }

    /// Whether the device reaches one of its bytes by this address.
    pub fn has(&self, addr: u64) -> bool {
        let has = |&(from, len): &(u64, u32)| (from..from + u64::from(len)).contains(&addr);
        self.pieces.iter().any(has)
    }

    /// Guest addresses of some of its bytes, and which bytes those are.
    pub fn spots(&self, from: usize, len: usize) -> Vec<(u64, std::ops::Range<usize>)> {
        let (mut start, to) = (0, from + len);
        let mut spots = Vec::new();
        for &(guest, count) in &self.parts {
            let (low, high) = (from.max(start), to.min(start + count));
            if let Some(guest) = guest.filter(|_| low < high) {
                spots.push((guest + (low - start) as u64, low - from..high - from));
            }
            start += count;
        }
        spots
    }

    /// The guest address of a byte.
    pub fn spot(&self, at: usize) -> u64 {
        self.spots(at, 1)[0].0
    }

    /// Writes some of the bytes, as the driver does.
    pub fn put(&self, memory: &mut Memory, from: usize, bytes: &[u8]) {
        for (guest, range) in self.spots(from, bytes.len()) {
            memory.write(guest, &bytes[range]);
        }
    }

    pub fn get(&self, memory: &Memory, from: usize, len: usize) -> Vec<u8> {
        let mut bytes = vec![0; len];
        for (guest, range) in self.spots(from, len) {
            memory.read(guest, &mut bytes[range]);
        }
        bytes
    }

    /// The device wrote some of the bytes.
    pub fn expect(&self, memory: &mut Memory, from: usize, bytes: &[u8]) {
        for (guest, range) in self.spots(from, bytes.len()) {
            memory.expect(guest, &bytes[range]);
        }
    }

    /// The device may have written some of the bytes.
    pub fn settle(&self, memory: &mut Memory, from: usize, bytes: &[u8]) {
        for (guest, range) in self.spots(from, bytes.len()) {
            memory.settle(guest, &bytes[range]);
        }
    }

    pub fn accept(&self, memory: &mut Memory, from: usize, len: usize) {
        for (guest, range) in self.spots(from, len) {
            memory.accept(guest, range.len());
        }
    }

    /// The pages of some of the bytes.
    pub fn pages(&self, from: usize, len: usize) -> impl Iterator<Item = u64> + '_ {
        let spots = self.spots(from, len).into_iter();
        spots.flat_map(|(guest, range)| guest / PAGE..=(guest + range.len() as u64 - 1) / PAGE)
    }
}
