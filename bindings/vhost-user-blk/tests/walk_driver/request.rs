//! Requests of a driver, and what has to come of each.

use super::iommu::{Iommu, READ, WRITE};
use super::memory::Memory;
use super::ring::{table_of, Rows, Shape};
use super::stream::{Places, Stream};
use super::{Numbers, PAGE};

pub const SECTOR: usize = 512;
/// How many sectors at the end of the disk may be broken.
pub const BROKEN: u64 = 64;
/// The most bytes of a request's data.
pub const MOST: usize = 512 << 10;

/// The disk as it has to be.
pub struct Model {
    pub disk: Vec<u8>,
    pub name: [u8; 20],
    pub is_translated: bool,
    /// There are requests that the library answers by itself. These come back before others, and the used index does
    /// not say where the ring goes on.
    pub has_refused: bool,
    /// Each write is made stable.
    pub is_write_through: bool,
    /// A sync failed: none succeeds from then on.
    pub sync_failed: bool,
    /// How many syncs there have to be.
    pub syncs: u64,
    /// What may be on the disk in part.
    pub maybe: Vec<(usize, Vec<u8>)>,
}

/// What a ring's requests may touch of the disk, in sectors: the second part is that of writes that fail in the middle.
#[derive(Clone, Copy, Debug)]
pub struct Area {
    pub first: u64,
    pub sectors: u64,
    pub spare: u64,
}

#[derive(Clone, Copy, Debug, PartialEq, Eq)]
pub enum What {
    Read,
    Write,
    Flush,
    Id,
    /// No whole header.
    Short,
    /// Sectors that the disk does not have.
    Past,
    /// No whole sectors.
    Ragged,
    Unknown,
    /// No place for the status.
    Mute,
    /// Sectors that the disk cannot read or write.
    Broken,
    /// After so many bytes of the data comes an address that cannot be reached.
    LostRead(usize),
    LostWrite(usize),
}

#[derive(Clone, Debug)]
pub struct Request {
    pub what: What,
    pub reads: Stream,
    pub writes: Stream,
    pub table: Option<Stream>,
    sector: u64,
    // Those of a write.
    data: Vec<u8>,
}

/// Pages that the device has to have marked, and others that it may have.
#[derive(Default)]
pub struct Marks {
    pub must: Vec<u64>,
    pub may: Vec<u64>,
}

/// How requests are drawn.
pub struct Draw<'a> {
    pub numbers: &'a mut Numbers,
    pub places: &'a mut Places,
    pub io: &'a mut Option<Iommu>,
    pub shape: Shape,
    /// The most pieces.
    pub pieces: usize,
    pub indirect: bool,
    pub area: Area,
    /// The most bytes of data.
    pub bytes: usize,
    pub sectors: u64,
    /// A driver without this feature asks for no flush.
    pub has_flush: bool,
    /// Some sectors cannot be read or written.
    pub has_faults: bool,
    /// There are requests that the library answers by itself.
    pub has_refused: bool,
}

// Cuts a length into so many pieces at most.
fn cut(numbers: &mut Numbers, len: usize, most: usize) -> Vec<usize> {
    let count = 1 + numbers.below(most.min(len).max(1) as u64) as usize;
    let mut cuts: Vec<usize> = (1..count).map(|_| 1 + numbers.below(len as u64 - 1) as usize).collect();
    cuts.extend([0, len]);
    cuts.sort_unstable();
    cuts.dedup();
    cuts.windows(2).map(|it| it[1] - it[0]).collect()
}

impl Draw<'_> {
    fn what(&mut self) -> What {
        match self.numbers.below(40) {
            it @ (3..=11) if !self.has_refused => [What::Read, What::Write][it as usize % 2],
            0 | 1 if self.has_flush => What::Flush,
            2 => What::Id,
            3 => What::Short,
            4 => What::Past,
            5 => What::Ragged,
            6 => What::Unknown,
            7 if self.numbers.one_in(2) => What::Mute,
            12 if self.has_faults => What::Broken,
            8 | 9 if self.pieces >= 6 => What::LostRead(0),
            10 | 11 if self.pieces >= 6 => What::LostWrite(0),
            it if it % 2 == 0 => What::Read,
            _ => What::Write,
        }
    }

    // How many bytes of data: mostly few.
    fn len(&mut self, sectors: u64) -> usize {
        let most = (self.bytes / SECTOR).min(sectors as usize) as u64;
        let is_long = self.bytes == MOST && self.numbers.one_in(2) || self.numbers.one_in(4);
        let few = if is_long { most } else { most.min(9) };
        let least = u64::from(!self.has_refused);
        SECTOR * (least + self.numbers.below(few + 1 - least)) as usize
    }

    /// A request, if there is room for it.
    pub fn request(&mut self, memory: &mut Memory) -> Option<Request> {
        let what = self.what();
        let (kind, sector, len) = self.asked(what);
        let mut data = Vec::new();
        let room = match what {
            What::Write | What::LostWrite(_) => {
                data = self.numbers.bytes(len);
                1
            }
            What::Ragged | What::Broken if kind == 1 => {
                data = self.numbers.bytes(len);
                1
            }
            What::Mute => 0,
            _ => len + 1,
        };
        let mut header = kind.to_le_bytes().to_vec();
        header.extend((self.numbers.any() as u32).to_le_bytes());
        header.extend(sector.to_le_bytes());
        if what == What::Short {
            header.truncate(1 + self.numbers.below(15) as usize);
        }
        let readable = [&header[..], &data].concat();
        match what {
            What::LostRead(_) => self.lost_read(memory, &header, len, sector),
            What::LostWrite(_) => self.lost_write(memory, &header, data, sector),
            _ => self.whole(memory, what, &readable, room, (sector, data)),
        }
    }

    // The kind, the sector and the length of what is asked for.
    fn asked(&mut self, what: What) -> (u32, u64, usize) {
        let Area { first, sectors, spare } = self.area;
        let sector = |draw: &mut Self, len: usize| first + draw.numbers.below(sectors - (len / SECTOR) as u64 + 1);
        match what {
            What::Read | What::Write => {
                let len = self.len(sectors);
                (u32::from(what == What::Write), sector(self, len), len)
            }
            What::LostRead(_) => {
                let len = self.len(sectors - 2) + 2 * SECTOR;
                (0, sector(self, len), len)
            }
            What::LostWrite(_) => {
                let len = (self.len(spare - 2) + 2 * SECTOR).min(self.bytes.max(2 * SECTOR));
                let upto = spare - (len / SECTOR) as u64;
                (1, first + sectors + self.numbers.below(upto + 1), len)
            }
            What::Broken => {
                let count = 1 + self.numbers.below(8);
                let sector = self.sectors - BROKEN + self.numbers.below(BROKEN - count + 1);
                (self.numbers.below(2) as u32, sector, SECTOR * count as usize)
            }
            What::Flush => (4, self.numbers.below(3), 0),
            What::Id => (8, 0, [20, 20, 7, 1, 19, 33][self.numbers.below(6) as usize]),
            What::Short => (self.numbers.below(2) as u32, 0, SECTOR),
            What::Past => {
                let len = SECTOR * (1 + self.numbers.below(4) as usize);
                let far = [self.sectors, self.sectors - len as u64 / 512 + 1, u64::MAX, 1 << 55];
                (0, far[self.numbers.below(4) as usize], len)
            }
            What::Ragged => (
                self.numbers.below(2) as u32,
                first,
                1 + self.numbers.below(511) as usize,
            ),
            What::Unknown => ([2, 3, 5, 7, 9, 10, 14, 1 << 31][self.numbers.below(8) as usize], 0, 0),
            What::Mute => (0, first, 0),
        }
    }

    fn take(&mut self, len: usize, most: usize, access: u8) -> Option<Stream> {
        let lens = if len == 0 {
            Vec::new()
        } else {
            cut(self.numbers, len, most)
        };
        self.places.stream(self.numbers, self.io, &lens, (access, 1))
    }

    // Room for a header and data. The header has few pieces: a table of few ranges has to have all of it.
    fn readable(&mut self, len: usize, most: usize) -> Option<Stream> {
        let mut lens = cut(self.numbers, len, most);
        while lens.len() > 2 && lens[0] + lens[1] < 16 {
            lens[0] += lens.remove(1);
        }
        self.places.stream(self.numbers, self.io, &lens, (READ, 1))
    }

    fn whole(
        &mut self,
        memory: &mut Memory,
        what: What,
        readable: &[u8],
        room: usize,
        (sector, data): (u64, Vec<u8>),
    ) -> Option<Request> {
        let most = if room == 0 { self.pieces } else { self.pieces / 2 };
        let reads = self.readable(readable.len(), most)?;
        let Some(writes) = self.take(room, self.pieces / 2, WRITE) else {
            self.places.give(self.io, &reads);
            return None;
        };
        reads.put(memory, 0, readable);
        self.ready(memory, what, reads, writes, (sector, data))
    }

    fn lost_read(&mut self, memory: &mut Memory, header: &[u8], len: usize, sector: u64) -> Option<Request> {
        let good = 1 + self.numbers.below(len as u64 - 2) as usize;
        let lost = 1 + self.numbers.below((len - good) as u64) as usize;
        let reads = self.take(header.len(), 2, READ)?;
        reads.put(memory, 0, header);
        let (first, last) = (
            self.take(good, self.pieces - 4, WRITE),
            self.take(len - good - lost + 1, 1, WRITE),
        );
        let (Some(first), Some(last)) = (&first, &last) else {
            for stream in [Some(reads), first, last].iter().flatten() {
                self.places.give(self.io, stream);
            }
            return None;
        };
        let mut writes = first.clone();
        self.places.add_lost(self.numbers, self.io, &mut writes, lost, WRITE);
        writes.append(last.clone());
        self.ready(memory, What::LostRead(good), reads, writes, (sector, Vec::new()))
    }

    fn lost_write(&mut self, memory: &mut Memory, header: &[u8], data: Vec<u8>, sector: u64) -> Option<Request> {
        let good = self.numbers.below(data.len() as u64) as usize;
        let lost = 1 + self.numbers.below((data.len() - good) as u64) as usize;
        let rest = data.len() - good - lost;
        let first = self.readable(header.len() + good, self.pieces - 3);
        let (last, writes) = (self.take(rest, 1, READ), self.take(1, 1, WRITE));
        let (Some(first), Some(last), Some(writes)) = (&first, &last, &writes) else {
            for stream in [first, last, writes].iter().flatten() {
                self.places.give(self.io, stream);
            }
            return None;
        };
        let mut reads = first.clone();
        self.places.add_lost(self.numbers, self.io, &mut reads, lost, READ);
        reads.append(last.clone());
        reads.put(memory, 0, &[header, &data].concat());
        self.ready(memory, What::LostWrite(good), reads, writes.clone(), (sector, data))
    }

    // Puts its table, if it has one.
    fn ready(
        &mut self,
        memory: &mut Memory,
        what: What,
        reads: Stream,
        writes: Stream,
        (sector, data): (u64, Vec<u8>),
    ) -> Option<Request> {
        let mut request = Request {
            what,
            reads,
            writes,
            table: None,
            sector,
            data,
        };
        if self.indirect {
            let rows = request.rows();
            let Some(table) = self
                .places
                .stream(self.numbers, self.io, &[16 * rows.len()], (READ, 16))
            else {
                request.streams().for_each(|it| self.places.give(self.io, it));
                return None;
            };
            table.put(memory, 0, &table_of(self.shape, &rows));
            request.table = Some(table);
        }
        Some(request)
    }
}

impl Request {
    /// The descriptors of its chain.
    pub fn rows(&self) -> Rows {
        let of = |is_written| move |&(addr, len): &(u64, u32)| (addr, len, is_written);
        let reads = self.reads.pieces.iter().map(of(false));
        reads.chain(self.writes.pieces.iter().map(of(true))).collect()
    }

    pub fn streams(&self) -> impl Iterator<Item = &Stream> {
        [&self.reads, &self.writes].into_iter().chain(&self.table)
    }

    /// Whether the library answers it by itself, before the requests that are under way.
    pub fn is_refused(&self) -> bool {
        match self.what {
            What::Read => self.writes.len() <= 1,
            What::Write => self.data.is_empty(),
            What::Flush | What::Id => false,
            What::Broken => false,
            _ => true,
        }
    }

    // Whether an address of it cannot be reached.
    fn is_lost(&self) -> bool {
        matches!(self.what, What::LostRead(_) | What::LostWrite(_))
    }

    /// The pages that may be marked: all that it may write, also where there is no memory. If some of its I/O addresses
    /// cannot be reached, nothing is written but its status.
    pub fn pages_of(&self, model: &Model) -> Vec<u64> {
        if model.is_translated {
            let room = self.writes.len();
            let from = if self.is_lost() { room - 1 } else { 0 };
            return self.writes.pages(from, room - from).collect();
        }
        let pieces = self.writes.pieces.iter().filter(|it| it.1 > 0);
        let pages = |&(addr, len): &(u64, u32)| addr / PAGE..=(addr + u64::from(len) - 1) / PAGE;
        pieces.flat_map(pages).collect()
    }

    // Whether it makes the disk stable.
    fn syncs(&self, model: &Model) -> bool {
        match self.what {
            What::Write => model.is_write_through && !self.data.is_empty(),
            what => what == What::Flush,
        }
    }

    fn place(&self) -> usize {
        self.sector as usize * SECTOR
    }

    // The data that it gets, up to where that ends, and its status.
    fn answer(&self, model: &Model) -> (Vec<u8>, u8) {
        let room = self.writes.len().saturating_sub(1);
        match self.what {
            What::Read => (model.disk[self.place()..self.place() + room].to_vec(), 0),
            What::Id => (model.name[..room.min(20)].to_vec(), 0),
            What::Write | What::Flush => (Vec::new(), u8::from(model.sync_failed && self.syncs(model))),
            What::Unknown => (Vec::new(), 2),
            _ => (Vec::new(), 1),
        }
    }

    /// It came back with a length. Says what it marked.
    pub fn finish(&self, len: u32, memory: &mut Memory, model: &mut Model) -> Marks {
        let (data, status) = self.answer(model);
        model.syncs += u64::from(self.syncs(model) && !model.sync_failed);
        let (len, room) = (len as usize, self.writes.len());
        let mut marks = Marks::default();
        let done = data.len();
        let wanted = match room.checked_sub(1) {
            Some(before) if before == done => room,
            _ => done,
        };
        assert_eq!(len, wanted, "the length of {:?}", self.what);
        self.writes.expect(memory, 0, &data);
        marks.must.extend(self.writes.pages(0, done));
        marks.may.extend(self.pages_of(model));
        if room > 0 {
            self.writes.expect(memory, room - 1, &[status]);
            marks.must.extend(self.writes.pages(room - 1, 1));
        }
        if self.what == What::Write {
            model.disk[self.place()..][..self.data.len()].copy_from_slice(&self.data);
        }
        marks
    }

    /// What it has for the disk may be there in part.
    pub fn may_be_written(&self, model: &mut Model) {
        if self.what == What::Write {
            model.maybe.push((self.place(), self.data.clone()));
        }
    }

    /// What it has for memory may be there in part.
    pub fn may_be_begun(&self, memory: &mut Memory, model: &Model) {
        let (mut data, status) = self.answer(model);
        if self.what == What::Read {
            let found = self.writes.get(memory, 0, data.len());
            data = model.may_be_read(self.place(), &found);
        }
        let room = self.writes.len();
        self.writes.settle(memory, 0, &data);
        if room > 0 {
            self.writes.settle(memory, room - 1, &[status]);
        }
    }
}

impl Model {
    /// A disk with these bytes and this name, of which nothing is known of how requests are served.
    pub fn new(disk: Vec<u8>, name: &str) -> Model {
        let mut padded = [0; 20];
        padded[..name.len()].copy_from_slice(name.as_bytes());
        Model {
            disk,
            name: padded,
            is_translated: false,
            has_refused: true,
            is_write_through: false,
            sync_failed: false,
            syncs: 0,
            maybe: Vec::new(),
        }
    }

    // Whether a byte may have been written to a place of the disk.
    fn may_have(&self, at: usize, byte: u8) -> bool {
        let has = |(from, new): &(usize, Vec<u8>)| (*from..from + new.len()).contains(&at) && new[at - from] == byte;
        self.maybe.iter().any(has)
    }

    // What a read may have found from a place on, by what it left.
    fn may_be_read(&self, place: usize, left: &[u8]) -> Vec<u8> {
        let found = |(at, &byte): (usize, &u8)| if self.may_have(at, byte) { byte } else { self.disk[at] };
        (place..).zip(left).map(found).collect()
    }

    /// Compares the image.
    pub fn check(&mut self, image: &[u8]) {
        for (place, bytes) in &self.maybe {
            for (at, &byte) in (*place..).zip(&image[*place..place + bytes.len()]) {
                assert!(
                    byte == self.disk[at] || self.may_have(at, byte),
                    "byte {at:#x} of the disk is neither old nor new"
                );
            }
        }
        for (place, bytes) in std::mem::take(&mut self.maybe) {
            let all = place..place + bytes.len();
            self.disk[all.clone()].copy_from_slice(&image[all]);
        }
        if image != self.disk {
            let at = (0..image.len()).find(|&at| image[at] != self.disk[at]).unwrap();
            let wanted = &self.disk[at..(at + 16).min(image.len())];
            panic!(
                "at {at:#x} the disk has {:x?}, and has to have {wanted:x?}",
                &image[at..][..wanted.len()]
            );
        }
    }
}
