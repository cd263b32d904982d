//! The library of these tests: the program, the messages of a front end, and a driver whose guest memory is a memfd.
//! The walks have another driver over it.
#![allow(dead_code, unused_imports)]

pub mod faults;
pub mod inflight;
pub mod link;
pub mod load;
pub mod log;
pub mod numbers;
pub mod packed;
pub mod program;
#[path = "../../../rust/tests/front_end/protocol.rs"]
pub mod protocol;
pub mod system;

pub use faults::Faults;
pub use inflight::Region;
pub use link::Link;
pub use numbers::Numbers;
pub use program::{image_of, work_of_its_end, Program};
pub use protocol::*;
use std::collections::BTreeMap;
use std::fs::File;
use std::io::{Read, Write};
use std::ops::{Deref, DerefMut};
use std::os::fd::OwnedFd;
use std::os::unix::fs::FileExt;
use std::os::unix::net::UnixStream;
use std::path::Path;
use std::sync::atomic::{fence, AtomicU16, Ordering::SeqCst};
use std::time::{Duration, Instant};
pub use system::*;

pub const USUAL: u64 = FLUSH | INDIRECT_DESC | PROTOCOL_FEATURES | VERSION_1;

/// The words for a guest that has an IOMMU, and for a small table of its addresses.
pub const IOMMU: &[&str] = &["--iommu"];
pub const IOMMU_8: &[&str] = &["--iommu", "--iotlb-limit", "8"];

/// What the guest sees at 0 lies here in the front end.
pub const USER: u64 = 0x7f00_0000_0000;
pub const RAM: usize = 16 << 20;

// Of each ring: where its parts lie, and then a slot of SLOT bytes for each descriptor of a request.
const RING: u64 = 1 << 20;
const AVAIL: u64 = 0x4000;
const USED: u64 = 0x6000;
const SLOTS: u64 = 0x1_0000;
const SLOT: u64 = 0x4000;
const DATA: u64 = 0x1000;

// For each head of ring 0 the header and the status of a request, and a table of descriptors.
pub const HEADERS: usize = 5 << 20;
const TABLES: usize = 6 << 20;
const TABLE_LEN: usize = 0x8000;

/// How long a test waits for what has to come.
pub const LONG: Duration = Duration::from_secs(60);

/// The payload of two numbers.
pub fn two(index: u32, number: u32) -> Vec<u8> {
    words(&[index, number])
}

/// A ring of the driver.
pub struct Ring {
    pub kick: OwnedFd,
    pub call: OwnedFd,
    pub err: OwnedFd,
    pub size: u16,
    pub next_avail: u16,
    pub next_used: u16,
    base: u64,
}

/// A page of I/O addresses, and of guest memory.
pub const PAGE: u64 = 0x1000;

pub const READ: u8 = 1;
pub const WRITE: u8 = 2;

/// The I/O table of a front end, and the channel on which the back end asks for its mappings.
pub struct IoTable {
    pub channel: UnixStream,
    /// Where each page of I/O addresses leads, and for which access.
    pub pages: BTreeMap<u64, (u64, u8)>,
    /// The addresses that were asked for, with their access.
    pub misses: Vec<(u64, u8)>,
    /// The page of which a MISS is left unanswered.
    pub held: Option<u64>,
}

pub struct FrontEnd {
    link: Link,
    pub io: Option<IoTable>,
    /// The I/O address of the guest address 0.
    pub shift: u64,
    pub ram: OwnedFd,
    map: Map,
    pub rings: Vec<Ring>,
    /// Whether its rings are packed.
    pub is_packed: bool,
}

impl Deref for FrontEnd {
    type Target = Link;

    fn deref(&self) -> &Link {
        &self.link
    }
}

impl DerefMut for FrontEnd {
    fn deref_mut(&mut self) -> &mut Link {
        &mut self.link
    }
}

impl FrontEnd {
    pub fn new(socket: UnixStream) -> FrontEnd {
        let ram = memfd(RAM);
        FrontEnd {
            link: Link::new(socket),
            io: None,
            shift: 0,
            map: Map::new(&ram, 0, RAM),
            ram,
            rings: Vec::new(),
            is_packed: false,
        }
    }

    /// Connects to a program that was started again, with the memory and the rings that are there.
    pub fn connect_again(&mut self, program: &Program) {
        self.link = Link::new(program.socket());
        self.io = None;
        self.shift = 0;
    }

    pub fn negotiate(&mut self, features: u64) {
        let offered = self.ask_u64(GET_FEATURES);
        assert_eq!(offered & features, features);
        let protocol = self.ask_u64(GET_PROTOCOL_FEATURES);
        self.send(SET_PROTOCOL_FEATURES, 0, &protocol.to_le_bytes(), &[]);
        self.send(SET_OWNER, 0, &[], &[]);
        self.send(SET_FEATURES, 0, &features.to_le_bytes(), &[]);
        self.is_packed = features & RING_PACKED != 0;
    }

    // ---- the I/O table

    /// Has the device reach rings and buffers by I/O addresses, which lie this far after the guest's. Each page leads
    /// to its own, to read and write.
    pub fn translate(&mut self, shift: u64) {
        let (mine, other) = UnixStream::pair().unwrap();
        assert!(self.is_done(SET_BACKEND_REQ_FD, &[], &[&other.into()]));
        mine.set_nonblocking(true).unwrap();
        let pages = (0..RAM as u64 / PAGE).map(|page| (shift + page * PAGE, (page * PAGE, READ | WRITE)));
        self.shift = shift;
        self.io = Some(IoTable {
            channel: mine,
            pages: pages.collect(),
            misses: Vec::new(),
            held: None,
        });
    }

    pub fn io(&mut self) -> &mut IoTable {
        self.io.as_mut().unwrap()
    }

    /// Has a page lead elsewhere, or nowhere.
    pub fn remap(&mut self, iova: u64, to: Option<(u64, u8)>) {
        match to {
            Some(to) => self.io().pages.insert(iova, to),
            None => self.io().pages.remove(&iova),
        };
        assert!(self.is_done(IOTLB_MSG, &iotlb(iova, PAGE, 0, 0, 3), &[]));
    }

    /// The message of 44 bytes that waits on the back end's channel, if there is one.
    pub fn asked(&mut self) -> Option<Vec<u8>> {
        let mut message = vec![0; 44];
        self.io().channel.read_exact(&mut message).ok().map(|()| message)
    }

    /// Answers what the back end asks for.
    pub fn serve_table(&mut self) {
        while self.io.is_some() {
            let Some(message) = self.asked() else {
                return;
            };
            let (iova, access) = (u64::from_le_bytes(message[12..20].try_into().unwrap()), message[36]);
            // The request is 1, which wants a reply, and only the other fields of a MISS are not 0.
            assert_eq!(message[..8], [1, 0, 0, 0, 9, 0, 0, 0]);
            assert_eq!((&message[20..36], message[37]), (&[0; 16][..], 1), "it is no MISS");
            self.io().misses.push((iova, access));
            let page = iova / PAGE * PAGE;
            if self.io().held != Some(page) {
                self.answer(page);
            }
        }
    }

    /// Sends the mapping of a page, if there is one, and answers the MISS of it.
    pub fn answer(&mut self, page: u64) {
        let to = self.io().pages.get(&page).copied();
        if let Some((to, permissions)) = to {
            assert!(self.is_done(IOTLB_MSG, &iotlb(page, PAGE, USER + to, permissions, 2), &[]));
        }
        let value = u64::from(to.is_none());
        let reply = [&[1, 5, 8].map(u32::to_le_bytes).concat()[..], &value.to_le_bytes()].concat();
        self.io().channel.write_all(&reply).unwrap();
    }

    /// Waits for a MISS of a page, and leaves it unanswered.
    pub fn hold(&mut self, page: u64) {
        let begun = Instant::now();
        self.io().held = Some(page);
        self.io().misses.clear();
        while self.io().misses.last().map(|it| it.0 / PAGE * PAGE) != Some(page) {
            assert!(begun.elapsed() < LONG, "no miss comes");
            self.serve_table();
        }
        self.io().held = None;
    }

    /// The payload of a table of regions: the guest address of each, its size, and its offset.
    pub fn table(regions: &[(u64, u64, u64)]) -> Vec<u8> {
        let row = |&(guest, size, offset): &(u64, u64, u64)| [guest, size, USER + guest, offset];
        table(&regions.iter().map(row).collect::<Vec<_>>())
    }

    /// The whole memory is one region at the address 0.
    pub fn set_memory(&mut self) {
        let ram = again(&self.ram);
        assert!(self.is_done(SET_MEM_TABLE, &FrontEnd::table(&[(0, RAM as u64, 0)]), &[&ram]));
    }

    /// Starts a ring of `size` descriptors from an index on. The rings before it are started.
    pub fn start_ring(&mut self, size: u16, base: u16) -> usize {
        let index = self.rings.len();
        let ring = Ring {
            kick: eventfd(),
            call: eventfd(),
            err: eventfd(),
            size,
            next_avail: base,
            next_used: base,
            base: RING * (index as u64 + 1),
        };
        let place = ring.base as usize;
        self.write(place, &[0; 0x8000]);
        self.word(place + AVAIL as usize + 2).store(base, SeqCst);
        self.word(place + USED as usize + 2).store(base, SeqCst);
        self.rings.push(ring);
        self.restart_ring(index, base);
        index
    }

    /// Starts a ring that was stopped.
    pub fn restart_ring(&mut self, index: usize, base: u16) {
        self.restart_at(index, base.into());
    }

    /// Starts a packed ring of `size` descriptors at a base of 32 bits. The rings before it are started.
    pub fn start_packed_ring(&mut self, size: u16, base: u32) -> usize {
        let index = self.rings.len();
        self.rings.push(Ring {
            kick: eventfd(),
            call: eventfd(),
            err: eventfd(),
            size,
            next_avail: 0,
            next_used: 0,
            base: RING * (index as u64 + 1),
        });
        let ring = self.rings[index].base as usize;
        self.write(ring, &[0; 0x8000]);
        // Each slot was used in the round before the one that comes to it next.
        let (first, wrap) = (base >> 16 & 0x7fff, base >> 31 == 1);
        for slot in 0..size {
            let flags = if (u32::from(slot) < first) == wrap { 0x8080 } else { 0 };
            self.word(ring + 16 * usize::from(slot) + 14).store(flags, SeqCst);
        }
        self.restart_at(index, base);
        index
    }

    /// Starts a ring that was stopped.
    pub fn restart_at(&mut self, index: usize, base: u32) {
        let (number, size) = (index as u32, self.rings[index].size);
        assert!(self.is_done(SET_VRING_NUM, &two(number, size.into()), &[]));
        assert!(self.is_done(SET_VRING_BASE, &two(number, base), &[]));
        let addresses = self.addresses(index, false);
        assert!(self.is_done(SET_VRING_ADDR, &addresses, &[]));
        let value = u64::from(number).to_le_bytes();
        let [kick, call, err] = [&self.rings[index].kick, &self.rings[index].call, &self.rings[index].err].map(again);
        assert!(self.is_done(SET_VRING_CALL, &value, &[&call]));
        assert!(self.is_done(SET_VRING_ERR, &value, &[&err]));
        assert!(self.is_done(SET_VRING_KICK, &value, &[&kick]));
        assert!(self.is_done(SET_VRING_ENABLE, &two(number, 1), &[]));
        take(&self.rings[index].call);
    }

    /// The payload of a SET_VRING_ADDR: where a ring lies, and whether its writes are logged.
    pub fn addresses(&self, index: usize, is_logged: bool) -> Vec<u8> {
        let place = self.rings[index].base;
        let base = if self.io.is_some() { self.shift } else { USER };
        let at = |from: u64| base + place + from;
        // Without a table the log has the guest's addresses.
        let log = self.shift + place + USED;
        addresses(index as u32, is_logged.into(), [at(0), at(USED), at(AVAIL), log])
    }

    /// Where its descriptors lie, and of a packed ring the driver's and the device's event suppression.
    pub fn parts(&self, index: usize) -> (usize, usize, usize) {
        let base = self.rings[index].base;
        (base as usize, (base + AVAIL) as usize, (base + USED) as usize)
    }

    /// The guest address of the used ring.
    pub fn used_ring(&self, index: usize) -> u64 {
        self.rings[index].base + USED
    }

    /// Stops a ring, and returns its next available index.
    pub fn stop_ring(&mut self, index: usize) -> u32 {
        let reply = self.ask(GET_VRING_BASE, &two(index as u32, 0));
        assert_eq!(reply[..4], (index as u32).to_le_bytes());
        u32::from_le_bytes(reply[4..].try_into().unwrap())
    }

    // ---- memory

    /// Has the memory lie in another file, or in another place of one, and returns where it was. The back end is not
    /// told.
    pub fn move_memory(&mut self, file: &OwnedFd, offset: usize) -> Map {
        let map = Map::new(file, offset as u64, RAM);
        map.write(0, &self.read(0, RAM));
        self.ram = again(file);
        std::mem::replace(&mut self.map, map)
    }

    pub fn read(&self, from: usize, len: usize) -> Vec<u8> {
        let mut bytes = vec![0; len];
        self.map.read(from, &mut bytes);
        bytes
    }

    pub fn write(&self, from: usize, bytes: &[u8]) {
        self.map.write(from, bytes);
    }

    pub fn word(&self, from: usize) -> &AtomicU16 {
        self.map.half(from)
    }

    // ---- the driver

    fn put(&self, index: usize, place: u16, addr: u64, len: u32, flags: u16, next: u16) {
        let bytes = [
            &(addr + self.shift).to_le_bytes()[..],
            &len.to_le_bytes(),
            &flags.to_le_bytes(),
            &next.to_le_bytes(),
        ]
        .concat();
        self.write(self.rings[index].base as usize + 16 * place as usize, &bytes);
    }

    /// Where the data of the request that begins with this descriptor lie, and its status.
    pub fn places(&self, index: usize, head: u16) -> (usize, usize) {
        let slot = (self.rings[index].base + SLOTS + SLOT * u64::from(head / 3)) as usize;
        (slot + DATA as usize, slot + 0x800)
    }

    /// Puts a request into three descriptors from `head` on: header, data, and status.
    pub fn put_request(&self, index: usize, head: u16, kind: u32, sector: u64, len: u32) {
        let (data, status) = self.places(index, head);
        let header = data - DATA as usize;
        self.write(
            header,
            &[&kind.to_le_bytes()[..], &[0; 4], &sector.to_le_bytes()].concat(),
        );
        self.write(status, &[0xff]);
        let is_written = u16::from(kind != 1) * 2;
        self.put(index, head, header as u64, 16, 1, head + 1);
        self.put(index, head + 1, data as u64, len, 1 | is_written, head + 2);
        self.put(index, head + 2, status as u64, 1, 2, 0);
        if len == 0 {
            self.put(index, head, header as u64, 16, 1, head + 2);
        }
    }

    /// Has a head of ring 0 lead to a table of these segments: where each begins, its length, and whether the device
    /// writes it.
    pub fn put_segments(&self, head: u16, segments: &[(usize, usize, bool)]) {
        let entry = |addr: usize, len: usize, flags: u16, next: u16| {
            let addr = (addr as u64 + self.shift).to_le_bytes();
            let rest = [flags, next].map(u16::to_le_bytes).concat();
            [&addr[..], &(len as u32).to_le_bytes(), &rest].concat()
        };
        let (table, last) = (TABLES + TABLE_LEN * usize::from(head), segments.len() - 1);
        let row = |(at, &(addr, len, is_written)): (usize, &(usize, usize, bool))| {
            let flags = u16::from(at < last) | u16::from(is_written) << 1;
            entry(addr, len, flags, at as u16 + 1)
        };
        let rows: Vec<_> = segments.iter().enumerate().map(row).collect();
        self.write(table, &rows.concat());
        let one = entry(table, 16 * segments.len(), 4, 0);
        self.write(self.rings[0].base as usize + 16 * usize::from(head), &one);
    }

    /// Puts a request whose data have these segments behind a head of ring 0, and returns where its status goes.
    pub fn put_long(&self, head: u16, kind: u32, sector: u64, data: &[(usize, usize)]) -> usize {
        let header = HEADERS + 0x1000 * usize::from(head);
        let status = header + 0x800;
        let bytes = [&kind.to_le_bytes()[..], &[0; 4], &sector.to_le_bytes()];
        self.write(header, &bytes.concat());
        self.write(status, &[0xff]);
        let data = data.iter().map(|&(addr, len)| (addr, len, kind != 1));
        let segments: Vec<_> = [(header, 16, false)].into_iter().chain(data).collect();
        self.put_segments(head, &[&segments[..], &[(status, 1, true)]].concat());
        status
    }

    /// Puts a read of nearly 4 GiB from the beginning of the disk, all into the four mebibytes from the eighth on.
    pub fn put_endless(&self, head: u16) {
        self.put_long(head, 0, 0, &[(8 << 20, 4 << 20); 1022]);
    }

    /// Publishes a head, and notifies nobody.
    pub fn publish(&mut self, index: usize, head: u16) {
        let ring = &self.rings[index];
        let (place, next) = ((ring.base + AVAIL) as usize, ring.next_avail);
        self.word(place + 4 + 2 * (next % ring.size) as usize)
            .store(head, SeqCst);
        self.rings[index].next_avail = next.wrapping_add(1);
        self.word(place + 2).store(next.wrapping_add(1), SeqCst);
    }

    pub fn kick(&self, index: usize) {
        write_one(&self.rings[index].kick);
    }

    /// Asks to be notified of the used entry of an index, by event indices.
    pub fn set_used_event(&self, index: usize, event: u16) {
        let ring = &self.rings[index];
        let place = (ring.base + AVAIL) as usize + 4 + 2 * ring.size as usize;
        self.word(place).store(event, SeqCst);
        fence(SeqCst);
    }

    /// The index by which the device asks to be notified.
    pub fn avail_event(&self, index: usize) -> u16 {
        let ring = &self.rings[index];
        self.word((ring.base + USED) as usize + 4 + 8 * ring.size as usize)
            .load(SeqCst)
    }

    pub fn used_idx(&self, index: usize) -> u16 {
        self.word((self.rings[index].base + USED) as usize + 2).load(SeqCst)
    }

    /// The next used entry, which has to come.
    pub fn take_used(&mut self, index: usize) -> (u32, u32) {
        let begun = Instant::now();
        while self.used_idx(index) == self.rings[index].next_used {
            assert!(begun.elapsed() < LONG, "no request comes back");
            self.serve_table();
            can_read(&self.rings[index].call, Duration::from_millis(5));
            take(&self.rings[index].call);
        }
        let ring = &mut self.rings[index];
        let place = (ring.base + USED) as usize + 4 + 8 * (ring.next_used % ring.size) as usize;
        ring.next_used = ring.next_used.wrapping_add(1);
        let entry = self.read(place, 8);
        let number = |at: usize| u32::from_le_bytes(entry[at..at + 4].try_into().unwrap());
        (number(0), number(4))
    }

    /// One request, and its status and its length in the used ring.
    pub fn request(&mut self, index: usize, kind: u32, sector: u64, len: u32) -> (u8, u32) {
        self.put_request(index, 0, kind, sector, len);
        self.publish(index, 0);
        self.kick(index);
        let (head, written) = self.take_used(index);
        assert_eq!(head, 0);
        (self.read(self.places(index, 0).1, 1)[0], written)
    }

    /// What a read of sectors gives.
    pub fn read_disk(&mut self, index: usize, sector: u64, len: u32) -> Vec<u8> {
        assert_eq!(self.request(index, 0, sector, len), (0, len + 1));
        self.read(self.places(index, 0).0, len as usize)
    }

    pub fn write_disk(&mut self, index: usize, sector: u64, bytes: &[u8]) {
        self.write(self.places(index, 0).0, bytes);
        assert_eq!(self.request(index, 1, sector, bytes.len() as u32), (0, 1));
    }
}

/// Bytes of a file.
pub fn bytes_at(path: &Path, place: u64, len: usize) -> Vec<u8> {
    let mut bytes = vec![0; len];
    File::open(path).unwrap().read_exact_at(&mut bytes, place).unwrap();
    bytes
}
