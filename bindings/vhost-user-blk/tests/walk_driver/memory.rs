//! Guest memory in files, beside what it has to be.

use super::{Numbers, PAGE};
use crate::front_end::{memfd, Map};
use std::collections::BTreeMap;
use std::os::fd::{AsRawFd, OwnedFd, RawFd};
use std::rc::Rc;
use std::sync::atomic::{fence, Ordering::SeqCst};

// What a file has in front of a region and after it, which nobody may touch.
const EDGE: u64 = PAGE;
// How far apart the places of a file are.
const APART: u64 = 0x80_0000;

/// A part of guest memory, which is a part of a file.
pub struct Region {
    pub guest: u64,
    pub len: u64,
    pub user: u64,
    pub offset: u64,
    file: Rc<OwnedFd>,
    map: Map,
    // What the mapping has to have.
    wanted: Vec<u8>,
}

impl Region {
    fn new(guest: u64, len: u64, user: u64, offset: u64, file: Rc<OwnedFd>) -> Region {
        let map = Map::new(&file, offset - EDGE, (len + 2 * EDGE) as usize);
        // No byte is 0, and each page differs.
        let byte = |at: usize| 0xaa ^ ((guest >> 12) as u8 ^ (at >> 12) as u8 ^ at as u8) & 0x55;
        let wanted: Vec<u8> = (0..map.len()).map(byte).collect();
        map.write(0, &wanted);
        Region {
            guest,
            len,
            user,
            offset,
            file,
            map,
            wanted,
        }
    }

    pub fn descriptor(&self) -> RawFd {
        self.file.as_raw_fd()
    }

    // Has its bytes in another place, and what was there is filled with something else.
    fn move_to(&mut self, file: Rc<OwnedFd>, offset: u64) -> (Map, Vec<u8>) {
        let map = Map::new(&file, offset - EDGE, self.map.len());
        let mut bytes = vec![0; self.map.len()];
        self.map.read(0, &mut bytes);
        map.write(0, &bytes);
        (self.file, self.offset) = (file, offset);
        let old = std::mem::replace(&mut self.map, map);
        let stale: Vec<u8> = bytes.iter().map(|byte| byte ^ 0x3c).collect();
        (old, stale)
    }
}

/// All of it.
pub struct Memory {
    pub regions: Vec<Region>,
    /// Memory that is plugged in at times, and which no request names.
    pub extra: Region,
    // What a table before this one had, and what is there since then.
    old: Vec<(Map, Vec<u8>)>,
    // How many places of files were used.
    places: u64,
}

impl Memory {
    /// Regions of two files or of eight, with a hole, and some above 4 GiB.
    pub fn new(many_files: bool) -> Memory {
        const MIB: u64 = 1 << 20;
        let (low, high) = (MIB, 5 << 30);
        // Guest address, length, user address, offset in the file.
        let few = [
            (low, 3 * MIB, 0x7f10_0000_0000, 0x7000),
            (low + 3 * MIB, 2 * MIB, 0x7e00_0000_0000, 0x1_2345_6000),
            (160 * MIB, MIB, 0x7f00_4000_0000, 0x80_0000),
            (high, 3 * MIB, 0x7d00_0000_5000, 0x3000),
        ];
        let many = [
            (low, MIB, 0x7f10_0000_0000, 0x5000),
            (low + MIB, MIB + PAGE, 0x7c00_0000_0000, 0x1000),
            (low + 2 * MIB + PAGE, MIB - PAGE, 0x7e00_0000_0000, 0x9000),
            (100 * MIB + PAGE, 2 * MIB, 0x7c10_0000_0000, 0x2_0000_0000),
            (300 * MIB, MIB, 0x7b00_0000_3000, 0x1000),
            (high - MIB, MIB, 0x7a10_0000_0000, 0x7000),
            (high, MIB, 0x7a00_0000_0000, 0xf_f000),
            (high + (2 << 30), MIB, 0x7900_0000_0000, 0x2000),
        ];
        let rows = if many_files { &many[..] } else { &few[..] };
        let files: Vec<_> = (0..if many_files { 8 } else { 2 })
            .map(|_| Rc::new(memfd(1 << 40)))
            .collect();
        let regions = rows.iter().enumerate().map(|(at, &(guest, len, user, offset))| {
            Region::new(guest, len, user, offset, Rc::clone(&files[at % files.len()]))
        });
        let file = Rc::new(memfd(1 << 40));
        Memory {
            regions: regions.collect(),
            extra: Region::new(8 << 30, MIB, 0x7100_0000_0000, 0x11_1000, file),
            old: Vec::new(),
            places: 0,
        }
    }

    /// Guest addresses that lie together, from and to.
    pub fn spans(&self) -> Vec<(u64, u64)> {
        let mut spans: Vec<(u64, u64)> = Vec::new();
        for region in &self.regions {
            match spans.last_mut() {
                Some(last) if last.1 == region.guest => last.1 += region.len,
                _ => spans.push((region.guest, region.guest + region.len)),
            }
        }
        spans
    }

    /// The address after the last one, also after more memory was plugged in.
    pub fn end(&self) -> u64 {
        let ends = self.regions.iter().chain([&self.extra]).map(|it| it.guest + it.len);
        ends.max().unwrap()
    }

    // The region of an address, the place in its mapping, and how many bytes it has from there on.
    fn find(&self, guest: u64) -> (usize, usize, usize) {
        let has = |it: &Region| (it.guest..it.guest + it.len).contains(&guest);
        let index = self.regions.iter().position(has).expect("the address has memory");
        let region = &self.regions[index];
        let from = guest - region.guest;
        (index, (from + EDGE) as usize, (region.len - from) as usize)
    }

    /// The user address of a guest address.
    pub fn user(&self, guest: u64) -> u64 {
        let (index, ..) = self.find(guest);
        self.regions[index].user + (guest - self.regions[index].guest)
    }

    /// Whether one region has all of these.
    pub fn is_in_one(&self, guest: u64, len: usize) -> bool {
        self.find(guest).2 >= len
    }

    pub fn read(&self, guest: u64, bytes: &mut [u8]) {
        let (index, from, room) = self.find(guest);
        let count = room.min(bytes.len());
        let (now, rest) = bytes.split_at_mut(count);
        self.regions[index].map.read(from, now);
        if !rest.is_empty() {
            self.read(guest + count as u64, rest);
        }
    }

    /// Writes, as the driver does.
    pub fn write(&mut self, guest: u64, bytes: &[u8]) {
        self.each(guest, bytes, |map, from, part| map.write(from, part));
    }

    /// The device wrote these.
    pub fn expect(&mut self, guest: u64, bytes: &[u8]) {
        self.each(guest, bytes, |_, _, _| ());
    }

    fn each(&mut self, guest: u64, bytes: &[u8], make: impl Fn(&Map, usize, &[u8])) {
        let (mut guest, mut rest) = (guest, bytes);
        while !rest.is_empty() {
            let (index, from, room) = self.find(guest);
            let (part, after) = rest.split_at(room.min(rest.len()));
            let region = &mut self.regions[index];
            make(&region.map, from, part);
            region.wanted[from..from + part.len()].copy_from_slice(part);
            (guest, rest) = (guest + part.len() as u64, after);
        }
    }

    /// What has to be there.
    pub fn wanted(&self, guest: u64, len: usize) -> Vec<u8> {
        let (index, from, room) = self.find(guest);
        let count = room.min(len);
        let mut bytes = self.regions[index].wanted[from..from + count].to_vec();
        if count < len {
            bytes.extend(self.wanted(guest + count as u64, len - count));
        }
        bytes
    }

    /// The device may have written these bytes, or a part of them. What is there counts from now on.
    pub fn settle(&mut self, guest: u64, new: &[u8]) {
        let mut now = vec![0; new.len()];
        self.read(guest, &mut now);
        let old = self.wanted(guest, new.len());
        for (at, byte) in now.iter().enumerate() {
            assert!(
                *byte == old[at] || *byte == new[at],
                "at {:#x} is {byte:#x}, and neither {:#x} nor {:#x}",
                guest + at as u64,
                old[at],
                new[at]
            );
        }
        self.expect(guest, &now);
    }

    /// The device writes these bytes as it likes.
    pub fn accept(&mut self, guest: u64, len: usize) {
        let mut now = vec![0; len];
        self.read(guest, &mut now);
        self.expect(guest, &now);
    }

    pub fn load(&self, guest: u64) -> u16 {
        let (index, from, _) = self.find(guest);
        fence(SeqCst);
        self.regions[index].map.half(from).load(SeqCst)
    }

    /// Writes a number after all that was written before, and before all that is read after it.
    pub fn store(&mut self, guest: u64, value: u16) {
        let (index, from, _) = self.find(guest);
        let region = &mut self.regions[index];
        region.map.half(from).store(value, SeqCst);
        fence(SeqCst);
        region.wanted[from..from + 2].copy_from_slice(&value.to_le_bytes());
    }

    /// Has some regions lie elsewhere: in another file, in another place of the same one, or both. No device writes
    /// meanwhile.
    pub fn shuffle(&mut self, numbers: &mut Numbers) {
        self.old.clear();
        let all = numbers.one_in(4);
        let chosen = numbers.below(self.regions.len() as u64) as usize;
        for index in 0..self.regions.len() {
            if !all && index != chosen && !numbers.one_in(3) {
                continue;
            }
            self.places += 1;
            let region = &self.regions[index];
            let far = 0x4_0000_0000 + self.places * APART;
            let (file, offset) = match numbers.below(3) {
                0 => (Rc::clone(&region.file), far),
                1 => (Rc::new(memfd(1 << 40)), region.offset),
                _ => (Rc::new(memfd(1 << 40)), far),
            };
            let old = self.regions[index].move_to(file, offset);
            self.old.push(old);
        }
    }

    /// Each region has the user address of another one.
    pub fn rotate(&mut self) {
        let mut users: Vec<u64> = self.regions.iter().map(|it| it.user).collect();
        users.rotate_left(1);
        for (region, user) in self.regions.iter_mut().zip(users) {
            region.user = user;
        }
    }

    /// The device has the last table alone: what an older one had changes.
    pub fn spoil(&mut self) {
        for (map, stale) in &self.old {
            map.write(0, stale);
        }
    }

    /// Compares all bytes but these, which the device may write at any time.
    pub fn check(&self, free: &[u64]) {
        for region in self.regions.iter().chain([&self.extra]) {
            if region.map.is(&region.wanted) {
                continue;
            }
            let mut now = vec![0; region.map.len()];
            region.map.read(0, &mut now);
            let guest = |at: usize| region.guest.wrapping_add(at as u64).wrapping_sub(EDGE);
            let is_wrong = |&at: &usize| now[at] != region.wanted[at] && !free.contains(&guest(at));
            let Some(at) = (0..now.len()).find(is_wrong) else {
                continue;
            };
            let upto = (at + 16).min(now.len());
            let (now, wanted) = (&now[at..upto], &region.wanted[at..upto]);
            panic!("at {:#x} memory has {now:x?}, and has to have {wanted:x?}", guest(at));
        }
        let is_stale = |(map, stale): &(Map, Vec<u8>)| map.is(stale);
        assert!(self.old.iter().all(is_stale), "memory of an old table was written");
    }
}

/// What of some addresses is taken.
pub struct Room {
    spans: Vec<(u64, u64)>,
    taken: BTreeMap<u64, u64>,
}

impl Room {
    pub fn new(spans: Vec<(u64, u64)>) -> Room {
        Room {
            spans,
            taken: BTreeMap::new(),
        }
    }

    /// Takes some of these addresses, anywhere.
    pub fn take(&mut self, numbers: &mut Numbers, len: u64, align: u64) -> Option<u64> {
        for _ in 0..60 {
            let (from, to) = self.spans[numbers.below(self.spans.len() as u64) as usize];
            if to - from < len + align {
                continue;
            }
            let at = (from + numbers.below(to - from - len - align)).div_ceil(align) * align;
            let before = self.taken.range(..at + len).next_back();
            if before.is_none_or(|(_, end)| *end <= at) {
                self.taken.insert(at, at + len);
                return Some(at);
            }
        }
        None
    }

    pub fn give(&mut self, at: u64) {
        self.taken.remove(&at).expect("it was taken");
    }
}
