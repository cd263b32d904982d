//! Guest memory: parts of files at guest addresses.

use crate::slow::Image;

/// A part of a file that is guest memory.
#[derive(Clone, Copy, Debug, PartialEq, Eq)]
pub struct Shown {
    pub guest: u64,
    pub len: u64,
    pub file: usize,
    pub offset: u64,
}

pub struct Memory {
    // What the files have where they are no guest memory.
    files: Vec<Vec<u8>>,
    /// By their numbers.
    pub regions: Vec<Shown>,
    image: Image,
}

impl Memory {
    pub fn new(files: Vec<Vec<u8>>) -> Memory {
        Memory {
            files,
            regions: Vec::new(),
            image: Image::of(Vec::new()),
        }
    }

    pub fn image(&mut self) -> &mut Image {
        &mut self.image
    }

    fn range(&self, it: &Shown) -> &[u8] {
        let ranges = self.image.ranges();
        let place = ranges.partition_point(|(start, _)| *start < it.guest);
        &ranges[place].1
    }

    /// The files have these regions' bytes from now on, and the regions are others.
    pub fn show(&mut self, regions: Vec<Shown>) {
        for it in &self.regions {
            let bytes = self.range(it).to_vec();
            self.files[it.file][it.offset as usize..][..bytes.len()].copy_from_slice(&bytes);
        }
        let bytes = |it: &Shown| self.files[it.file][it.offset as usize..][..it.len as usize].to_vec();
        let mut ranges: Vec<_> = regions.iter().map(|it| (it.guest, bytes(it))).collect();
        ranges.sort_by_key(|it| it.0);
        self.image = Image::of(ranges);
        self.regions = regions;
    }

    /// What a file has.
    pub fn file(&self, number: usize) -> Vec<u8> {
        let mut bytes = self.files[number].clone();
        for it in self.regions.iter().filter(|it| it.file == number) {
            bytes[it.offset as usize..][..it.len as usize].copy_from_slice(self.range(it));
        }
        bytes
    }

    /// The driver writes to a file.
    pub fn write(&mut self, file: usize, offset: u64, bytes: &[u8]) {
        for (i, byte) in bytes.iter().enumerate() {
            let at = offset + i as u64;
            let shows = |it: &&Shown| it.file == file && it.offset <= at && at < it.offset + it.len;
            match self.regions.iter().find(shows) {
                Some(it) => self.image.set(it.guest + (at - it.offset), *byte),
                None => self.files[file][at as usize] = *byte,
            }
        }
    }

    /// Bytes of guest memory. Where there is none they are 0.
    pub fn bytes(&self, address: u64, len: u64) -> Vec<u8> {
        let (mut at, end, mut bytes) = (address, address + len, Vec::new());
        while at < end {
            let has = |it: &&Shown| it.guest <= at && at - it.guest < it.len;
            let Some(it) = self.regions.iter().find(has) else {
                bytes.push(0);
                at += 1;
                continue;
            };
            let count = (end - at).min(it.guest + it.len - at);
            bytes.extend(&self.range(it)[(at - it.guest) as usize..][..count as usize]);
            at += count;
        }
        bytes
    }

    /// The region that has an address, and the place in it.
    pub fn place(&self, address: u64) -> Option<(u64, u64)> {
        let has = |it: &&(usize, &Shown)| it.1.guest <= address && address - it.1.guest < it.1.len;
        let (number, it) = self.regions.iter().enumerate().find(|it| has(&it))?;
        Some((number as u64, address - it.guest))
    }
}
