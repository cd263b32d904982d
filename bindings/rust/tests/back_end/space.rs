//! The I/O addresses of a guest's devices: each part of guest memory that a driver names has one, and the guest's I/O
//! table leads from there to where the bytes lie. Without an IOMMU they lie where they are named.

use super::driver::FILE;
use super::messages::user_address;
use crate::ring::Numbers;

const STEP: u64 = 0x10_0000;

/// Where a few I/O addresses lead: to a place in a file, and what is permitted: 0 to 3.
#[derive(Clone, Copy, Debug, PartialEq, Eq)]
pub struct Frame {
    pub file: usize,
    pub offset: u64,
    pub access: u8,
}

pub struct Space {
    pub is_on: bool,
    base: u64,
    /// How many bytes each frame has.
    pub grain: u64,
    pub frames: Vec<Frame>,
    /// All of them were said, and none was taken back.
    pub is_said: bool,
}

/// Frames that have neighbours in guest memory nowhere: a chain then leads to as many pieces as it has of them.
pub const SMALL: u64 = 0x80;

impl Space {
    /// No IOMMU.
    pub fn plain() -> Space {
        Space {
            is_on: false,
            base: 0,
            grain: FILE,
            frames: frames(FILE),
            is_said: false,
        }
    }

    pub fn new(numbers: &mut Numbers, grain: u64) -> Space {
        let base = match numbers.below(4) {
            0 => 0,
            1 => 0xffff_f000,
            // Up to the last page of all, which has the one address that is never mapped.
            2 => 0_u64.wrapping_sub(STEP + FILE + 0x1000),
            _ => numbers.any() >> 9 & !0xfff,
        };
        let frames = frames(grain);
        Space {
            is_on: true,
            base,
            grain,
            frames,
            is_said: false,
        }
    }

    /// The I/O address of a place that a driver names.
    pub fn iova(&self, file: usize, offset: u64) -> u64 {
        self.base + STEP * file as u64 + offset
    }

    /// The number of the frame of a named place.
    pub fn number(&self, file: usize, offset: u64) -> usize {
        (FILE / self.grain * file as u64 + offset / self.grain) as usize
    }

    /// The number of the frame of an I/O address, and the place in that, if it has one.
    pub fn find(&self, iova: u64) -> Option<(usize, u64)> {
        let at = iova.checked_sub(self.base)?;
        let (file, offset) = (at / STEP, at % STEP);
        (file < 2 && offset < FILE).then(|| (self.number(file as usize, offset), offset % self.grain))
    }

    /// The named place of a frame: where it begins in the file that its driver names.
    pub fn offset(&self, number: usize) -> u64 {
        self.grain * number as u64 % FILE
    }

    /// The I/O address of a frame.
    pub fn start(&self, number: usize) -> u64 {
        let count = (FILE / self.grain) as usize;
        self.iova(number / count, self.offset(number))
    }

    /// Where a named place lies.
    pub fn place(&self, file: usize, offset: u64) -> (usize, u64) {
        let it = self.frames[self.number(file, offset)];
        (it.file, it.offset + offset % self.grain)
    }

    /// The user address that a frame leads to.
    pub fn user(&self, number: usize) -> u64 {
        let it = self.frames[number];
        user_address(it.file, it.offset)
    }

    /// The named places of so many bytes, each in one frame: where they lie, and how many.
    pub fn places(&self, file: usize, offset: u64, len: u64) -> Vec<(usize, u64, u64)> {
        let (mut offset, end, mut found) = (offset, offset + len, Vec::new());
        while offset < end {
            let count = (end - offset).min(self.grain - offset % self.grain);
            let (file, at) = self.place(file, offset);
            found.push((file, at, count));
            offset += count;
        }
        found
    }

    /// How many I/O addresses from the start of a frame on lead to neighbours, with one permission.
    pub fn run(&self, number: usize) -> u64 {
        let count = (FILE / self.grain) as usize;
        let mut next = number;
        while (next + 1) % count != 0 {
            let (one, other) = (self.frames[next], self.frames[next + 1]);
            let is_next = one.file == other.file && one.offset + self.grain == other.offset;
            if !is_next || one.access != other.access {
                break;
            }
            next += 1;
        }
        self.grain * (next + 1 - number) as u64
    }
}

fn frames(grain: u64) -> Vec<Frame> {
    let of = |file: usize| {
        (0..FILE / grain).map(move |it| Frame {
            file,
            offset: grain * it,
            access: 3,
        })
    };
    (0..2).flat_map(of).collect()
}
