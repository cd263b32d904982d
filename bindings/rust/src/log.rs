//! The log of dirty pages, which a front end shares with its back ends: it reads and clears bits at any moment.

use crate::back_end::BackEnd;
use crate::lost::Guard;
use crate::mapping::Mapping;
use std::io;
use std::os::fd::BorrowedFd;
use std::sync::atomic::{AtomicU8, Ordering::SeqCst};

pub(crate) struct Log {
    // It goes before its mapping does, since fields are dropped in order.
    guard: Guard,
    bits: Mapping,
}

impl BackEnd {
    /// Maps the log that an action asked for, in place of the one before. [`done`](BackEnd::done) or
    /// [`failed`](BackEnd::failed) is due after it.
    pub fn map_log(&mut self, offset: u64, len: u64, file: BorrowedFd<'_>) -> io::Result<()> {
        self.log = None;
        let bits = Mapping::of_file(usize::try_from(len).map_err(io::Error::other)?, file, offset)?;
        let guard = Guard::new(bits.whole())?;
        self.log = Some(Log { guard, bits });
        Ok(())
    }

    /// Whether the front end shares a log.
    pub fn has_log(&self) -> bool {
        self.log.is_some()
    }

    /// Sets the bits of pages in the log, and returns how many of them were not set. Those past its end are none.
    pub fn mark(&self, first: u64, count: u64) -> u64 {
        self.log.as_ref().map_or(0, |log| log.mark(first, count))
    }
}

impl Log {
    pub(crate) fn is_lost(&self) -> bool {
        self.guard.is_lost()
    }

    fn mark(&self, first: u64, count: u64) -> u64 {
        let (mut bit, mut new) = (first, 0);
        let end = first.saturating_add(count).min(8 * self.bits.len() as u64);
        while bit < end {
            // Those of one byte.
            let (place, from) = (bit / 8, bit % 8);
            let mask = 0xff << from & 0xff >> (8 - (end - 8 * place).min(8));
            // SAFETY: the mapping has this byte as long as `self` is there, and this process reads and writes it by
            // atomic operations alone.
            let byte = unsafe { AtomicU8::from_ptr(self.bits.bytes().as_ptr().add(place as usize)) };
            new += u64::from((mask & !byte.fetch_or(mask, SeqCst)).count_ones());
            bit = 8 * (place + 1);
        }
        new
    }
}
