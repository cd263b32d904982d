//! What a connection served.

use crate::back_end::Way;
use std::fmt;

/// What was served.
#[derive(Clone, Copy, Debug, Default, PartialEq, Eq)]
pub struct Stats {
    /// Requests that read.
    pub reads: u64,
    /// The bytes that they read.
    pub bytes_read: u64,
    /// Requests that write.
    pub writes: u64,
    /// The bytes that they wrote.
    pub bytes_written: u64,
    /// Requests to make the disk stable.
    pub flushes: u64,
    /// Other requests.
    pub others: u64,
    /// How often the disk was to be made stable, by a flush or after a write: one sync may serve several.
    pub syncs: u64,
    /// Requests that failed.
    pub errors: u64,
    /// Bits that were set in the log, and were not before.
    pub logged: u64,
}

impl Stats {
    // Counts a request that begins.
    #[inline]
    pub(crate) fn begin(&mut self, way: Way) {
        *match way {
            Way::Read => &mut self.reads,
            Way::Write => &mut self.writes,
            Way::Flush => &mut self.flushes,
            Way::Name => &mut self.others,
        } += 1;
    }

    // Counts a part.
    #[inline]
    pub(crate) fn part(&mut self, way: Way, len: u64, is_served: bool) {
        match way {
            Way::Read if is_served => self.bytes_read += len,
            Way::Write if is_served => self.bytes_written += len,
            Way::Flush => self.syncs += 1,
            _ => (),
        }
    }
}

impl fmt::Display for Stats {
    fn fmt(&self, f: &mut fmt::Formatter<'_>) -> fmt::Result {
        let all = self.reads + self.writes + self.flushes + self.others;
        let (reads, bytes_read, writes, bytes_written) = (self.reads, self.bytes_read, self.writes, self.bytes_written);
        write!(
            f,
            "{all} requests: {reads} reads of {bytes_read} bytes, {writes} writes of {bytes_written} bytes, "
        )?;
        let (flushes, others, syncs, errors) = (self.flushes, self.others, self.syncs, self.errors);
        write!(f, "{flushes} flushes, {others} others; {syncs} syncs, {errors} errors")
    }
}
