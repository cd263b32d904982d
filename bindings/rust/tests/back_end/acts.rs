//! What a back end does, in words that can be compared.

use vm_memory_proved::back_end::{Kept, Over, Way};
use vm_memory_proved::vhost_user::{Refusal, Region};

/// What is to be done, in words that can be compared. Marks are not among them.
#[derive(Clone, Debug, PartialEq, Eq)]
pub enum Act {
    Send(Vec<u8>),
    UnmapAll,
    Map(Region, u32),
    Log {
        offset: u64,
        len: u64,
    },
    Keep(Kept, bool),
    Serve(Served),
    Interrupt(u32),
    Broke(u32),
    End(Ended),
    Stopped(u32),
    /// A ring asks for a mapping of an I/O address, for an access.
    Ask(u32, u64, u8),
}

/// Why a connection is over. A message may break more than one rule.
#[derive(Clone, Debug)]
pub enum Ended {
    Refused(Vec<Refusal>),
    By(Over),
}

impl PartialEq for Ended {
    fn eq(&self, other: &Ended) -> bool {
        match (self, other) {
            (Ended::Refused(all), Ended::By(Over::Refused(one)))
            | (Ended::By(Over::Refused(one)), Ended::Refused(all)) => all.contains(one),
            (Ended::By(one), Ended::By(other)) => one == other,
            _ => false,
        }
    }
}

impl Eq for Ended {}

/// A part of a request that is served.
#[derive(Clone, Debug, PartialEq, Eq)]
pub struct Served {
    pub ring: u32,
    pub id: u32,
    pub way: Way,
    pub place: u64,
    pub len: u64,
    /// Which bytes of which regions: neighbours are one piece.
    pub pieces: Vec<(u64, u64, u64)>,
    /// How many parts of the request come after it.
    pub left: u64,
}

impl Served {
    /// Whether the pieces are written.
    pub fn is_written(&self) -> bool {
        matches!(self.way, Way::Read | Way::Name)
    }
}

/// Adds a piece, or makes the one before it longer.
pub fn add_piece(pieces: &mut Vec<(u64, u64, u64)>, region: u64, offset: u64, len: u64) {
    match pieces.last_mut() {
        Some((other, from, count)) if *other == region && *from + *count == offset => *count += len,
        _ => pieces.push((region, offset, len)),
    }
}
