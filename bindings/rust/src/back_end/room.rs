//! Room for the actions of a run.

use super::{raw, Action, Kept, Over, Part, Piece, Region, State, Way};
use crate::machine::Permissions;
use crate::vhost_user::Refusal;
use std::collections::TryReserveError;

/// Room for the actions of a run.
pub struct Room {
    pub(crate) actions: Vec<raw::Action>,
    pub(crate) pieces: Vec<Piece>,
    pub(crate) output: Vec<u8>,
    pub(crate) counts: raw::Counts,
}

impl Default for Room {
    fn default() -> Room {
        Room::new()
    }
}

impl Room {
    /// Room for 256 actions, 4,096 pieces and 4,096 bytes.
    pub fn new() -> Room {
        Room::with(256, 4096, 4096)
    }

    /// The same, or an error if an allocation fails.
    pub fn try_new() -> Result<Room, TryReserveError> {
        Room::try_with(256, 4096, 4096)
    }

    /// Room for at least 8 actions, 16 pieces and 280 bytes.
    pub fn with(actions: usize, pieces: usize, bytes: usize) -> Room {
        Room::try_with(actions, pieces, bytes).expect("there is memory")
    }

    fn try_with(actions: usize, pieces: usize, bytes: usize) -> Result<Room, TryReserveError> {
        Ok(Room {
            actions: filled(actions.max(8))?,
            pieces: filled(pieces.max(16))?,
            output: filled(bytes.max(280))?,
            counts: raw::Counts::default(),
        })
    }

    /// What the last run asks for, in order.
    pub fn actions(&self) -> Actions<'_> {
        Actions {
            actions: &self.actions[..self.counts.actions],
            pieces: &self.pieces[..self.counts.pieces],
            bytes: &self.output[..self.counts.bytes],
        }
    }

    /// How many of the ends were taken. The others go into the next run.
    pub fn ends_taken(&self) -> usize {
        self.counts.ends
    }

    /// Whether the next run is due as soon as these actions are done.
    pub fn has_more(&self) -> bool {
        self.counts.more != 0
    }

    // Whether the last run may have ended before rings had their turns: something had no room, or was to be done first.
    pub(crate) fn may_be_full(&self) -> bool {
        let counts = &self.counts;
        let has_marks = || self.actions[..counts.actions].iter().any(|it| it.kind == raw::MARK);
        counts.actions == self.actions.len() || counts.pieces == self.pieces.len() || counts.bytes > 0 || has_marks()
    }

    /// What the last run left.
    pub fn state(&self) -> State {
        match self.counts.state {
            0 => State::Free,
            1 => State::Busy,
            2 => State::Over,
            _ => State::AtRest,
        }
    }
}

fn filled<T: Clone + Default>(count: usize) -> Result<Vec<T>, TryReserveError> {
    let mut all = Vec::new();
    all.try_reserve_exact(count)?;
    all.resize(count, T::default());
    Ok(all)
}

/// The actions of a run, one after another.
#[derive(Clone, Debug)]
pub struct Actions<'a> {
    actions: &'a [raw::Action],
    pieces: &'a [Piece],
    bytes: &'a [u8],
}

impl<'a> Iterator for Actions<'a> {
    type Item = Action<'a>;

    #[inline]
    fn next(&mut self) -> Option<Action<'a>> {
        let (raw, rest) = self.actions.split_first()?;
        self.actions = rest;
        Some(self.action_of(raw))
    }
}

impl<'a> Actions<'a> {
    #[inline]
    fn action_of(&mut self, raw: &raw::Action) -> Action<'a> {
        match raw.kind {
            1 => {
                let (bytes, rest) = self.bytes.split_at(raw.len as usize);
                self.bytes = rest;
                Action::Send { bytes }
            }
            raw::UNMAP_ALL => Action::UnmapAll,
            3 => Action::Map(region_of(raw)),
            4 => Action::Log {
                offset: raw.place,
                len: raw.len,
            },
            5 => Action::Keep {
                what: kept_of(raw),
                has_one: raw.count == 1,
            },
            6 => Action::Serve(self.part_of(raw)),
            7 => Action::Interrupt(raw.ring),
            8 => Action::Broke(raw.ring),
            raw::MARK => Action::Mark {
                first: raw.place,
                count: raw.len,
            },
            10 => Action::End(over_of(raw)),
            11 => Action::Stopped(raw.ring),
            12 => ask_of(raw),
            13 => Action::File { len: raw.len },
            14 => Action::Region {
                offset: raw.place,
                len: raw.len,
            },
            kind => unreachable!("the library has no action of the kind {kind}"),
        }
    }

    fn part_of(&mut self, raw: &raw::Action) -> Part<'a> {
        let (pieces, rest) = self.pieces.split_at(raw.count as usize);
        self.pieces = rest;
        Part {
            ring: raw.ring,
            id: raw.id,
            way: match raw.way {
                1 => Way::Read,
                2 => Way::Write,
                3 => Way::Flush,
                _ => Way::Name,
            },
            place: raw.place,
            len: raw.len,
            pieces,
            goes_on: raw.more == 1,
            left: raw.left,
        }
    }
}

fn region_of(raw: &raw::Action) -> Region {
    Region {
        number: raw.id,
        offset: raw.place,
        len: raw.len,
        guest_address: raw.guest,
        user_address: raw.user,
    }
}

fn ask_of<'a>(raw: &raw::Action) -> Action<'a> {
    Action::Ask {
        ring: raw.ring,
        iova: raw.place,
        access: access_of(raw.way),
    }
}

fn kept_of(raw: &raw::Action) -> Kept {
    match raw.way {
        1 => Kept::Kick(raw.ring),
        2 => Kept::Call(raw.ring),
        3 => Kept::Err(raw.ring),
        4 => Kept::Channel,
        _ => Kept::LogCall,
    }
}

fn access_of(way: u32) -> Permissions {
    match way {
        1 => Permissions::Read,
        2 => Permissions::Write,
        _ => Permissions::ReadWrite,
    }
}

fn over_of(raw: &raw::Action) -> Over {
    match raw.way {
        1 => Over::Refused(Refusal::of(raw.id)),
        2 => Over::Failed,
        3 => Over::Memory,
        4 => Over::Unread,
        5 => Over::Log,
        _ => Over::HungUp,
    }
}
