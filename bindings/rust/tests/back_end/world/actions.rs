//! The actions of a run: each is told in the words of the model, and done.

use super::super::acts::{add_piece, Act, Ended, Served};
use super::super::memory::Shown;
use super::super::messages;
use super::super::rings::PART;
use super::World;
use std::collections::BTreeSet;
use std::os::fd::AsFd;
use vm_memory_proved::back_end::{Action, Part, Piece, Region, Room};
use vm_memory_proved::vhost_user::Region as Announced;

impl World<'_> {
    /// The actions in the words of the model, and the pages that are marked.
    pub(super) fn acts_of(&mut self, room: &Room) -> (Vec<Act>, BTreeSet<u64>) {
        let (mut acts, mut marks) = (Vec::new(), BTreeSet::new());
        for action in room.actions() {
            acts.push(match action {
                Action::Send { bytes } => Act::Send(bytes.to_vec()),
                Action::UnmapAll => Act::UnmapAll,
                Action::Map(it) => Act::Map(announced(&it), it.number),
                Action::Log { offset, len } => Act::Log { offset, len },
                Action::Keep { what, has_one } => Act::Keep(what, has_one),
                Action::Interrupt(ring) => Act::Interrupt(ring),
                Action::Broke(ring) => Act::Broke(ring),
                Action::End(why) => Act::End(Ended::By(why)),
                Action::Stopped(ring) => Act::Stopped(ring),
                Action::Mark { first, count } => {
                    self.counts.marks += count;
                    marks.extend(first..first + count);
                    continue;
                }
                Action::Serve(part) => Act::Serve(served(&part)),
                Action::Ask { ring, iova, access } => Act::Ask(ring, iova, access as u8),
                Action::File { .. } | Action::Region { .. } => panic!("INFLIGHT_SHMFD is not offered here"),
            });
        }
        (acts, marks)
    }

    /// Does what is asked for, and returns whether an answer was told.
    pub(super) fn perform(&mut self, acts: &[Act]) -> bool {
        let mut is_asked = false;
        for act in acts {
            match act {
                Act::Serve(part) => {
                    self.counts.parts += 1;
                    self.watch.served(part);
                    self.parts.push(part.clone());
                }
                Act::UnmapAll => {
                    assert!(self.parts.is_empty());
                    self.front.forget();
                    self.watch.unmap();
                    self.counts.tables += 1;
                }
                Act::Stopped(ring) => assert!(self.parts.iter().all(|it| it.ring != *ring)),
                Act::Map(region, number) => {
                    is_asked = true;
                    self.map(region, *number);
                }
                Act::Log { .. } | Act::Keep(..) => {
                    is_asked = true;
                    self.answer(act);
                }
                Act::Interrupt(_) => self.counts.interrupts += 1,
                Act::Broke(_) => self.counts.broken += 1,
                Act::End(_) => {
                    self.counts.refused += 1;
                    self.is_over = true;
                }
                Act::Send(_) => (),
                Act::Ask(ring, iova, _) => self.asked(*ring, *iova),
            }
        }
        is_asked
    }

    // What was asked for is done, or could not be.
    fn answer(&mut self, act: &Act) {
        if self.numbers.one_in(500) {
            return self.fail();
        }
        if let Act::Log { len, .. } = act {
            self.log = Some(*len);
        }
        self.back_end.done();
        self.model.done();
    }

    fn fail(&mut self) {
        self.counts.not_done += 1;
        self.back_end.failed();
        self.model.failed();
    }

    fn map(&mut self, region: &Announced, number: u32) {
        if self.numbers.one_in(300) {
            return self.fail();
        }
        let file = ((region.user_address - messages::USER) / 0x100_0000) as usize;
        let asked = Region {
            number,
            offset: region.mmap_offset,
            len: region.size,
            guest_address: region.guest_address,
            user_address: region.user_address,
        };
        self.back_end.map(&asked, self.all.files[file].as_fd()).unwrap();
        let shown = Shown {
            guest: region.guest_address,
            len: region.size,
            file,
            offset: region.mmap_offset,
        };
        self.model.mapped(shown);
        self.watch.map(shown);
    }
}

fn served(part: &Part<'_>) -> Served {
    assert!(!part.goes_on && part.len <= PART);
    let mut pieces = Vec::new();
    for &Piece { region, offset, len } in part.pieces {
        add_piece(&mut pieces, region, offset, len);
    }
    Served {
        ring: part.ring,
        id: part.id,
        way: part.way,
        place: part.place,
        len: part.len,
        pieces,
        left: part.left.into(),
    }
}

fn announced(region: &Region) -> Announced {
    Announced {
        guest_address: region.guest_address,
        size: region.len,
        user_address: region.user_address,
        mmap_offset: region.offset,
    }
}
