//! Parts of requests in an order in which the requests of each ring end as they began. So after a process was killed
//! the used index says which request of a split ring comes next.

use crate::back_end::{Part, PartEnd, Piece};
use std::collections::VecDeque;

// The turns that rings may take in a run. They take none while parts wait, so that a message waits for few requests.
const TURNS: u32 = 2;

// The parts of a request of several parts are served before the next request of its ring.
pub(crate) struct InOrder {
    // Those that were served, and not told to the library.
    ends: Vec<PartEnd>,
    // Of each ring the request that goes on with another part.
    current: Vec<Option<Current>>,
    // Those of later requests, in order.
    waiting: VecDeque<(Part<'static>, Vec<Piece>)>,
}

#[derive(Clone, Copy)]
struct Current {
    id: u32,
    // How many bytes of a part were moved, and whether it failed, if the rest of it has not come.
    begun: Option<(u64, bool)>,
    // How many runs gave nothing of it since one took the end of its last part.
    runs: u32,
}

impl InOrder {
    /// Nothing is served of so many rings.
    pub(crate) fn new(rings: usize) -> InOrder {
        InOrder {
            ends: Vec::new(),
            current: vec![None; rings],
            waiting: VecDeque::new(),
        }
    }

    /// What the next run is told: the ends of parts, and how many turns rings may take.
    pub(crate) fn told(&self) -> (&[PartEnd], u32) {
        (&self.ends, if self.are_waiting() { 0 } else { TURNS })
    }

    /// A run took so many ends.
    pub(crate) fn taken(&mut self, ends: usize) {
        self.ends.drain(..ends);
    }

    /// Whether ends wait for a run.
    pub(crate) fn has_ends(&self) -> bool {
        !self.ends.is_empty()
    }

    /// Whether parts wait for the end of others.
    pub(crate) fn are_waiting(&self) -> bool {
        !self.waiting.is_empty()
    }

    /// Whether the turn of a part has come. It is kept if not.
    #[inline]
    pub(crate) fn take(&mut self, part: &Part<'_>) -> bool {
        let is_next = match self.current[part.ring as usize] {
            Some(it) => it.id == part.id,
            None => self.waiting.iter().all(|(it, _)| it.ring != part.ring),
        };
        if !is_next {
            let kept = (Part { pieces: &[], ..*part }, part.pieces.to_vec());
            self.waiting.push_back(kept);
        }
        is_next
    }

    /// The actions of a run are over. What follows from an end is given by the run that takes it, or if that had no
    /// room, by the next one. If it is not, the next part has no memory, and the library has ended the request.
    pub(crate) fn end_run(&mut self) {
        for (ring, current) in (0..).zip(&mut self.current) {
            let is_taken = || self.ends.iter().all(|end| end.ring != ring);
            let Some(it) = current.as_mut().filter(|it| it.begun.is_none() && is_taken()) else {
                continue;
            };
            it.runs += 1;
            if it.runs > 1 {
                *current = None;
            }
        }
    }

    /// A part that was kept, with its pieces, whose turn has come.
    #[inline]
    pub(crate) fn take_kept(&mut self) -> Option<(Part<'static>, Vec<Piece>)> {
        let is_next = |(it, _): &(Part, _)| self.current[it.ring as usize].is_none_or(|now| now.id == it.id);
        let place = self.waiting.iter().position(is_next)?;
        self.waiting.remove(place)
    }

    /// Whether a request begins with a part whose turn has come.
    #[inline]
    pub(crate) fn begins(&self, part: &Part<'_>) -> bool {
        self.current[part.ring as usize].is_none()
    }

    // How many bytes were moved of what this part goes on with, and whether that failed.
    #[inline]
    fn before(&self, part: &Part<'_>) -> (u64, bool) {
        let current = self.current[part.ring as usize];
        current.and_then(|it| it.begun).unwrap_or_default()
    }

    /// Whether a part is not served, since what it goes on with failed.
    #[inline]
    pub(crate) fn has_failed(&self, part: &Part<'_>) -> bool {
        self.before(part).1
    }

    /// A part was served or not. Returns whether its request failed by that.
    #[inline]
    pub(crate) fn end(&mut self, part: &Part<'_>, is_served: bool) -> bool {
        let (ring, id) = (part.ring, part.id);
        let (before, has_failed) = self.before(part);
        let failed = has_failed || !is_served;
        let bytes = before + if is_served { part.len } else { 0 };
        let begun = part.goes_on.then_some((bytes, failed));
        // A request ends with its last part, or with one that failed.
        let goes_on = part.goes_on || (part.left > 0 && !failed);
        self.current[ring as usize] = goes_on.then_some(Current { id, begun, runs: 0 });
        if !part.goes_on {
            self.ends.push(PartEnd {
                ring,
                id,
                failed: failed.into(),
                bytes: bytes as u32,
            });
        }
        failed && !part.goes_on
    }
}

#[cfg(test)]
mod tests {
    use super::*;
    use crate::back_end::Way;

    fn part(ring: u32, id: u32, len: u64, goes_on: bool, left: u32) -> Part<'static> {
        Part {
            ring,
            id,
            way: Way::Read,
            place: 0,
            len,
            pieces: &[],
            goes_on,
            left,
        }
    }

    fn end(ring: u32, id: u32, failed: u32, bytes: u32) -> PartEnd {
        PartEnd {
            ring,
            id,
            failed,
            bytes,
        }
    }

    // The first pieces of a part, and the others.
    #[test]
    fn pieces_of_a_part_have_one_end() {
        let (first, last) = (part(0, 4, 7, true, 0), part(0, 4, 5, false, 0));
        for (is_first_served, is_last_served, ended) in [
            (true, true, end(0, 4, 0, 12)),
            (true, false, end(0, 4, 1, 7)),
            (false, false, end(0, 4, 1, 0)),
        ] {
            let mut order = InOrder::new(1);
            assert!(order.take(&first) && order.begins(&first) && !order.has_failed(&first));
            assert!(!order.end(&first, is_first_served));
            assert!(!order.has_ends());
            assert!(order.take(&last) && !order.begins(&last));
            assert_eq!(order.has_failed(&last), !is_first_served);
            assert_eq!(order.end(&last, is_last_served), !is_last_served);
            assert_eq!(order.told(), (&[ended][..], TURNS));
            order.taken(1);
            assert!(order.begins(&first));
        }
        // If the first pieces failed, the part did, whatever became of the others.
        let mut order = InOrder::new(1);
        order.end(&first, false);
        assert!(order.end(&last, true));
        assert_eq!(order.told().0[0].failed, 1);
    }

    #[test]
    fn a_request_waits_for_those_of_its_ring() {
        let mut order = InOrder::new(2);
        let (first, later) = (part(0, 1, 9, false, 1), part(0, 2, 3, false, 0));
        assert!(order.take(&first));
        order.end(&first, true);
        // It has another part. The request of the other ring waits for nothing.
        assert!(!order.take(&later) && order.take(&part(1, 2, 3, false, 0)));
        assert!(order.are_waiting() && order.take_kept().is_none());
        assert_eq!(order.told(), (&[end(0, 1, 0, 9)][..], 0));
        order.taken(1);
        let rest = part(0, 1, 8, false, 0);
        assert!(order.take(&rest));
        order.end(&rest, true);
        assert_eq!(order.take_kept().map(|it| it.0), Some(later));
        assert!(!order.are_waiting());
        // A request that failed has no more parts.
        let fails = part(0, 3, 9, false, 1);
        assert!(order.take(&fails) && order.end(&fails, false) && order.begins(&later));
    }

    #[test]
    fn a_part_that_never_comes_is_not_waited_for() {
        let mut order = InOrder::new(1);
        let first = part(0, 1, 9, false, 1);
        order.end(&first, true);
        assert!(!order.take(&part(0, 2, 3, false, 0)));
        // The run that takes the end may have no room for what follows, and the next one has.
        order.end_run();
        order.taken(1);
        order.end_run();
        assert!(order.take_kept().is_none());
        order.end_run();
        assert!(order.take_kept().is_some());
    }
}
