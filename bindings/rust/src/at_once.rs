//! Parts of many requests that are under way at once, and end in any order.
//!
//! After a process was killed the used index of a split ring alone says which of its requests comes next, if the ring
//! has no region of requests in flight. So the last end of a request of such a ring waits for those of the requests
//! that its ring began before.

use crate::back_end::{Part, PartEnd, Way};
use std::collections::VecDeque;

// The turns that rings may take in a run.
const TURNS: u32 = 2;

// While requests with so many bytes are under way, for all of which a message may wait, rings have a turn only if they
// owe their driver an interrupt.
const MOST_BYTES: u64 = 64 << 20;

// They have none while parts of so many pieces are under way, which take memory.
const MOST_PIECES: u64 = 1 << 17;

// How many bytes a part has at most.
const PART: u64 = 1 << 20;

/// A part of a request, or as many of its pieces as had room, that a [`Device`](crate::connection::Device) serves. It
/// ends once.
#[derive(Debug, PartialEq, Eq)]
pub struct Ticket {
    ring: u32,
    id: u32,
    way: Way,
    len: u64,
    pieces: u32,
}

impl Ticket {
    /// What a connection gives a device with a part. The part has no other.
    pub fn of(part: &Part<'_>) -> Ticket {
        Ticket {
            ring: part.ring,
            id: part.id,
            way: part.way,
            len: part.len,
            pieces: part.pieces.len() as u32,
        }
    }

    /// The ring of its request.
    #[inline]
    pub fn ring(&self) -> u32 {
        self.ring
    }

    /// Its request.
    #[inline]
    pub fn id(&self) -> u32 {
        self.id
    }

    /// What it asks for.
    #[inline]
    pub fn way(&self) -> Way {
        self.way
    }

    /// How many bytes it has.
    #[inline]
    pub fn len(&self) -> u64 {
        self.len
    }

    /// Whether it has no bytes.
    #[inline]
    pub fn is_empty(&self) -> bool {
        self.len == 0
    }
}

// A request that is under way.
#[derive(Clone, Copy, Default)]
struct Request {
    // How many tickets of its part have not ended.
    tickets: u32,
    // The last pieces of its part have come.
    is_whole: bool,
    // What its part moved, and whether it failed.
    bytes: u64,
    has_failed: bool,
    // How many parts come after it.
    left: u32,
    // Its last end, which waits for the requests before it.
    end: Option<PartEnd>,
    // How many runs gave nothing of it since one took the end of its part.
    runs: Option<u32>,
}

// The requests of a ring that are under way.
#[derive(Default)]
struct Ring {
    // By their ids.
    requests: Vec<Option<Request>>,
    // The ids in the order in which they began, if they have to end so.
    order: VecDeque<u32>,
    keeps_order: bool,
}

/// The parts that are under way.
pub(crate) struct AtOnce {
    // Those of which the library was not told.
    ends: Vec<PartEnd>,
    rings: Vec<Ring>,
    // Requests whose next part is due.
    due: Vec<(u32, u32)>,
    // How many bytes of requests were not moved, and how many pieces are under way.
    bytes: u64,
    pieces: u64,
    // So many turns, one of which is that of a ring that owes its driver an interrupt.
    owed: u32,
    is_closed: bool,
}

impl AtOnce {
    /// Nothing is under way of so many rings.
    pub(crate) fn new(rings: usize) -> AtOnce {
        AtOnce {
            ends: Vec::new(),
            rings: (0..rings).map(|_| Ring::default()).collect(),
            due: Vec::new(),
            bytes: 0,
            pieces: 0,
            owed: 0,
            is_closed: false,
        }
    }

    /// A ring is started. Its requests end as they began, or in any order.
    pub(crate) fn start(&mut self, ring: u32, keeps_order: bool) {
        self.rings[ring as usize].keeps_order = keeps_order;
    }

    /// No ring has a turn any more.
    pub(crate) fn close(&mut self) {
        self.is_closed = true;
    }

    /// What the next run is told: the ends of parts, and how many turns rings may take.
    pub(crate) fn told(&self) -> (&[PartEnd], u32) {
        let turns = match self.bytes < MOST_BYTES {
            _ if self.is_closed || self.pieces >= MOST_PIECES => 0,
            true => TURNS,
            false => self.owed.min(TURNS),
        };
        (&self.ends, turns)
    }

    /// A run took so many ends, and rings had their turns or not. What follows from an end is given by this run, or if
    /// that had no room, by the next one.
    pub(crate) fn taken(&mut self, ends: usize, had_turns: bool) {
        self.owed = self.owed.saturating_sub(if had_turns { TURNS } else { 0 });
        for end in self.ends.drain(..ends) {
            if let Some(request) = request_of(&mut self.rings, end.ring, end.id) {
                request.runs = Some(0);
                self.due.push((end.ring, end.id));
            }
        }
    }

    /// Whether ends wait for a run.
    pub(crate) fn has_ends(&self) -> bool {
        !self.ends.is_empty()
    }

    /// The actions of a run are over. A request whose next part did not come has no memory for it, and the library has
    /// ended it.
    pub(crate) fn end_run(&mut self) {
        let mut at = 0;
        while let Some(&(ring, id)) = self.due.get(at) {
            let runs = request_of(&mut self.rings, ring, id).and_then(|it| it.runs.as_mut());
            let Some(runs) = runs else {
                self.due.swap_remove(at);
                continue;
            };
            *runs += 1;
            if *runs > 1 {
                self.due.swap_remove(at);
                self.rings[ring as usize].order.retain(|other| *other != id);
                self.forget(ring, id);
                self.tell(ring);
            } else {
                at += 1;
            }
        }
    }

    /// A part begins. Returns whether its request does.
    #[inline]
    pub(crate) fn begin(&mut self, part: &Part<'_>) -> bool {
        let ring = &mut self.rings[part.ring as usize];
        let place = part.id as usize;
        if ring.requests.len() <= place {
            ring.requests.resize(place + 1, None);
        }
        let is_new = ring.requests[place].is_none();
        if is_new && ring.keeps_order {
            ring.order.push_back(part.id);
        }
        let request = ring.requests[place].get_or_insert_with(Request::default);
        self.bytes = self.bytes + part.len + PART * u64::from(part.left) - PART * u64::from(request.left);
        request.tickets += 1;
        request.is_whole = !part.goes_on;
        request.left = part.left;
        request.runs = None;
        self.pieces += part.pieces.len() as u64;
        is_new
    }

    /// What a ticket stands for ended. Returns whether its request failed by that.
    #[inline]
    pub(crate) fn end(&mut self, ticket: &Ticket, is_served: bool) -> bool {
        let (ring, id) = (ticket.ring, ticket.id);
        self.bytes -= ticket.len;
        self.pieces -= u64::from(ticket.pieces);
        let request = request_of(&mut self.rings, ring, id).expect("a ticket is of a request");
        request.tickets -= 1;
        request.has_failed |= !is_served;
        request.bytes += if is_served { ticket.len } else { 0 };
        if request.tickets > 0 || !request.is_whole {
            return false;
        }
        let failed = request.has_failed;
        let end = PartEnd {
            ring,
            id,
            failed: failed.into(),
            bytes: request.bytes as u32,
        };
        // A request ends with its last part, or with one that failed.
        if request.left > 0 && !failed {
            request.bytes = 0;
            request.is_whole = false;
            self.ends.push(end);
        } else {
            self.end_request(end);
        }
        failed
    }

    fn end_request(&mut self, end: PartEnd) {
        let ring = &mut self.rings[end.ring as usize];
        if ring.keeps_order {
            let request = ring.requests[end.id as usize].as_mut();
            request.expect("it is under way").end = Some(end);
            self.tell(end.ring);
        } else {
            self.forget(end.ring, end.id);
            self.return_by(end);
        }
    }

    fn return_by(&mut self, end: PartEnd) {
        self.ends.push(end);
        // Each ring has its turn, since nothing says which is in which place of the line.
        self.owed = self.rings.len() as u32;
    }

    // The last ends of the requests that a ring began first are told.
    fn tell(&mut self, ring: u32) {
        while let Some(&id) = self.rings[ring as usize].order.front() {
            let Some(end) = request_of(&mut self.rings, ring, id).and_then(|it| it.end) else {
                return;
            };
            self.rings[ring as usize].order.pop_front();
            self.forget(ring, id);
            self.return_by(end);
        }
    }

    fn forget(&mut self, ring: u32, id: u32) {
        if let Some(request) = self.rings[ring as usize].requests[id as usize].take() {
            self.bytes -= PART * u64::from(request.left);
        }
    }
}

#[inline]
fn request_of(rings: &mut [Ring], ring: u32, id: u32) -> Option<&mut Request> {
    rings[ring as usize].requests.get_mut(id as usize)?.as_mut()
}

#[cfg(test)]
mod tests {
    use super::*;

    fn part(ring: u32, id: u32, len: u64, goes_on: bool, left: u32) -> Part<'static> {
        Part {
            ring,
            id,
            way: Way::Read,
            place: 0,
            len,
            pieces: &[],
            goes_on,
            left,
        }
    }

    fn end(ring: u32, id: u32, failed: u32, bytes: u32) -> PartEnd {
        PartEnd {
            ring,
            id,
            failed,
            bytes,
        }
    }

    fn begun(parts: &mut AtOnce, part: &Part<'_>) -> Ticket {
        parts.begin(part);
        Ticket::of(part)
    }

    // The ends that a run is told and takes.
    fn taken(parts: &mut AtOnce) -> Vec<PartEnd> {
        let ends = parts.told().0.to_vec();
        parts.taken(ends.len(), true);
        parts.end_run();
        ends
    }

    fn is_empty(parts: &AtOnce) -> bool {
        let has_none = |ring: &Ring| ring.requests.iter().all(Option::is_none) && ring.order.is_empty();
        (parts.bytes, parts.pieces) == (0, 0) && parts.rings.iter().all(has_none)
    }

    #[test]
    fn a_ring_that_goes_on_by_its_used_index_ends_in_order() {
        for keeps_order in [true, false] {
            let mut parts = AtOnce::new(2);
            parts.start(0, keeps_order);
            let tickets = [1, 2, 3].map(|id| begun(&mut parts, &part(0, id, 512, false, 0)));
            let other = begun(&mut parts, &part(1, 1, 512, false, 0));
            let told = |id| end(0, id, 0, 512);
            parts.end(&tickets[2], true);
            assert_eq!(taken(&mut parts), if keeps_order { vec![] } else { vec![told(3)] });
            // No other ring waits for that.
            parts.end(&other, true);
            assert_eq!(taken(&mut parts), [end(1, 1, 0, 512)]);
            assert!(!parts.end(&tickets[0], true));
            assert_eq!(taken(&mut parts), [told(1)]);
            // What failed is told in its turn.
            assert!(parts.end(&tickets[1], false));
            let last = [end(0, 2, 1, 0), told(3)];
            assert_eq!(taken(&mut parts), last[..if keeps_order { 2 } else { 1 }]);
            assert!(is_empty(&parts));
        }
    }

    // Parts of two requests end alternately, and their last ends come in order.
    #[test]
    fn the_next_part_waits_for_no_other_request() {
        let mut parts = AtOnce::new(1);
        parts.start(0, true);
        let first = begun(&mut parts, &part(0, 1, 512, false, 0));
        assert!(parts.begin(&part(0, 2, PART, false, 1)));
        parts.end(&Ticket::of(&part(0, 2, PART, false, 1)), true);
        assert_eq!(taken(&mut parts), [end(0, 2, 0, PART as u32)]);
        let last = part(0, 2, 7, false, 0);
        assert!(!parts.begin(&last));
        parts.end(&Ticket::of(&last), true);
        assert_eq!(taken(&mut parts), []);
        parts.end(&first, true);
        assert_eq!(taken(&mut parts), [end(0, 1, 0, 512), end(0, 2, 0, 7)]);
        assert!(is_empty(&parts));
    }

    #[test]
    fn pieces_of_a_part_have_one_end() {
        let (first, last) = (part(0, 4, 7, true, 0), part(0, 4, 5, false, 0));
        for (is_first_served, is_last_served, ended) in [
            (true, true, end(0, 4, 0, 12)),
            (true, false, end(0, 4, 1, 7)),
            (false, true, end(0, 4, 1, 5)),
        ] {
            for is_turned in [false, true] {
                let mut parts = AtOnce::new(1);
                assert!(parts.begin(&first) && !parts.begin(&last));
                let mut tickets = [(&first, is_first_served), (&last, is_last_served)];
                if is_turned {
                    tickets.reverse();
                }
                assert!(!parts.end(&Ticket::of(tickets[0].0), tickets[0].1));
                assert!(!parts.has_ends());
                let failed = parts.end(&Ticket::of(tickets[1].0), tickets[1].1);
                assert_eq!(failed, ended.failed == 1);
                assert_eq!(taken(&mut parts), [ended]);
            }
        }
        // The first pieces may end before the others come.
        let mut parts = AtOnce::new(1);
        let ticket = begun(&mut parts, &first);
        parts.end(&ticket, true);
        assert!(!parts.has_ends());
        let ticket = begun(&mut parts, &last);
        parts.end(&ticket, true);
        assert_eq!(taken(&mut parts), [end(0, 4, 0, 12)]);
    }

    #[test]
    fn a_part_that_never_comes_is_not_waited_for() {
        let mut parts = AtOnce::new(1);
        parts.start(0, true);
        let ticket = begun(&mut parts, &part(0, 1, 9, false, 2));
        let later = begun(&mut parts, &part(0, 2, 3, false, 0));
        parts.end(&ticket, true);
        parts.end(&later, true);
        // The run that takes the end may have no room for what follows, and the next one has.
        assert_eq!(taken(&mut parts), [end(0, 1, 0, 9)]);
        assert!(!parts.has_ends());
        assert_eq!(taken(&mut parts), []);
        assert_eq!(taken(&mut parts), [end(0, 2, 0, 3)]);
        assert!(is_empty(&parts));
        // One that comes with the second run goes on.
        let ticket = begun(&mut parts, &part(0, 1, 9, false, 1));
        parts.end(&ticket, true);
        assert_eq!(taken(&mut parts).len(), 1);
        assert!(!parts.begin(&part(0, 1, 9, false, 0)));
        assert!((0..3).all(|_| taken(&mut parts).is_empty()));
        assert!(!is_empty(&parts));
    }

    // Without interrupts a driver would wait for as long as the long request takes.
    #[test]
    fn rings_have_few_turns_while_much_is_under_way() {
        let turns = |parts: &AtOnce| parts.told().1;
        let mut parts = AtOnce::new(3);
        assert_eq!(turns(&parts), TURNS);
        // A request of 64 MiB counts from its first part on.
        let first = begun(&mut parts, &part(0, 0, PART, false, 63));
        assert_eq!(turns(&parts), 0);
        let short = begun(&mut parts, &part(1, 0, 512, false, 0));
        parts.end(&short, true);
        assert_eq!(turns(&parts), TURNS);
        // There was no room for turns in this run. Then each of three rings has one.
        parts.taken(1, false);
        assert_eq!(turns(&parts), TURNS);
        parts.taken(0, true);
        assert_eq!(turns(&parts), 1);
        parts.taken(0, true);
        assert_eq!(turns(&parts), 0);
        parts.end(&first, true);
        assert_eq!(turns(&parts), TURNS);
        parts.close();
        assert_eq!(turns(&parts), 0);
        // So many pieces leave none in any case.
        let mut parts = AtOnce::new(1);
        assert_eq!(turns(&parts), TURNS);
        let pieces = vec![Default::default(); MOST_PIECES as usize];
        let many = part(0, 1, 512, false, 0);
        let ticket = begun(
            &mut parts,
            &Part {
                pieces: &pieces,
                ..many
            },
        );
        parts.owed = 1;
        assert_eq!(turns(&parts), 0);
        parts.end(&ticket, true);
        assert_eq!(turns(&parts), TURNS);
    }
}
