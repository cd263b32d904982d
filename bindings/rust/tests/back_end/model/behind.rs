//! Turns of rings behind an IOMMU in the slow back end: what a ring needs is found first, and a chain is popped when
//! all of it was found.

use super::super::queue::{Broken, DeviceQueue, Popped};
use super::super::rings::{Todo, UnderWay};
use super::super::table::{Range, READ, WRITE};
use super::reach::{chain_wants, ring_wants, segments_of, status_want, Behind, Fetch, Goal, Reach, State, Want};
use super::Model;
use crate::disk;
use crate::slow::Image;
use vm_memory_proved::block::DeviceLimits;

// What came of one step of a turn.
enum Step {
    GoesOn,
    Ends(Vec<Todo>),
}

impl Model {
    pub(super) fn behind(&mut self) -> &mut Behind {
        self.behind.as_mut().expect("rings are behind an IOMMU")
    }

    pub(super) fn reach(&mut self, index: usize) -> &mut Reach {
        &mut self.behind().rings[index]
    }

    /// Does something with the queue of a ring, if it has one.
    pub fn on_queue<T>(&mut self, index: usize, run: impl FnOnce(&mut DeviceQueue, &mut Image) -> T) -> Option<T> {
        let queue = self.rings.rings[index].queue.as_mut()?;
        let Some(behind) = &self.behind else {
            return Some(run(queue, self.memory.image()));
        };
        let own = behind.own();
        let mut image = Behind::image(&own, &self.memory);
        let found = run(queue, &mut image);
        Behind::store(&own, &image, &mut self.memory);
        Some(found)
    }

    /// Marks what was stored to a ring: where it lies, and what lies in the used ring also as far after where writes to
    /// that are logged.
    pub fn mark_ring(&mut self, index: usize, places: &[(u64, u64)]) {
        let Some(behind) = &self.behind else {
            return self.mark(places);
        };
        let queue = self.rings.rings[index].queue.as_ref().expect("it stored");
        let (used, log, own) = (queue.used(), self.rings.rings[index].log, behind.own());
        let of = |&(iova, len): &(u64, u64)| {
            let log = log.filter(|log| *log != used.start && used.contains(&iova));
            let other = log.map(|log| (log.wrapping_add(iova - used.start), len));
            let found = [Some((iova, len)), other].into_iter().flatten();
            found.flat_map(|it| Behind::places(&own, it)).collect::<Vec<_>>()
        };
        let places: Vec<_> = places.iter().flat_map(of).collect();
        self.mark(&places);
    }

    /// A ring lies elsewhere, or its log does: it is found anew.
    pub(super) fn lies_elsewhere(&mut self, index: usize) {
        if self.behind.is_some() {
            self.reach(index).is_reached = false;
            self.give_back_next(index);
        }
    }

    // ---- turns

    /// What a turn of a ring has next.
    pub fn pop_behind(&mut self, index: usize) -> Vec<Todo> {
        loop {
            if let Step::Ends(todo) = self.step(index) {
                return todo;
            }
        }
    }

    fn step(&mut self, index: usize) -> Step {
        if self.rings.rings[index].queue.is_none() {
            return self.broken(index);
        }
        if let Some(fetch) = self.reach(index).fetch.take() {
            return self.step_of(index, fetch);
        }
        if !self.reach(index).is_reached {
            let reach = self.reach(index);
            reach.pages.clear();
            reach.rows.clear();
            let ring = &self.rings.rings[index];
            let wants = ring_wants(ring.queue.as_ref().expect("it has one"), ring.log);
            return self.fetch(index, Goal::Ring, wants);
        }
        if !self.read_place(index) {
            return self.broken(index);
        }
        self.pop_once(index)
    }

    fn broken(&mut self, index: usize) -> Step {
        Step::Ends(self.rings.breaks(index))
    }

    // A fetch is as far as it can be.
    fn step_of(&mut self, index: usize, fetch: Fetch) -> Step {
        match (fetch.state, &fetch.goal) {
            (State::Waits(..), _) => {
                self.reach(index).fetch = Some(fetch);
                if self.go_on(index) && self.can_ask() {
                    self.want(index);
                    self.rings.emptied(index);
                    return Step::Ends(Vec::new());
                }
                self.stops(index);
                Step::GoesOn
            }
            (State::Whole, Goal::Ring | Goal::Rows) => {
                let is_ring = matches!(fetch.goal, Goal::Ring);
                let reach = self.reach(index);
                match is_ring {
                    true => (reach.is_reached, reach.pages) = (true, fetch.taken),
                    false => reach.rows.extend(fetch.taken),
                }
                Step::GoesOn
            }
            (State::Stops, Goal::Ring | Goal::Rows) => self.broken(index),
            (State::Stops, Goal::Chain(chain, after)) => {
                let wants = status_want(&chain.segments).into_iter().collect();
                self.fetch(index, Goal::Status(chain.clone(), after.clone()), wants)
            }
            (_, Goal::Chain(chain, after) | Goal::Status(chain, after)) => {
                let is_all = matches!(fetch.goal, Goal::Chain(..));
                let taken = if fetch.state == State::Whole {
                    fetch.taken
                } else {
                    Vec::new()
                };
                self.found(index, chain.clone(), after, taken, is_all)
            }
        }
    }

    // Begins to fetch ranges.
    fn fetch(&mut self, index: usize, goal: Goal, wants: Vec<Want>) -> Step {
        self.reach(index).fetch = Some(Fetch {
            goal,
            wants,
            taken: Vec::new(),
            state: State::Stops,
        });
        self.go_on(index);
        Step::GoesOn
    }

    /// Looks for what a fetch wants. Returns whether it waits.
    pub(super) fn go_on(&mut self, index: usize) -> bool {
        let Behind { table, rings, most, .. } = self.behind.as_mut().expect("it is behind");
        let Reach { fetch, rows, .. } = &mut rings[index];
        let Some(fetch) = fetch else {
            return false;
        };
        let most = match fetch.goal {
            Goal::Rows => most.saturating_sub(rows.len()),
            _ => *most,
        };
        Behind::look_up(table, most, fetch, &mut self.tally);
        matches!(fetch.state, State::Waits(..))
    }

    // Looks for a chain, which is not popped yet.
    fn pop_once(&mut self, index: usize) -> Step {
        let found = self.on_queue(index, |queue, image| {
            let mut after = queue.clone();
            let found = after.pop(image);
            (found, after)
        });
        let Some((found, mut after)) = found else {
            return self.broken(index);
        };
        let found = match found {
            Ok(None) => self.ask_and_pop(index, &mut after),
            found => found,
        };
        match found {
            Err(Broken { missed: Some(missed) }) => self.fetch_row(index, missed),
            Err(_) => self.broken(index),
            Ok(Some(chain)) => {
                self.reach(index).rows.clear();
                self.fetch_chain(index, chain, after)
            }
            Ok(None) => {
                self.rings.emptied(index);
                Step::Ends(Vec::new())
            }
        }
    }

    // Asks the driver to notify, and looks once more: it may have published a chain before it read that.
    fn ask_and_pop(&mut self, index: usize, after: &mut DeviceQueue) -> Result<Option<Popped>, Broken> {
        let asked = self.on_queue(index, |queue, image| {
            let asked = queue.ask(image);
            let found = match &asked {
                Ok((true, _)) => after.pop(image),
                _ => Ok(None),
            };
            (asked, found)
        });
        match asked {
            Some((Ok((_, wrote)), found)) => {
                self.mark_ring(index, &wrote);
                found
            }
            _ => Err(Broken::default()),
        }
    }

    // A row of an indirect table is not there.
    fn fetch_row(&mut self, index: usize, (iova, len): (u64, u64)) -> Step {
        let access = READ;
        self.fetch(index, Goal::Rows, vec![Want { iova, len, access }])
    }

    fn fetch_chain(&mut self, index: usize, chain: Popped, after: DeviceQueue) -> Step {
        let is_refused = chain.segments.len() > self.ids || disk::is_over_limit(&chain.segments, self.limits());
        match is_refused {
            true => {
                let wants = status_want(&chain.segments).into_iter().collect();
                self.fetch(index, Goal::Status(chain, after), wants)
            }
            false => {
                let wants = chain_wants(&chain.segments);
                self.fetch(index, Goal::Chain(chain, after), wants)
            }
        }
    }

    // All of a chain was found that can be: it is popped.
    fn found(&mut self, index: usize, chain: Popped, after: &DeviceQueue, taken: Vec<Range>, is_all: bool) -> Step {
        let ring = &mut self.rings.rings[index];
        if let Some(queue) = &mut ring.queue {
            queue.pops_as(after);
        }
        if usize::from(chain.id) >= self.ids || ring.under_way.contains_key(&chain.id) {
            return self.broken(index);
        }
        let segments = segments_of(&taken);
        let limits = DeviceLimits {
            seg_max: None,
            size_max: None,
            ..self.limits()
        };
        let request = disk::asked(self.memory.image(), &segments, limits);
        let side = |is_written| super::side(&chain.segments, is_written);
        let room: u64 = side(true).iter().map(|it| it.1).sum();
        let lands = taken.iter().filter(|it| it.access == WRITE).map(|it| (it.to, it.len));
        self.popped.push(super::PoppedChain {
            ring: index,
            id: chain.id,
            read: side(false),
            written: side(true),
            lands: lands.collect(),
            is_whole: is_all,
        });
        let mut it = UnderWay::new(chain.slots, segments, request);
        it.kept = taken;
        it.has_more = !is_all && room > 1;
        Step::Ends(self.rings.popped(index, chain.id, it))
    }
}
