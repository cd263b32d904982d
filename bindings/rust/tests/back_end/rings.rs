//! Rings, their requests and their turns, in the words of crates/vhost_backend/README.md.

use super::queue::DeviceQueue;
use super::table::Range;
use crate::slow::Segment;
use std::collections::{BTreeMap, VecDeque};
use vm_memory_proved::block::Request;

/// How many chains a turn has, and after how many bytes it has none.
const TURN: (u32, u64) = (64, 1 << 20);

/// How many bytes a part has at most.
pub const PART: u64 = 1 << 20;

#[derive(Clone, Copy, Debug, PartialEq, Eq)]
pub enum Phase {
    Stopped,
    Started,
    Broken,
    Stopping,
}

/// A request that is under way.
#[derive(Clone, Debug)]
pub struct UnderWay {
    pub slots: u16,
    pub segments: Vec<Segment>,
    pub request: Request,
    /// How many parts have not ended.
    pub left: u64,
    pub moved: u64,
    /// Where its I/O addresses lead, and whether it has writable bytes that are not among the segments.
    pub kept: Vec<Range>,
    pub has_more: bool,
}

impl UnderWay {
    pub fn new(slots: u16, segments: Vec<Segment>, request: Request) -> UnderWay {
        UnderWay {
            slots,
            segments,
            left: parts_of(&request),
            request,
            moved: 0,
            kept: Vec::new(),
            has_more: false,
        }
    }
}

/// What is to be done for a ring.
#[derive(Debug)]
pub enum Todo {
    /// The ring has its turn.
    Pop,
    /// The next part of a request is served.
    Serve(u16),
    /// A request is over: how many bytes its parts moved, and whether one failed.
    Return(u16, UnderWay, bool),
    Notify,
    Broke,
    /// The message that stopped the ring is answered.
    Stopped,
}

#[derive(Debug)]
pub struct Ring {
    pub phase: Phase,
    pub enabled: bool,
    pub kicked: bool,
    pub owes: bool,
    /// It was notified since the last run.
    pub is_notified: bool,
    pub under_way: BTreeMap<u16, UnderWay>,
    pub queue: Option<DeviceQueue>,
    /// Where it returns chains was not read, and where writes to its used ring are logged.
    pub is_unread: bool,
    pub log: Option<u64>,
}

impl Ring {
    pub fn may_run(&self) -> bool {
        self.phase == Phase::Started && self.enabled
    }

    fn pops(&self) -> bool {
        self.kicked && self.may_run()
    }

    fn wants(&self) -> bool {
        self.owes || self.pops()
    }

    fn breaks(&mut self) -> Vec<Todo> {
        if self.phase != Phase::Started {
            return Vec::new();
        }
        self.phase = Phase::Broken;
        vec![Todo::Broke]
    }
}

/// How many parts a request has.
pub fn parts_of(request: &Request) -> u64 {
    match *request {
        Request::Read { len, .. } => (len as u64).div_ceil(PART),
        Request::Write { len, flush, .. } => (len as u64).div_ceil(PART) + u64::from(flush),
        Request::Flush | Request::GetId { .. } => 1,
        Request::Refused { .. } | Request::Unserved => 0,
    }
}

/// How many bytes of data it has.
pub fn len_of(request: &Request) -> u64 {
    match *request {
        Request::Read { len, .. } | Request::Write { len, .. } | Request::GetId { len } => len as u64,
        _ => 0,
    }
}

pub struct Rings {
    pub rings: Vec<Ring>,
    line: VecDeque<usize>,
    /// The ring whose turn it is, and how many chains and bytes are left of it.
    turn: Option<(usize, u32, u64)>,
    /// A message holds all rings.
    pub is_held: bool,
}

impl Rings {
    pub fn new(count: usize) -> Rings {
        let ring = |_| Ring {
            phase: Phase::Stopped,
            enabled: false,
            kicked: false,
            owes: false,
            is_notified: false,
            under_way: BTreeMap::new(),
            queue: None,
            is_unread: false,
            log: None,
        };
        Rings {
            rings: (0..count).map(ring).collect(),
            line: VecDeque::new(),
            turn: None,
            is_held: false,
        }
    }

    pub fn is_idle(&self) -> bool {
        self.rings.iter().all(|it| it.under_way.is_empty())
    }

    /// Whether a ring has a turn when it is time for one.
    pub fn has_next(&self) -> bool {
        !self.is_held && !self.line.is_empty()
    }

    pub fn hold(&mut self) {
        self.is_held = true;
        self.turn = None;
    }

    // A ring stands in the line while it wants a turn.
    fn settle(&mut self, index: usize) {
        let stands = self.line.contains(&index);
        match self.rings[index].wants() {
            true if !stands => self.line.push_back(index),
            false if stands => self.line.retain(|it| *it != index),
            _ => (),
        }
    }

    pub fn start(&mut self, index: usize) {
        let ring = &mut self.rings[index];
        if ring.phase == Phase::Stopped {
            ring.phase = Phase::Started;
            ring.kicked = true;
        }
        self.settle(index);
    }

    pub fn enable(&mut self, index: usize, on: bool) {
        self.rings[index].enabled = on;
        self.settle(index);
    }

    /// A message stops a ring, and its turn is over.
    pub fn stop(&mut self, index: usize) -> Vec<Todo> {
        self.turn = self.turn.filter(|it| it.0 != index);
        let ring = &mut self.rings[index];
        let todo = match ring.under_way.is_empty() {
            true => {
                ring.phase = Phase::Stopped;
                let owed = std::mem::take(&mut ring.owes).then_some(Todo::Notify);
                owed.into_iter().chain([Todo::Stopped]).collect()
            }
            false => {
                ring.phase = Phase::Stopping;
                Vec::new()
            }
        };
        self.settle(index);
        todo
    }

    pub fn breaks(&mut self, index: usize) -> Vec<Todo> {
        let todo = self.rings[index].breaks();
        self.settle(index);
        todo
    }

    pub fn kick(&mut self, index: usize) {
        self.rings[index].kicked = true;
        self.settle(index);
    }

    /// The first ring in the line, if there is one, takes its turn: what is to be done for it.
    pub fn take_turn(&mut self) -> (usize, Vec<Todo>) {
        let index = self.line.pop_front().expect("a ring has its turn next");
        let ring = &mut self.rings[index];
        let owed = std::mem::take(&mut ring.owes).then_some(Todo::Notify);
        let pops = ring.pops().then_some(Todo::Pop);
        self.turn = pops.as_ref().map(|_| (index, TURN.0, TURN.1));
        self.settle(index);
        (index, owed.into_iter().chain(pops).collect())
    }

    /// The ring that may pop a chain now.
    pub fn may_pop(&self) -> Option<usize> {
        let (index, chains, bytes) = self.turn?;
        (chains > 0 && bytes > 0 && self.rings[index].may_run()).then_some(index)
    }

    /// A chain was popped in a turn.
    pub fn popped(&mut self, index: usize, id: u16, it: UnderWay) -> Vec<Todo> {
        if let Some((_, chains, bytes)) = &mut self.turn {
            *chains -= 1;
            *bytes = bytes.saturating_sub(len_of(&it.request));
        }
        let ring = &mut self.rings[index];
        let todo = if it.left == 0 {
            ring.owes = true;
            Todo::Return(id, it, false)
        } else {
            ring.under_way.insert(id, it);
            Todo::Serve(id)
        };
        self.settle(index);
        vec![todo]
    }

    /// None was left in a turn.
    pub fn emptied(&mut self, index: usize) {
        self.rings[index].kicked = false;
        self.turn = None;
        self.settle(index);
    }

    /// A part ended: how many bytes it moved, or that it failed.
    pub fn ended(&mut self, index: usize, id: u16, end: Option<u64>) -> Vec<Todo> {
        let Some(ring) = self.rings.get_mut(index) else {
            return Vec::new();
        };
        let Some(it) = ring.under_way.get_mut(&id) else {
            return Vec::new();
        };
        it.left -= 1;
        it.moved = it.moved.saturating_add(end.unwrap_or(0));
        if end.is_some() && it.left > 0 {
            return vec![Todo::Serve(id)];
        }
        let it = ring.under_way.remove(&id).expect("it is under way");
        let mut todo = vec![Todo::Return(id, it, end.is_none())];
        if ring.phase == Phase::Stopping && ring.under_way.is_empty() {
            ring.phase = Phase::Stopped;
            ring.owes = false;
            todo.extend([Todo::Notify, Todo::Stopped]);
        } else {
            ring.owes = true;
        }
        self.settle(index);
        todo
    }
}
