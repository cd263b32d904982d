//! A slow back end: what each event leads to, by the rules of crates/vhost_backend/README.md and of those that it
//! stands on. It keeps plain lists, and shares no code with the library.

mod behind;
mod mappings;
mod reach;
mod runs;

use super::acts::{Act, Ended};
use super::memory::{Memory, Shown};
use super::rings::{Phase, Rings, Todo};
use crate::front_end::*;
use crate::slow::Segment;
use mappings::Questions;
pub use mappings::Tally;
use reach::Behind;
use std::collections::{BTreeSet, VecDeque};
use vm_memory_proved::back_end::{Disk, Kept, Over, State};
use vm_memory_proved::vhost_user::{self, Offer, Refusal, Region};

// Whether the queue of a ring was told where it lies.
#[derive(Clone, Copy, Debug, PartialEq, Eq)]
enum Placing {
    Placed,
    Moved,
    Fresh,
}

// What a message waits for.
#[derive(Clone, Copy, Debug, PartialEq, Eq)]
enum Until {
    Now,
    Ring(usize),
    AllRings,
}

// How far the message has come that was taken last.
#[derive(Clone, Debug, PartialEq, Eq)]
enum Taken {
    Nothing,
    Waits(Vec<u8>, usize, Until),
    /// What it asks for is being done. So many regions are mapped.
    Begun(Vec<u8>, vhost_user::Request, usize),
    Over,
}

// What becomes of a message.
#[derive(Clone, Debug)]
enum Outcome {
    Begins,
    Refused(Vec<Refusal>, Vec<u8>),
}

// A chain whose request was ended, and which is to be returned.
#[derive(Clone, Copy, Debug)]
struct Ready {
    id: u16,
    slots: u16,
    len: u32,
}

// What is left of what followed from the last event.
#[derive(Debug)]
enum Work {
    /// The queue of a ring is told where that lies now, maybe for the first time.
    Place(usize, vhost_user::Vring, bool),
    Do(usize, Todo),
    Publish(usize, Ready),
    Message(Outcome),
    /// A ring breaks if it could not be reached.
    Break(usize),
    /// What a message asks for that took effect.
    Begin,
}

/// What a run did.
#[derive(Debug, PartialEq, Eq)]
pub struct Ran {
    pub acts: Vec<Act>,
    pub ends_taken: usize,
    pub has_more: bool,
    pub state: State,
}

/// A chain that was popped.
pub struct PoppedChain {
    pub ring: usize,
    pub id: u16,
    /// What the device reads and may write, and to which guest addresses the latter leads.
    pub read: Vec<(u64, u64)>,
    pub written: Vec<(u64, u64)>,
    pub lands: Vec<(u64, u64)>,
    /// All of it was found.
    pub is_whole: bool,
}

pub struct Model {
    protocol: Slow,
    pub rings: Rings,
    placing: Vec<Placing>,
    pub memory: Memory,
    taken: Taken,
    log: Option<u64>,
    // How many pages have a bit in the log, if writes are marked as the last message that was done has it.
    logged: Option<u64>,
    disk: Disk,
    /// The pages that are marked. If a chain had many segments, pages between them may be, too.
    pub marked: BTreeSet<u64>,
    pub has_many: bool,
    /// The chains that the last run popped.
    pub popped: Vec<PoppedChain>,
    unread: u64,
    acts: Vec<Act>,
    work: VecDeque<Work>,
    // This run marked pages, or is to do so before anything else.
    has_marked: bool,
    // A ring cannot be reached: it breaks after what is to be done for it.
    is_broken: bool,
    // A part of which bytes have no memory.
    lost: Option<(usize, u16)>,
    // What is said after all that: the reply, an interrupt, and why the connection is over.
    reply: Vec<u8>,
    called: Option<u32>,
    why: Option<Ended>,
    ids: usize,
    // Rings are behind an IOMMU, the ranges that a table of it has, and the back end's own channel.
    pub behind: Option<Behind>,
    // The same, while they are not.
    aside: Option<Behind>,
    has_channel: bool,
    questions: Questions,
    pub tally: Tally,
}

fn word(bytes: &[u8], at: usize) -> u32 {
    u32::from_le_bytes(bytes[at..at + 4].try_into().unwrap())
}

fn long(bytes: &[u8], at: usize) -> u64 {
    u64::from_le_bytes(bytes[at..at + 8].try_into().unwrap())
}

impl Model {
    pub fn new(offer: &Offer, config: &[u8], disk: &Disk, files: Vec<Vec<u8>>) -> Model {
        let count = offer.queues as usize;
        Model {
            protocol: Slow::new(offer, config),
            rings: Rings::new(count),
            placing: vec![Placing::Moved; count],
            memory: Memory::new(files),
            taken: Taken::Nothing,
            log: None,
            logged: None,
            disk: *disk,
            marked: BTreeSet::new(),
            has_many: false,
            popped: Vec::new(),
            unread: 0,
            acts: Vec::new(),
            work: VecDeque::new(),
            has_marked: false,
            is_broken: false,
            lost: None,
            reply: Vec::new(),
            called: None,
            why: None,
            ids: offer.max_queue_size as usize,
            behind: None,
            aside: Some(Behind::new(disk.table_limit, count, offer.max_queue_size as usize)),
            has_channel: false,
            questions: Questions::default(),
            tally: Tally::default(),
        }
    }

    pub fn features(&self) -> u64 {
        self.protocol.features
    }

    fn is_free(&self) -> bool {
        self.taken == Taken::Nothing
    }

    /// Whether a message waits for what is under way.
    pub fn is_waiting(&self) -> bool {
        matches!(self.taken, Taken::Waits(..))
    }

    pub fn is_over(&self) -> bool {
        self.taken == Taken::Over
    }

    // Whether nothing is left of what followed from the last event.
    fn is_done(&self) -> bool {
        let is_quiet = self.reply.is_empty() && self.called.is_none() && self.why.is_none();
        let asks = self.is_free() && self.questions.is_due();
        self.work.is_empty() && self.lost.is_none() && is_quiet && !asks
    }

    /// Whether a message can be told.
    pub fn can_take(&self) -> bool {
        self.is_free() && self.is_done()
    }

    pub fn is_at_rest(&self) -> bool {
        self.is_over() && self.rings.is_idle() && self.is_done()
    }

    /// Whether the last run ended before a chain is returned.
    pub fn is_cut(&self) -> bool {
        !self.work.is_empty()
    }

    fn state(&self) -> State {
        match () {
            () if self.is_at_rest() => State::AtRest,
            () if self.is_over() => State::Over,
            () if self.can_take() => State::Free,
            () => State::Busy,
        }
    }

    // ---- messages

    /// Takes a message. It is not taken while one is under way.
    pub fn message(&mut self, message: &[u8], descriptors: usize) -> bool {
        if !self.can_take() {
            return false;
        }
        let broken = self.protocol.broken(message, descriptors);
        if broken.iter().any(|it| is_of_form(message, *it)) {
            let outcome = Outcome::Refused(broken, self.protocol.reply(message, false));
            self.work.push_back(Work::Message(outcome));
            return true;
        }
        let (request, payload) = (word(message, 0), &message[12..]);
        let index = payload.first_chunk().map_or(0, |it| u32::from_le_bytes(*it) as usize);
        let is_there = index < self.rings.rings.len();
        let until = match request {
            SET_MEM_TABLE | SET_FEATURES | SET_LOG_BASE => Until::AllRings,
            SET_VRING_ADDR if is_there && self.rings.rings[index].phase != Phase::Stopped => Until::AllRings,
            GET_VRING_BASE if is_there => Until::Ring(index),
            IOTLB_MSG => self.until_of_table(message),
            _ => Until::Now,
        };
        let todo = match until {
            Until::Now => Vec::new(),
            Until::Ring(index) => self.rings.stop(index),
            Until::AllRings => {
                self.rings.hold();
                Vec::new()
            }
        };
        self.taken = Taken::Waits(message.to_vec(), descriptors, until);
        let index = match until {
            Until::Ring(index) => index,
            _ => 0,
        };
        self.follow(index, todo);
        true
    }

    // What becomes of a message that waits, if what it waits for was returned.
    fn outcome(&mut self) -> Option<Outcome> {
        let Taken::Waits(message, descriptors, until) = self.taken.clone() else {
            return None;
        };
        let is_due = match until {
            Until::Now => true,
            Until::Ring(index) => self.rings.rings[index].phase == Phase::Stopped,
            Until::AllRings => self.rings.is_idle(),
        };
        if !is_due {
            return None;
        }
        let broken = self.protocol.broken(&message, descriptors);
        if !broken.is_empty() {
            self.rings.is_held = false;
            self.taken = Taken::Nothing;
            return Some(Outcome::Refused(broken, self.protocol.reply(&message, false)));
        }
        let request = self.protocol.take(&message, descriptors);
        self.taken = Taken::Begun(message, request, 0);
        Some(Outcome::Begins)
    }

    fn end(&mut self, why: Ended) {
        if self.is_over() {
            return;
        }
        self.taken = Taken::Over;
        self.rings.hold();
        self.why = Some(why);
    }

    // Says what a message led to, one thing after another. Returns whether there was something to say.
    fn say(&mut self) -> bool {
        let reply = std::mem::take(&mut self.reply);
        let act = if !reply.is_empty() {
            self.unread += reply.len() as u64;
            if self.unread > u64::from(self.disk.unread) {
                self.end(Ended::By(Over::Unread));
            }
            Some(Act::Send(reply))
        } else if let Some(ring) = self.called.take() {
            Some(Act::Interrupt(ring))
        } else if let Some(why) = self.why.take() {
            Some(Act::End(why))
        } else {
            let ask = |(ring, iova, access)| Act::Ask(ring as u32, iova, access);
            self.asks().map(ask)
        };
        let is_said = act.is_some();
        self.acts.extend(act);
        is_said
    }

    // A message took effect: what it asks for is done.
    fn begin(&mut self) {
        use vhost_user::Request::*;
        let Taken::Begun(message, request, _) = self.taken.clone() else {
            return;
        };
        let keep = |what, has_one| Act::Keep(what, has_one);
        let act = match request {
            SetMemTable => {
                self.memory.show(Vec::new());
                self.forget_all();
                self.acts.push(Act::UnmapAll);
                return self.map_next();
            }
            SetLogBase { size, offset } => Act::Log { offset, len: size },
            SetLogFd => keep(Kept::LogCall, true),
            SetBackendReqFd => keep(Kept::Channel, true),
            SetVringKick { index, descriptor } => keep(Kept::Kick(index), descriptor),
            SetVringCall { index, descriptor } => keep(Kept::Call(index), descriptor),
            SetVringErr { index, descriptor } => keep(Kept::Err(index), descriptor),
            IotlbMsg => {
                return match self.apply(&message) {
                    true => self.finish(),
                    false => self.failed(),
                }
            }
            _ => return self.finish(),
        };
        self.acts.push(act);
    }

    fn map_next(&mut self) {
        let Taken::Begun(_, _, mapped) = self.taken else { return };
        match self.protocol.regions.get(mapped) {
            Some(region) => self.acts.push(Act::Map(*region, mapped as u32)),
            None => self.finish(),
        }
    }

    /// A region was mapped: it is this part of a file.
    pub fn mapped(&mut self, shown: Shown) {
        let mut regions = self.memory.regions.clone();
        regions.push(shown);
        self.memory.show(regions);
        if let Taken::Begun(_, _, mapped) = &mut self.taken {
            *mapped += 1;
        }
        self.map_next();
    }

    /// What the last act asked for is done.
    pub fn done(&mut self) {
        if let Taken::Begun(_, vhost_user::Request::SetLogBase { size, .. }, _) = self.taken {
            self.log = Some(size);
        }
        if let Taken::Begun(_, vhost_user::Request::SetBackendReqFd, _) = self.taken {
            self.channel_changed(true);
        }
        self.finish();
    }

    /// It failed.
    pub fn failed(&mut self) {
        let Taken::Begun(message, ..) = self.taken.clone() else {
            return;
        };
        self.reply = self.protocol.reply(&message, false);
        self.end(Ended::By(Over::Failed));
    }

    // A message was done: it is answered, and rings run as it has them.
    fn finish(&mut self) {
        let Taken::Begun(message, request, _) = std::mem::replace(&mut self.taken, Taken::Nothing) else {
            panic!("a message is under way");
        };
        self.rings.is_held = false;
        if let vhost_user::Request::GetVringBase { index } = request {
            if let Some(queue) = self.rings.rings[index as usize].queue.take() {
                let base = queue.base();
                self.protocol.stop(index, base).expect("it is stopped");
            }
            self.drop_fetch(index as usize);
        }
        self.reply = self.protocol.reply(&message, true);
        if request == vhost_user::Request::IotlbMsg {
            return;
        }
        self.run_rings();
        if let vhost_user::Request::SetVringCall { index, .. } = request {
            self.called = Some(index);
        }
        let log = self.log.filter(|_| self.protocol.features & LOG_ALL != 0);
        self.logged = log.map(|bytes| bytes.saturating_mul(8));
        let is_behind = self.protocol.features & ACCESS_PLATFORM != 0;
        if is_behind != self.behind.is_some() {
            std::mem::swap(&mut self.behind, &mut self.aside);
        }
        let has_bit = |it: &Region| self.has_bits(it.guest_address, it.size);
        if !self.protocol.regions.iter().all(has_bit) {
            self.end(Ended::By(Over::Log));
        }
    }

    // Each ring runs if the messages so far have it run, and is told again where it lies.
    fn run_rings(&mut self) {
        for index in 0..self.rings.rings.len() {
            let runs = self.protocol.running(index as u32).is_ok();
            let is_stopped = self.rings.rings[index].phase == Phase::Stopped;
            self.rings.enable(index, runs);
            self.placing[index] = match self.placing[index] {
                _ if runs && is_stopped => Placing::Fresh,
                Placing::Fresh => Placing::Fresh,
                _ => Placing::Moved,
            };
            if runs {
                self.rings.start(index);
            }
        }
    }

    // ---- what comes from outside

    pub fn kick(&mut self, ring: u32) {
        if let Some(ring) = self.rings.rings.get_mut(ring as usize) {
            ring.is_notified = true;
        }
    }

    pub fn sent(&mut self, bytes: usize) {
        self.unread = self.unread.saturating_sub(bytes as u64);
    }

    pub fn resize(&mut self, sectors: u64) {
        self.disk.sectors = sectors;
        self.protocol.config[..8].copy_from_slice(&sectors.to_le_bytes());
    }

    pub fn hang_up(&mut self) {
        self.end(Ended::By(Over::HungUp));
    }
}

// What a device reads of a chain, or may write.
fn side(segments: &[Segment], is_written: bool) -> Vec<(u64, u64)> {
    let those = segments.iter().filter(|it| it.is_written == is_written);
    those.map(|it| (it.addr, it.len)).collect()
}

// Whether a message is refused by its form, whatever came before it.
fn is_of_form(message: &[u8], refusal: Refusal) -> bool {
    use Refusal::*;
    match refusal {
        Header | Version | Direction | Request | PayloadSize | Descriptors => true,
        IotlbKind | IotlbEmptyRange | IotlbRange | IotlbPermissions => true,
        Flags => word(message, 0) != SET_VRING_ADDR,
        _ => false,
    }
}
