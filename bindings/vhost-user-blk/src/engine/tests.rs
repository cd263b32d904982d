//! An engine over a system that does what a test says.

use super::*;
use std::cell::RefCell;
use std::fs::File;
use std::os::fd::AsFd;

#[derive(Default)]
struct State {
    // What was begun, and what of that was submitted.
    begun: Vec<(usize, Job)>,
    under_way: Vec<(usize, Job)>,
    ended: VecDeque<Done>,
    // What the next tries at once come to, and how many were made.
    now: VecDeque<io::Result<usize>>,
    tries: usize,
    room: usize,
}

// The test has the same state.
struct Fake {
    state: Rc<RefCell<State>>,
    descriptor: File,
}

impl System for Fake {
    fn now(&self, _job: &Job) -> io::Result<usize> {
        let mut state = self.state.borrow_mut();
        state.tries += 1;
        state.now.pop_front().unwrap_or(Err(ErrorKind::WouldBlock.into()))
    }

    fn begin(&mut self, number: usize, job: Job) {
        self.state.borrow_mut().begun.push((number, job));
    }

    fn submit(&mut self) -> io::Result<bool> {
        let mut state = self.state.borrow_mut();
        let begun = mem::take(&mut state.begun);
        state.under_way.extend(begun);
        assert!(state.under_way.iter().filter(|it| it.0 != SYNC).count() <= state.room);
        Ok(true)
    }

    fn take(&mut self) -> Option<Done> {
        self.state.borrow_mut().ended.pop_front()
    }

    fn room(&self) -> usize {
        self.state.borrow().room
    }

    fn descriptor(&self) -> BorrowedFd<'_> {
        self.descriptor.as_fd()
    }
}

struct Trial {
    engine: Engine,
    state: Rc<RefCell<State>>,
    syncs: Rc<Syncs>,
}

// A request by its ring and id, and how it ended.
type End = (u32, Option<i32>);

fn part(ring: u32, id: u32, way: Way, place: u64, len: u64) -> Part<'static> {
    Part {
        ring,
        id,
        way,
        place,
        len,
        pieces: &[],
        goes_on: false,
        left: 0,
    }
}

fn number_of(error: io::Error) -> i32 {
    error.raw_os_error().unwrap_or(-1)
}

impl Trial {
    fn new(depth: usize, room: usize) -> Trial {
        Trial::over(None, depth, room)
    }

    fn over(direct: Option<Direct>, depth: usize, room: usize) -> Trial {
        let state = Rc::new(RefCell::new(State {
            room,
            ..State::default()
        }));
        let descriptor = File::open("/dev/null").unwrap();
        let fake = Fake {
            state: Rc::clone(&state),
            descriptor,
        };
        let syncs = Rc::<Syncs>::default();
        let engine = Engine::new(Box::new(fake), Rc::clone(&syncs), direct, depth);
        Trial { engine, state, syncs }
    }

    // Begins a part of some pieces, whose place on the disk says which it is. Returns whether it ended at once.
    fn begin(&mut self, ring: u32, what: What, place: u64, lens: &[usize]) -> bool {
        let way = if what == What::Read { Way::Read } else { Way::Write };
        let ticket = Ticket::of(&part(ring, place as u32, way, place, lens.iter().sum::<usize>() as u64));
        let job = Job {
            what,
            vectors: system::vectors_of(lens),
            place,
            from: 0,
            is_again: false,
        };
        match self.engine.begin_job(ticket, job) {
            Begun::Ended(_, done) => done.is_ok(),
            Begun::UnderWay => false,
        }
    }

    fn flush(&mut self, ring: u32) {
        self.engine.flush(Ticket::of(&part(ring, 0, Way::Flush, 0, 0)));
    }

    // The places of what is under way in the system: `None` is a sync.
    fn under_way(&mut self) -> Vec<Option<u64>> {
        assert!(self.engine.submit().unwrap());
        let state = self.state.borrow();
        let place = |(number, job): &(usize, Job)| (*number != SYNC).then_some(job.place);
        state.under_way.iter().map(place).collect()
    }

    // What is under way at a place ends so.
    fn end(&mut self, place: Option<u64>, done: io::Result<usize>) {
        let mut state = self.state.borrow_mut();
        let is_it = |it: &(usize, Job)| (it.0 != SYNC).then_some(it.1.place) == place;
        let at = state.under_way.iter().position(is_it).expect("it is under way");
        let (number, job) = state.under_way.remove(at);
        state.ended.push_back((number, job, done));
    }

    fn fail(&mut self, place: Option<u64>, number: i32) {
        self.end(place, Err(io::Error::from_raw_os_error(number)));
    }

    // The rings and errors of what is told to have ended.
    fn told(&mut self) -> Vec<End> {
        let mut all = Vec::new();
        while let Some((ticket, done)) = self.engine.next_end() {
            all.push((ticket.ring(), done.err().map(number_of)));
        }
        all
    }
}

#[test]
fn what_is_to_be_had_is_moved_at_once() {
    let mut trial = Trial::new(8, 8);
    trial.state.borrow_mut().now.push_back(Ok(1024));
    assert!(trial.begin(0, What::Read, 0, &[512, 512]));
    // A part of it is.
    trial.state.borrow_mut().now.push_back(Ok(700));
    assert!(!trial.begin(0, What::Read, 4096, &[512, 512]));
    assert_eq!(trial.under_way(), [Some(4796)]);
    let left: Vec<_> = trial.state.borrow().under_way[0]
        .1
        .vectors
        .from(1)
        .iter()
        .map(|it| it.len)
        .collect();
    assert_eq!((trial.state.borrow().under_way[0].1.from, left), (1, vec![324]));
    trial.end(Some(4796), Ok(324));
    assert_eq!(trial.told(), [(0, None)]);
    assert_eq!(trial.engine.load(), 0);
}

#[test]
fn a_file_system_that_does_not_try_at_once_is_not_asked_again() {
    let mut trial = Trial::new(8, 8);
    let unknown = || Err(io::Error::from_raw_os_error(libc::EOPNOTSUPP));
    trial.state.borrow_mut().now.push_back(unknown());
    for place in [0, 1, 2] {
        assert!(!trial.begin(0, What::Read, place, &[512]));
    }
    assert_eq!(trial.state.borrow().tries, 1);
    // Writes are another matter.
    for place in [3, 4] {
        trial.state.borrow_mut().now.push_back(Ok(512));
        assert!(trial.begin(0, What::Write, place, &[512]));
    }
    assert_eq!(trial.state.borrow().tries, 3);
    assert_eq!(trial.under_way(), [0, 1, 2].map(Some));
    // One that fails otherwise is served by the system, which tells the error, and the next one is tried.
    trial
        .state
        .borrow_mut()
        .now
        .push_back(Err(io::Error::from_raw_os_error(libc::EIO)));
    assert!(!trial.begin(0, What::Write, 5, &[512]) && !trial.begin(0, What::Write, 6, &[512]));
    assert_eq!(trial.state.borrow().tries, 5);
}

#[test]
fn a_short_transfer_goes_on_where_it_ended() {
    for what in [What::Read, What::Write] {
        let mut trial = Trial::new(8, 8);
        trial.begin(0, what, 4096, &[512, 1024, 512]);
        for (count, next) in [(100, 4196), (412, 4608), (1025, 5633), (510, 6143)] {
            let place = trial.under_way()[0];
            trial.end(place, Ok(count));
            assert_eq!(trial.told(), []);
            assert!(trial.engine.goes_on(), "nobody asks for the rest");
            assert_eq!(trial.under_way(), [Some(next)]);
        }
        trial.end(Some(6143), Ok(1));
        assert_eq!(trial.told(), [(0, None)]);
        assert!(trial.under_way().is_empty() && trial.engine.load() == 0);
    }
}

#[test]
fn what_is_interrupted_is_asked_for_again() {
    let mut trial = Trial::new(8, 8);
    trial.begin(0, What::Read, 0, &[512]);
    for number in [libc::EINTR, libc::EAGAIN, libc::EINTR] {
        assert_eq!(trial.under_way(), [Some(0)]);
        trial.fail(Some(0), number);
        assert!(trial.told().is_empty() && trial.engine.goes_on());
        assert_eq!(trial.under_way(), [Some(0)]);
        assert!(trial.state.borrow().under_way[0].1.is_again);
    }
    // The rest is a new one.
    trial.end(Some(0), Ok(12));
    assert_eq!(trial.told(), []);
    assert_eq!(trial.under_way(), [Some(12)]);
    assert!(!trial.state.borrow().under_way[0].1.is_again);
    trial.fail(Some(12), libc::EIO);
    assert_eq!(trial.told(), [(0, Some(libc::EIO))]);
    // The end of a file, or of memory.
    for (place, done, number) in [
        (1, Ok(0), -1),
        (2, Err(io::Error::from_raw_os_error(libc::EFAULT)), libc::EFAULT),
    ] {
        trial.begin(0, What::Read, place, &[512]);
        assert_eq!(trial.under_way(), [Some(place)]);
        trial.end(Some(place), done);
        assert_eq!(trial.told(), [(0, Some(number))]);
    }
    // A sync that is interrupted.
    trial.flush(0);
    assert_eq!(trial.under_way(), [None]);
    trial.fail(None, libc::EINTR);
    assert!(trial.told().is_empty());
    assert_eq!(trial.under_way(), [None]);
    trial.end(None, Ok(0));
    assert_eq!(trial.told(), [(0, None)]);
}

#[test]
fn ends_come_in_any_order() {
    let mut trial = Trial::new(8, 8);
    for ring in 0..4 {
        trial.begin(ring, What::Read, ring.into(), &[512]);
    }
    assert_eq!(trial.under_way(), [0, 1, 2, 3].map(Some));
    for ring in [2, 0, 3, 1] {
        trial.end(Some(ring), Ok(512));
    }
    assert_eq!(trial.told(), [2, 0, 3, 1].map(|ring| (ring, None)));
}

#[test]
fn so_many_of_a_ring_are_under_way() {
    let mut trial = Trial::new(2, 100);
    for place in 0..5 {
        trial.begin(0, What::Read, place, &[512]);
    }
    trial.begin(1, What::Read, 10, &[512]);
    assert_eq!(trial.under_way(), [0, 1, 10].map(Some));
    assert_eq!(trial.engine.load(), 6);
    // Those that wait come in order, also before new ones.
    trial.end(Some(1), Ok(512));
    assert_eq!(trial.told(), [(0, None)]);
    trial.begin(0, What::Read, 20, &[512]);
    assert_eq!(trial.under_way(), [0, 10, 2].map(Some));
    trial.end(Some(0), Ok(512));
    trial.end(Some(2), Ok(512));
    assert_eq!(trial.told().len(), 2);
    assert_eq!(trial.under_way(), [10, 3, 4].map(Some));
}

#[test]
fn rings_share_the_room_of_the_system() {
    let mut trial = Trial::new(100, 3);
    for place in 0..10 {
        trial.begin(0, What::Read, place, &[512]);
    }
    for place in 10..13 {
        trial.begin(1, What::Read, place, &[512]);
    }
    assert_eq!(trial.under_way(), [0, 1, 2].map(Some));
    for place in 0..3 {
        trial.end(Some(place), Ok(512));
    }
    trial.told();
    // By turns.
    assert_eq!(trial.under_way(), [3, 10, 4].map(Some));
    for place in [3, 10, 4] {
        trial.end(Some(place), Ok(512));
    }
    trial.told();
    assert_eq!(trial.under_way(), [11, 5, 12].map(Some));
}

// Two flushes at once, and one that came after their sync began.
#[test]
fn a_flush_ends_with_a_sync_that_began_after_it_came() {
    let mut trial = Trial::new(8, 8);
    trial.flush(0);
    trial.flush(1);
    assert_eq!(trial.under_way(), [None]);
    trial.flush(2);
    assert_eq!(trial.under_way(), [None]);
    trial.end(None, Ok(0));
    assert_eq!(trial.told(), [(0, None), (1, None)]);
    assert_eq!(trial.under_way(), [None]);
    trial.end(None, Ok(0));
    assert_eq!(trial.told(), [(2, None)]);
    assert_eq!(trial.under_way(), []);
    assert_eq!(trial.engine.load(), 0);
}

#[test]
fn no_flush_succeeds_if_a_sync_under_way_with_it_failed() {
    let mut trial = Trial::new(8, 8);
    (0..2).for_each(|ring| trial.flush(ring));
    trial.under_way();
    trial.flush(2);
    trial.under_way();
    trial.fail(None, libc::EIO);
    assert_eq!(trial.told(), [0, 1].map(|ring| (ring, Some(-1))));
    assert!(trial.syncs.has_failed());
    // The system would succeed now: it has dropped the data.
    assert_eq!(trial.under_way(), []);
    assert_eq!(trial.told(), [(2, Some(-1))]);
    trial.flush(3);
    assert_eq!(trial.under_way(), []);
    assert_eq!(trial.told(), [(3, Some(-1))]);
    assert_eq!(trial.engine.load(), 0);
}

#[test]
fn after_a_stop_nothing_begins() {
    let mut trial = Trial::new(1, 8);
    for place in 0..3 {
        trial.begin(0, What::Write, place, &[512]);
    }
    trial.flush(0);
    trial.under_way();
    trial.flush(0);
    trial.engine.stop();
    // A write and a sync are under way. What waited is dropped, and so is what comes.
    assert!(!trial.begin(1, What::Write, 8, &[512]));
    trial.flush(1);
    assert_eq!(trial.engine.load(), 2);
    trial.end(Some(0), Ok(100));
    trial.told();
    assert!(trial.engine.is_busy());
    assert_eq!(trial.under_way(), [None, Some(100)]);
    trial.end(Some(100), Ok(412));
    trial.end(None, Ok(0));
    assert_eq!(trial.told(), [(0, None); 2]);
    assert!(!trial.engine.is_busy());
    trial.engine.restart();
    assert!(!trial.begin(0, What::Write, 9, &[512]));
    assert_eq!(trial.under_way(), [Some(9)]);
}
