//! Plays crashes: whatever a back end left, the next one serves each request that is out, in order, and no other.

use super::driver::Driver;
use super::machine::{messages, Machine};
use super::watch::Watch;
use super::{Case, Shared};
use crate::ring::Numbers;

/// How often something happened.
#[derive(Clone, Copy, Debug, Default)]
pub struct Counts {
    pub requests: u64,
    pub crashes: [u64; 2],
    pub most_again: usize,
}

pub struct Player {
    // For the first back end, one that follows, and one that follows that.
    shared: [Shared; 3],
    watch: Watch,
    numbers: Numbers,
    pub counts: Counts,
}

// A back end that plays, and its driver.
struct Play {
    machine: Machine,
    driver: Driver,
    // The requests that are to be served, in order.
    wanted: Vec<u64>,
    level: usize,
}

impl Player {
    pub fn new(seed: u64) -> Player {
        Player {
            shared: [(); 3].map(|()| Shared::new()),
            watch: Watch::new(),
            numbers: Numbers(seed),
            counts: Counts::default(),
        }
    }

    /// A back end serves so many requests. Before each of its stores another one takes its place on a copy.
    pub fn play(&mut self, case: &Case, requests: u64) {
        self.shared[0].region.write(0, &[0; super::REGION]);
        let driver = Driver::new(case, &self.shared[0]);
        let base = match case.is_packed {
            true => u32::from(case.base) << 16 | u32::from(case.base),
            false => case.base.into(),
        };
        let mut play = self.start(case, driver, 0, base, true);
        while play.driver.published < requests {
            self.step(case, &mut play, true);
        }
        self.finish(case, &mut play);
        self.counts.requests += requests;
    }

    // Starts a back end, and has it go on without a kick.
    fn start(&mut self, case: &Case, driver: Driver, level: usize, base: u32, is_watched: bool) -> Play {
        let wanted = driver.not_back(&self.shared[level]);
        self.counts.most_again = self.counts.most_again.max(wanted.len());
        let mut play = Play {
            machine: Machine::new(case),
            driver,
            wanted,
            level,
        };
        let mut todo = messages(case, base);
        while let Some((message, descriptors)) = todo.pop_front() {
            play.machine.message(&message, descriptors);
            // The last two start the ring.
            if is_watched && todo.len() == 2 {
                play.machine.show(&self.shared[level]);
            }
            self.run(case, &mut play, is_watched);
        }
        assert!(play.machine.interrupts > 0, "its driver is not interrupted");
        assert_eq!(play.machine.served, play.wanted);
        play
    }

    // Runs until nothing is due.
    fn run(&mut self, case: &Case, play: &mut Play, is_watched: bool) {
        while play.machine.is_due() {
            let shared = &self.shared[play.level];
            let watch = is_watched.then_some(&mut self.watch);
            for image in play.machine.run(shared, watch) {
                self.follow(case, play, &image);
            }
        }
        let (served, wanted) = (&play.machine.served, &play.wanted);
        assert!(
            served.len() <= wanted.len() && *served == wanted[..served.len()],
            "{served:?}, not {wanted:?}"
        );
    }

    // A back end was cut off, and left this. The driver goes on, and another back end follows.
    fn follow(&mut self, case: &Case, before: &Play, image: &[u8]) {
        let level = before.level + 1;
        let mut driver = before.driver.clone();
        self.shared[level].load(image);
        self.counts.crashes[before.level] += 1;
        driver.go_on(&self.shared[level], &mut self.numbers);
        let base = driver.base(case, &self.shared[level], &mut self.numbers);
        // What follows a start is watched like the start now and then.
        let is_watched = level == 1;
        let mut play = self.start(case, driver, level, base, is_watched);
        let is_watched = is_watched && self.numbers.one_in(40);
        for _ in 0..self.numbers.below(4) {
            self.step(case, &mut play, is_watched);
        }
        self.finish(case, &mut play);
    }

    // The driver works, some requests end, in any order, and the back end runs.
    fn step(&mut self, case: &Case, play: &mut Play, is_watched: bool) {
        let before = play.driver.next_sector;
        play.driver.go_on(&self.shared[play.level], &mut self.numbers);
        play.wanted.extend(before..play.driver.next_sector);
        play.machine.kick();
        let under_way = play.machine.under_way.len() as u64;
        let ended = match self.numbers.below(4) {
            0 => 0,
            1 => under_way,
            _ => self.numbers.below(under_way + 1),
        };
        for _ in 0..ended {
            let place = self.numbers.below(play.machine.under_way.len() as u64);
            play.machine.end(place as usize);
        }
        self.run(case, play, is_watched);
    }

    // All that is out comes back, and the region has nothing in flight.
    fn finish(&mut self, case: &Case, play: &mut Play) {
        play.machine.kick();
        self.run(case, play, false);
        while !play.machine.under_way.is_empty() {
            let place = self.numbers.below(play.machine.under_way.len() as u64);
            play.machine.end(place as usize);
            self.run(case, play, false);
        }
        let shared = &self.shared[play.level];
        play.driver.take(shared, usize::MAX);
        assert_eq!(play.machine.served, play.wanted);
        let part = shared.region.read(case.part() * case.ring as usize, case.part());
        play.driver.expect_settled(case, shared, &part);
    }
}
