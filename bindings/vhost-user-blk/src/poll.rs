//! How long the program looks for something to do before it sleeps.

use std::time::Duration;

// What it begins with once that is worth it.
const FIRST: Duration = Duration::from_micros(4);

/// A time that grows while events come soon, and is none while they do not.
pub struct Poll {
    most: Duration,
    now: Duration,
}

impl Poll {
    /// It never looks for longer than this.
    pub fn new(most: Duration) -> Poll {
        let now = Duration::ZERO;
        Poll { most, now }
    }

    /// Whether it ever looks.
    pub fn is_on(&self) -> bool {
        !self.most.is_zero()
    }

    /// How long it looks now.
    pub fn time(&self) -> Duration {
        self.now
    }

    /// It looked in vain and slept, and something came this long after it began to look.
    pub fn slept(&mut self, time: Duration) {
        self.now = match time <= self.most {
            true => (2 * self.now).max(FIRST).min(self.most),
            false => Duration::ZERO,
        };
    }
}

#[cfg(test)]
mod tests {
    use super::*;

    #[test]
    fn it_looks_for_as_long_as_that_is_worth_it() {
        let micros = Duration::from_micros;
        let mut poll = Poll::new(micros(30));
        assert_eq!(poll.time(), Duration::ZERO);
        for wanted in [4, 8, 16, 30, 30] {
            poll.slept(micros(25));
            assert_eq!(poll.time(), micros(wanted));
        }
        // What comes later would have been looked for in vain.
        poll.slept(micros(31));
        assert_eq!(poll.time(), Duration::ZERO);
        poll.slept(micros(30));
        assert_eq!(poll.time(), micros(4));
        let mut never = Poll::new(Duration::ZERO);
        never.slept(Duration::ZERO);
        assert!(!never.is_on() && never.time().is_zero());
    }
}
