//! How long things took: the least time, and those below which a part of them lies.

use std::fmt;
use std::time::Duration;

// Of each power of two so many times are told apart.
const PARTS: u64 = 16;
const ALL: usize = 64 * PARTS as usize;

/// Times, of which nothing is kept but how many lay in each range.
pub struct Times {
    counts: Box<[u64; ALL]>,
    count: u64,
    least: u64,
}

impl Default for Times {
    fn default() -> Times {
        Times {
            counts: Box::new([0; ALL]),
            count: 0,
            least: u64::MAX,
        }
    }
}

// The number of the range of a time in nanoseconds.
fn range_of(time: u64) -> usize {
    let time = time.max(1);
    let power = u64::from(time.ilog2());
    // The bits after the first one.
    let part = ((u128::from(time) * u128::from(PARTS)) >> power) as u64 - PARTS;
    (power * PARTS + part) as usize
}

// The first time after a range.
fn end_of(range: usize) -> u64 {
    let (power, part) = (range as u64 / PARTS, range as u64 % PARTS);
    let end = u128::from(PARTS + part + 1) << power;
    u64::try_from(end.div_ceil(u128::from(PARTS))).unwrap_or(u64::MAX)
}

impl Times {
    /// Something took this long.
    #[inline]
    pub fn add(&mut self, time: Duration) {
        let time = u64::try_from(time.as_nanos()).unwrap_or(u64::MAX);
        self.counts[range_of(time)] += 1;
        self.count += 1;
        self.least = self.least.min(time);
    }

    /// How many there are.
    pub fn count(&self) -> u64 {
        self.count
    }

    // A time that is not below so many of a hundred, and at most a sixteenth above one of them.
    fn at(&self, percent: u64) -> u64 {
        let wanted = (self.count * percent).div_ceil(100).max(1);
        let mut below = 0;
        let range = self.counts.iter().position(|count| {
            below += count;
            below >= wanted
        });
        range.map_or(0, end_of)
    }
}

// In the unit in which it has one to three digits before the point.
struct Time(u64);

impl fmt::Display for Time {
    fn fmt(&self, f: &mut fmt::Formatter<'_>) -> fmt::Result {
        let time = self.0 as f64;
        match self.0 {
            0..1_000 => write!(f, "{time} ns"),
            1_000..1_000_000 => write!(f, "{:.1} us", time / 1e3),
            1_000_000..1_000_000_000 => write!(f, "{:.1} ms", time / 1e6),
            _ => write!(f, "{:.1} s", time / 1e9),
        }
    }
}

impl fmt::Display for Times {
    fn fmt(&self, f: &mut fmt::Formatter<'_>) -> fmt::Result {
        let (least, middle, most) = (Time(self.least), Time(self.at(50)), Time(self.at(99)));
        write!(f, "least {least}, middle {middle}, 99 of 100 within {most}")
    }
}

#[cfg(test)]
mod tests {
    use super::*;

    #[test]
    fn ranges_follow_one_another() {
        assert_eq!(range_of(0), range_of(1));
        for time in (1..5000).chain([1 << 40, (1 << 40) + 1, u64::MAX - 1, u64::MAX]) {
            let range = range_of(time);
            assert!(end_of(range) > time || time == u64::MAX, "{time}");
            assert!(end_of(range) - 1 <= time.saturating_add(time / PARTS), "{time}");
            assert!(range == 0 || range_of(time - 1) <= range, "{time}");
        }
    }

    #[test]
    fn times_are_told_by_their_order() {
        let mut times = Times::default();
        // 1 to 100 microseconds.
        for time in 1..=100 {
            times.add(Duration::from_micros(time));
        }
        assert_eq!((times.count(), times.least), (100, 1000));
        for (percent, wanted) in [(50, 50_000), (99, 99_000), (100, 100_000)] {
            let time = times.at(percent);
            assert!(
                time > wanted && time <= wanted + wanted / PARTS + 1,
                "{percent}: {time}"
            );
        }
        // One of a hundred is not seen.
        let mut times = Times::default();
        (0..99).for_each(|_| times.add(Duration::from_nanos(500)));
        times.add(Duration::from_secs(3));
        assert_eq!(times.at(99), end_of(range_of(500)));
        times.add(Duration::from_secs(3));
        assert!(times.at(99) >= 3_000_000_000);
    }

    #[test]
    fn times_have_units() {
        for (time, wanted) in [
            (999, "999 ns"),
            (1_000, "1.0 us"),
            (12_340, "12.3 us"),
            (999_900, "999.9 us"),
            (1_500_000, "1.5 ms"),
            (2_500_000_000, "2.5 s"),
        ] {
            assert_eq!(Time(time).to_string(), wanted);
        }
    }
}
