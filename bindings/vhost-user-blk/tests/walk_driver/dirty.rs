//! The log of dirty pages, and what has to be in it.

use super::request::Marks;
use super::{patience, Numbers, PAGE};
use crate::front_end::{memfd, take, wait, Map};
use std::collections::BTreeSet;
use std::os::fd::{AsRawFd, OwnedFd};
use std::sync::atomic::Ordering::SeqCst;

/// A log that the back end was given.
pub struct Log {
    pub file: OwnedFd,
    pub offset: u64,
    pub size: u64,
    /// What the back end tells new bits by.
    pub call: Option<OwnedFd>,
    // It was there at the last look, so all bits since then were told.
    tells: bool,
    map: Map,
    must: BTreeSet<u64>,
    may: BTreeSet<u64>,
    found: BTreeSet<u64>,
}

impl Log {
    /// One with a bit for each page below an address. The back end may have been given a call before it.
    pub fn new(numbers: &mut Numbers, end: u64, call: Option<OwnedFd>) -> Log {
        let size = end.div_ceil(64 * PAGE) * 8 + numbers.below(3) * 8;
        let offset = PAGE * numbers.below(5);
        let whole = (offset + size + PAGE).div_ceil(PAGE) * PAGE;
        let file = memfd(whole as usize);
        let map = Map::new(&file, 0, whole as usize);
        // What lies before it and after it is not the log's.
        map.write(0, &vec![0xaa; offset as usize]);
        let after = (offset + size) as usize;
        map.write(after, &vec![0xaa; whole as usize - after]);
        Log {
            file,
            offset,
            size,
            tells: call.is_some(),
            call,
            map,
            must: BTreeSet::new(),
            may: BTreeSet::new(),
            found: BTreeSet::new(),
        }
    }

    pub fn add(&mut self, marks: &Marks) {
        self.must.extend(&marks.must);
        self.may.extend(&marks.may);
    }

    /// These may be marked, and need not be.
    pub fn allow(&mut self, marks: &Marks) {
        self.may.extend(marks.must.iter().chain(&marks.may));
    }

    /// Takes the bits, as a front end does at any time.
    pub fn collect(&mut self) {
        for at in (0..self.size / 8).map(|it| it * 8) {
            let word = self.map.word((self.offset + at) as usize);
            if word.load(SeqCst) == 0 {
                continue;
            }
            let bits = word.swap(0, SeqCst);
            let set = (0..64).filter(|bit| bits >> bit & 1 == 1);
            self.found.extend(set.map(|bit| 8 * at + bit));
        }
    }

    /// Compares the bits with what has to be there. `now` may be marked at any time.
    pub fn check(&mut self, now: &BTreeSet<u64>) {
        // A bit is told right after it is set.
        let was_told = self.call.as_ref().is_some_and(|it| take(it) > 0);
        let before = self.found.len();
        self.collect();
        let is_told = || self.call.as_ref().is_some_and(|it| wait(&[it.as_raw_fd()], patience()));
        if self.tells && !was_told && self.found.len() > before {
            assert!(is_told(), "new bits are not told");
        }
        self.tells = self.call.is_some();
        let missing: Vec<_> = self.must.difference(&self.found).collect();
        assert!(missing.is_empty(), "pages are not marked: {missing:x?}");
        let wrong = |page: &&u64| !self.must.contains(page) && !self.may.contains(page) && !now.contains(page);
        let wrong: Vec<_> = self.found.iter().filter(wrong).collect();
        assert!(wrong.is_empty(), "pages are marked that nothing wrote: {wrong:x?}");
        self.must.clear();
        self.may.clear();
        // A request that is under way has its marks for what it wrote before.
        self.found.retain(|page| now.contains(page));
        let mut edge = vec![0; self.offset as usize];
        self.map.read(0, &mut edge);
        let after = (self.offset + self.size) as usize;
        let mut last = vec![0; self.map.len() - after];
        self.map.read(after, &mut last);
        assert!(
            edge.iter().chain(&last).all(|it| *it == 0xaa),
            "bytes beside the log changed"
        );
    }

    /// It is the log no more: nothing is marked from now on.
    pub fn check_at_rest(&mut self) {
        self.collect();
        assert!(self.found.is_empty(), "an old log has new bits: {:x?}", self.found);
    }

    pub fn set_call(&mut self, call: OwnedFd) {
        self.call = Some(call);
    }

    /// Takes the call for the next log. What was told of this one is not looked at any more: whoever drains the call
    /// takes what is told of the next one, too.
    pub fn take_call(&mut self) -> Option<OwnedFd> {
        self.tells = false;
        self.call.take()
    }
}
