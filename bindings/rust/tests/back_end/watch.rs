//! What a guest and its front end see of returned chains while writes are logged. It knows what drivers published,
//! what was asked for, and what lies in guest memory, and nothing of what the model does.
//!
//! A page that a chain's request may change is marked after the last write to it and in a run before the one in which
//! the chain shows up as returned. Other bytes that a run changes are marked by that run, those of a used ring also
//! where its writes are logged.

use super::acts::{add_piece, Served};
use super::driver::{word_at, Driver, Published, PAGE, PARTS};
use super::memory::Shown;
use super::model::PoppedChain;
use super::rings::PART;
use super::space::Space;
use super::table::{Table, WRITE};
use crate::guest::Guest;
use std::collections::{BTreeMap, BTreeSet};
use vm_memory_proved::back_end::Way;

// A chain that was published, and was not seen as returned.
struct Out {
    id: u16,
    slots: u16,
    // What the device may write there, and what it reads.
    written: Vec<(u64, u64)>,
    read: Vec<(u64, u64)>,
    // How many parts of its request were served, and whether it was popped whole.
    parts: u64,
    is_whole: bool,
    // Whether the device read it as it was published.
    is_known: bool,
    // The pages that are marked before it is returned, and the run from which on they have to be.
    pages: BTreeSet<u64>,
    since: u64,
}

#[derive(Default)]
struct Ring {
    file: usize,
    base: u64,
    size: u16,
    is_packed: bool,
    // Where the next return shows up.
    next: u16,
    slot: (u16, bool),
    out: Vec<Out>,
    // What lies there was not written by driver and device alone.
    is_lost: bool,
    // That may be.
    is_unsure: bool,
}

/// What was seen.
#[derive(Clone, Copy, Debug, Default)]
pub struct Seen {
    pub returned: u64,
    pub logged: u64,
    pub pages: u64,
    pub lost: u64,
    pub led: u64,
    /// Bytes of used rings whose writes are logged elsewhere.
    pub elsewhere: u64,
}

impl Seen {
    pub fn add(&mut self, other: &Seen) {
        self.returned += other.returned;
        self.logged += other.logged;
        self.pages += other.pages;
        self.lost += other.lost;
        self.led += other.led;
        self.elsewhere += other.elsewhere;
    }
}

#[derive(Default)]
pub struct Watch {
    rings: [Ring; 2],
    regions: Vec<Shown>,
    // The number of the run, and of each page the runs that marked it.
    run: u64,
    marks: BTreeMap<u64, Vec<u64>>,
    // How many pages had a bit before the run, and what lay in the files.
    bits: Option<u64>,
    before: Vec<Vec<u8>>,
    said: Vec<Table>,
    // Where writes to used rings are logged, if that is elsewhere, and whether that holds by now.
    logs: [Option<u64>; 2],
    has_logs: bool,
    pub seen: Seen,
}

/// What a guest looks at: files, by what its I/O table says.
pub type Eyes<'a> = (&'a [Guest; 2], &'a Space);

fn pages_of(written: &[(u64, u64)]) -> impl Iterator<Item = u64> + '_ {
    let of = |&(address, len): &(u64, u64)| address / PAGE..=address.saturating_add(len - 1) / PAGE;
    written.iter().filter(|it| it.1 > 0).flat_map(of)
}

impl Ring {
    fn word(&self, (guests, space): Eyes<'_>, offset: u64) -> u16 {
        word_at(guests, space, self.file, self.base + offset)
    }

    // The id of the chain that shows up as returned next, if one does.
    fn returned(&self, eyes: Eyes<'_>) -> Option<u16> {
        if self.is_packed {
            let place = 16 * u64::from(self.slot.0);
            let flags = self.word(eyes, place + 14);
            let is_used = (flags & 0x80 != 0) == self.slot.1 && (flags & 0x8000 != 0) == self.slot.1;
            return is_used.then(|| self.word(eyes, place + 12));
        }
        let is_used = self.word(eyes, PARTS[2] + 2) != self.next;
        is_used.then(|| self.word(eyes, PARTS[2] + 4 + 8 * u64::from(self.next % self.size)))
    }

    // Takes a chain that shows up as returned. `None` if there is none.
    fn take(&mut self, eyes: Eyes<'_>) -> Option<Out> {
        if self.is_lost || self.out.is_empty() {
            return None;
        }
        let id = self.returned(eyes)?;
        let place = self.out.iter().position(|it| it.id == id);
        let Some(place) = place else {
            self.is_lost = true;
            return None;
        };
        let out = self.out.remove(place);
        self.next = self.next.wrapping_add(1);
        let at = self.slot.0 + out.slots;
        self.slot = match at < self.size {
            true => (at, self.slot.1),
            false => (at - self.size, !self.slot.1),
        };
        Some(out)
    }
}

// Whether a page may be written through a table.
fn leads_to(said: &Table, page: u64) -> bool {
    let (from, end) = (PAGE * page, PAGE * (page + 1));
    let has = |it: &super::table::Range| it.to < end && from < it.to + it.len;
    said.ranges.iter().any(|it| it.access & WRITE != 0 && has(it))
}

impl Watch {
    /// Whether all chains of a ring were returned, as far as that can be seen.
    pub fn is_served(&self, index: usize) -> bool {
        let it = &self.rings[index];
        it.is_lost || it.is_unsure || it.out.is_empty()
    }

    /// Bytes of rings may be others than their drivers wrote.
    pub fn lose_all(&mut self) {
        self.rings.iter_mut().for_each(|it| it.is_unsure = true);
    }

    /// A driver made its ring anew, from a base on.
    pub fn begin(&mut self, index: usize, driver: &Driver, base: u32) {
        self.rings[index] = Ring {
            file: driver.file,
            base: driver.base,
            size: driver.size,
            is_packed: driver.is_packed,
            next: base as u16,
            slot: (base as u16 & 0x7fff, base >> 15 & 1 == 1),
            ..Ring::default()
        };
    }

    pub fn publish(&mut self, index: usize, it: Published) {
        let ring = &mut self.rings[index];
        ring.is_lost |= !it.is_honest;
        ring.out.push(Out {
            id: it.id,
            slots: it.slots,
            written: it.written,
            read: it.read,
            parts: 0,
            is_whole: false,
            is_known: true,
            pages: BTreeSet::new(),
            since: 0,
        });
    }

    /// A region was mapped.
    pub fn map(&mut self, shown: Shown) {
        self.regions.push(shown);
    }

    /// Nothing is mapped any more: what chains say leads elsewhere from now on.
    pub fn unmap(&mut self) {
        self.regions.clear();
        for it in self.rings.iter_mut().flat_map(|ring| &mut ring.out) {
            it.is_known = false;
        }
    }

    // The chain with an id that was published first.
    fn out(&mut self, index: usize, id: u16) -> Option<&mut Out> {
        self.rings[index].out.iter_mut().find(|it| it.id == id)
    }

    /// The device popped a chain in the last run, and may write there. A driver that writes elsewhere than it meant to
    /// may have changed its own chains.
    pub fn popped(&mut self, chain: &PoppedChain) {
        let run = self.run;
        let Some(it) = self.out(chain.ring, chain.id) else {
            return;
        };
        it.since = run;
        it.is_whole = chain.is_whole;
        it.is_known &= it.written == chain.written && it.read == chain.read;
        if it.is_known {
            it.pages.extend(pages_of(&chain.lands));
        }
    }

    /// A part is served, which may change these pieces. They are where the front end says, before the last message on
    /// that or after it.
    pub fn served(&mut self, part: &Served) {
        let regions = &self.regions;
        let of = |&(region, offset, len): &(u64, u64, u64)| (regions[region as usize].guest + offset, len);
        let places: Vec<_> = part.pieces.iter().map(of).collect();
        let Some(it) = self.out(part.ring as usize, part.id as u16) else {
            return;
        };
        let nth = it.parts;
        it.parts += 1;
        if part.is_written() {
            it.pages.extend(pages_of(&places));
        }
        let is_known = it.is_known && it.is_whole && matches!(part.way, Way::Read | Way::Write | Way::Name);
        let chain = if part.is_written() {
            it.written.clone()
        } else {
            it.read.clone()
        };
        if !is_known || self.said.is_empty() {
            return;
        }
        let skipped = PART * nth + if part.is_written() { 0 } else { 16 };
        let led = self
            .said
            .iter()
            .any(|said| self.led(said, &chain, skipped, part.len) == Some(part.pieces.clone()));
        assert!(
            led,
            "{part:?} of {chain:x?} is not where it was said to lie: {:x?}",
            self.said
        );
        self.seen.led += 1;
    }

    // Where bytes of a chain lead.
    fn led(&self, said: &Table, chain: &[(u64, u64)], skipped: u64, len: u64) -> Option<Vec<(u64, u64, u64)>> {
        let (mut skipped, mut left, mut pieces) = (skipped, len, Vec::new());
        for (iova, count) in chain {
            let start = skipped.min(*count);
            skipped -= start;
            let (mut at, end) = (iova + start, iova + start + left.min(count - start));
            left -= end - at;
            while at < end {
                let range = said.at(at)?.part(at, end)?;
                let has = |it: &&Shown| it.guest <= range.to && range.to - it.guest < it.len;
                let number = self.regions.iter().position(|it| has(&it))?;
                let offset = range.to - self.regions[number].guest;
                let here = range.len.min(self.regions[number].len - offset);
                add_piece(&mut pieces, number as u64, offset, here);
                at += here;
            }
        }
        Some(pieces)
    }

    /// What the front end says now of I/O addresses, and what it said before the message that is under way: nothing, if
    /// there is no IOMMU.
    pub fn hear(&mut self, said: Vec<Table>) {
        self.said = said;
    }

    /// Writes to a used ring are to be logged at an I/O address.
    pub fn log(&mut self, index: usize, log: Option<u64>) {
        self.logs[index] = log;
        self.has_logs = false;
    }

    /// No message is under way.
    pub fn settled(&mut self) {
        self.has_logs = true;
    }

    /// The end of a part goes into the next run: its bytes were written.
    pub fn ended(&mut self, ring: u32, id: u32) {
        let run = self.run + 1;
        if let (0..=1, Ok(id)) = (ring, u16::try_from(id)) {
            if let Some(it) = self.out(ring as usize, id) {
                it.since = run;
            }
        }
    }

    /// A run comes. So many pages have a bit in the log, if writes are logged.
    pub fn before(&mut self, eyes: Eyes<'_>, bits: Option<u64>, len: u64) {
        self.run += 1;
        self.bits = bits;
        self.before.clear();
        if bits.is_some() || !self.said.is_empty() {
            self.before.extend(eyes.0.iter().map(|it| it.read(0, len as usize)));
        }
        for ring in &mut self.rings {
            // The guest itself wrote there.
            ring.is_lost |= !ring.out.is_empty() && ring.returned(eyes).is_some();
        }
    }

    /// The run marked these pages. None of them was marked by the program yet.
    pub fn after(&mut self, eyes: Eyes<'_>, bits: Option<u64>, marks: &BTreeSet<u64>) {
        let bits = self.bits.filter(|before| bits == Some(*before));
        for index in 0..2 {
            while let Some(out) = self.rings[index].take(eyes) {
                self.seen.returned += 1;
                self.seen.lost += u64::from(!out.is_known);
                if let Some(bits) = bits {
                    self.expect_marks(&out, bits);
                }
            }
        }
        self.expect_changes(eyes.0, bits, marks);
        if let Some(bits) = bits.filter(|_| self.has_logs) {
            (0..2).for_each(|index| self.expect_logged(index, eyes, bits, marks));
        }
        for page in marks {
            self.marks.entry(*page).or_default().push(self.run);
        }
    }

    // The pages of a chain that is returned now were marked before.
    fn expect_marks(&mut self, out: &Out, bits: u64) {
        self.seen.logged += 1;
        for page in out.pages.iter().filter(|it| **it < bits) {
            self.seen.pages += 1;
            let runs = self.marks.get(page).map_or(&[][..], |it| it);
            let is_marked = runs.iter().any(|run| out.since <= *run && *run < self.run);
            let (id, since, run) = (out.id, out.since, self.run);
            assert!(
                is_marked,
                "chain {id}, written until run {since}, is returned in run {run}: page {page:#x} was marked in {runs:?}"
            );
        }
    }

    // What was changed by this run was marked by it, and lies where the device may write.
    fn expect_changes(&self, guests: &[Guest; 2], bits: Option<u64>, marks: &BTreeSet<u64>) {
        if self.before.is_empty() {
            return;
        }
        for it in &self.regions {
            let before = &self.before[it.file][it.offset as usize..][..it.len as usize];
            let now = guests[it.file].read(it.offset as usize, it.len as usize);
            let pages = before.chunks(PAGE as usize).zip(now.chunks(PAGE as usize));
            let changed = (it.guest / PAGE..)
                .zip(pages)
                .filter(|(_, (before, now))| before != now);
            for (page, _) in changed {
                let has_bit = bits.is_some_and(|bits| page < bits);
                assert!(
                    !has_bit || marks.contains(&page),
                    "page {page:#x} was changed, and not marked by this run"
                );
                assert!(
                    self.said.is_empty() || self.said.iter().any(|said| leads_to(said, page)),
                    "page {page:#x} was changed, and nothing leads there"
                );
            }
        }
    }

    // What was changed of a used ring was marked where its writes are logged.
    fn expect_logged(&mut self, index: usize, (guests, space): Eyes<'_>, bits: u64, marks: &BTreeSet<u64>) {
        let it = &self.rings[index];
        let is_known = it.size > 0 && !it.is_lost && !it.is_unsure;
        let Some(log) = self.logs[index].filter(|_| is_known) else {
            return;
        };
        let len = if it.is_packed { 4 } else { 6 + 8 * u64::from(it.size) };
        let places = space.places(it.file, it.base + PARTS[2], len).into_iter();
        let all = places.flat_map(|(file, at, count)| (at..at + count).map(move |at| (file, at as usize)));
        for (iova, (file, at)) in (log..).zip(all) {
            if guests[file].read(at, 1)[0] == self.before[file][at] {
                continue;
            }
            self.seen.elsewhere += 1;
            let pages = self.said.iter().filter_map(|said| Some(said.at(iova)?.to / PAGE));
            let pages: Vec<u64> = pages.collect();
            let is_marked = pages.iter().any(|page| *page >= bits || marks.contains(page));
            assert!(
                is_marked,
                "ring {index} is logged at {iova:#x}: none of {pages:x?} was marked"
            );
        }
    }

    /// The front end took what is marked.
    pub fn forget(&mut self) {
        let run = self.run;
        self.marks.retain(|_, runs| {
            runs.retain(|it| *it + 64 > run);
            !runs.is_empty()
        });
    }
}
