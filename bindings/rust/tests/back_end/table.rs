//! I/O addresses and where they lead, as plain lists of ranges, by the rules of crates/vm_memory_base/README.md.

/// What a mapping permits, or an access needs.
pub const READ: u8 = 1;
pub const WRITE: u8 = 2;

const PAGE: u64 = 0x1000;

/// Neighbouring I/O addresses, which lead to neighbours in guest memory.
#[derive(Clone, Copy, Debug, PartialEq, Eq)]
pub struct Range {
    pub iova: u64,
    pub len: u64,
    /// Where the first leads.
    pub to: u64,
    pub access: u8,
}

impl Range {
    /// The address after the last one. The last address of all is in no range.
    pub fn end(&self) -> u64 {
        self.iova + self.len
    }

    fn has(&self, iova: u64) -> bool {
        self.iova <= iova && iova < self.end()
    }

    fn target(&self, iova: u64) -> u64 {
        self.to.wrapping_add(iova - self.iova)
    }

    /// What it has of the addresses from one up to another, if it has any.
    pub fn part(&self, from: u64, end: u64) -> Option<Range> {
        let (from, end) = (from.max(self.iova), end.min(self.end()));
        (from < end).then(|| Range {
            iova: from,
            len: end - from,
            to: self.target(from),
            access: self.access,
        })
    }

    fn is_followed_by(&self, next: &Range) -> bool {
        let leads_on = self.end() == next.iova && self.to.wrapping_add(self.len) == next.to;
        leads_on && self.access == next.access
    }
}

/// What a message changes.
#[derive(Clone, Copy, Debug, PartialEq, Eq)]
pub enum Change {
    Map(Range),
    /// From one address up to another.
    Unmap(u64, u64),
}

impl Change {
    /// Whether a range leads elsewhere after it, or nowhere.
    pub fn moves(&self, it: &Range) -> bool {
        match self {
            Change::Map(new) => new.part(it.iova, it.end()).is_some_and(|new| {
                let is_same = new.to == it.target(new.iova) && new.access & it.access == it.access;
                !is_same
            }),
            Change::Unmap(from, end) => it.part(*from, *end).is_some(),
        }
    }
}

/// How far a look-up goes.
#[derive(Clone, Copy, Debug, PartialEq, Eq)]
pub enum Lead {
    /// So many bytes lead on from this address.
    To(u64, u64),
    Missed,
    Forbidden,
}

/// Ranges, ascending, each as long as it can be. There are only so many if there is a limit.
#[derive(Clone, Debug, Default)]
pub struct Table {
    pub limit: Option<usize>,
    pub ranges: Vec<Range>,
}

impl Table {
    pub fn with_limit(limit: u32) -> Table {
        Table {
            limit: Some(limit as usize),
            ranges: Vec::new(),
        }
    }

    fn place(&self, iova: u64) -> usize {
        self.ranges.partition_point(|it| it.end() <= iova)
    }

    /// The range of an address, from there on.
    pub fn at(&self, iova: u64) -> Option<Range> {
        let it = self.ranges.get(self.place(iova))?;
        it.part(iova, it.end()).filter(|it| it.iova == iova)
    }

    // Takes addresses out, and returns where a range of these goes.
    fn cut(&mut self, from: u64, end: u64) -> usize {
        let (first, last) = (self.place(from), self.ranges.partition_point(|it| it.iova < end));
        let of = |it: &Range| [it.part(it.iova, from), it.part(end, it.end())];
        let left: Vec<Range> = self.ranges[first..last].iter().flat_map(of).flatten().collect();
        let before = left.iter().filter(|it| it.iova < from).count();
        self.ranges.splice(first..last, left);
        first + before
    }

    fn join(&mut self, at: usize) {
        if at > 0 && at < self.ranges.len() && self.ranges[at - 1].is_followed_by(&self.ranges[at]) {
            let next = self.ranges.remove(at);
            self.ranges[at - 1].len += next.len;
        }
    }

    // Past the limit the first ranges go, but not the one with this address.
    fn evict(&mut self, but: Option<u64>) -> u64 {
        let most = self.limit.unwrap_or(usize::MAX);
        let mut count = 0;
        while self.ranges.len() > most {
            let is_kept = |it: &Range| but.is_some_and(|but| it.has(but));
            let Some(at) = self.ranges.iter().position(|it| !is_kept(it)) else {
                break;
            };
            self.ranges.remove(at);
            count += 1;
        }
        count
    }

    /// Makes a change, and returns how many ranges it evicts.
    pub fn change(&mut self, change: &Change) -> u64 {
        match change {
            Change::Map(it) if it.len > 0 => {
                let at = self.cut(it.iova, it.end());
                self.ranges.insert(at, *it);
                self.join(at + 1);
                self.join(at);
                self.evict(Some(it.iova))
            }
            Change::Unmap(from, end) if from < end => {
                self.cut(*from, *end);
                self.evict(None)
            }
            _ => 0,
        }
    }

    /// Where the first of these addresses lead for an access: all if one range has them, otherwise as many as one has
    /// of the page, of a half of that, and so on, but at least the first.
    pub fn lead(&self, iova: u64, len: u64, access: u8) -> Lead {
        let Some(it) = self.at(iova) else {
            return Lead::Missed;
        };
        if it.access & access != access {
            return Lead::Forbidden;
        }
        let mut count = len;
        if it.len < len {
            count = len.min(PAGE - iova % PAGE);
            while count > 1 && it.len < count {
                count /= 2;
            }
        }
        Lead::To(it.to, count)
    }
}
