//! Random requests of several rings at once.

use super::inflight::SIZE;
use super::*;

/// A front end whose rings are started.
pub fn started(program: &Program, rings: usize) -> FrontEnd {
    let mut front = program.connect();
    front.negotiate(if rings > 1 { USUAL | BLK_MQ } else { USUAL });
    front.set_memory();
    for _ in 0..rings {
        front.start_ring(SIZE, 0);
    }
    front
}

/// A driver that keeps random requests of each ring under way, on sectors that no other one has meanwhile.
pub struct Load {
    pub front: FrontEnd,
    numbers: Numbers,
    /// What the disk has once nothing is under way.
    pub disk: Vec<u8>,
    // By ring and slot: what is under way.
    out: Vec<Vec<Option<Asked>>>,
}

struct Asked {
    kind: u32,
    sector: u64,
    bytes: Vec<u8>,
}

const SLOTS: usize = 20;
const MOST: u64 = 24;

impl Load {
    /// Of so many rings.
    pub fn new(program: &Program, rings: usize, seed: u64) -> Load {
        Load {
            front: started(program, rings),
            numbers: Numbers(seed),
            disk: std::fs::read(&program.image).unwrap(),
            out: (0..rings).map(|_| (0..SLOTS).map(|_| None).collect()).collect(),
        }
    }

    fn is_free(&self, sector: u64, count: u64) -> bool {
        let end = |it: &Asked| it.sector + (it.bytes.len() / 512) as u64;
        let mut all = self.out.iter().flatten().flatten();
        all.all(|it| it.sector >= sector + count || end(it) <= sector)
    }

    // Publishes requests on some of the free slots of a ring.
    fn publish(&mut self, ring: usize) {
        for slot in 0..SLOTS {
            if self.out[ring][slot].is_some() || self.numbers.one_in(4) {
                continue;
            }
            let (kind, count) = (self.numbers.below(2) as u32, 1 + self.numbers.below(MOST));
            let sector = self.numbers.below((self.disk.len() / 512) as u64 - count);
            if !self.is_free(sector, count) {
                continue;
            }
            let (head, len) = (3 * slot as u16, 512 * count as usize);
            let byte = self.numbers.below(256) as u8;
            let bytes: Vec<u8> = (0..len).map(|at| byte.wrapping_add((at / 97) as u8)).collect();
            self.front.put_request(ring, head, kind, sector, len as u32);
            self.front.write(self.front.places(ring, head).0, &bytes);
            self.out[ring][slot] = Some(Asked { kind, sector, bytes });
            self.front.publish(ring, head);
        }
        self.front.kick(ring);
    }

    fn take(&mut self, ring: usize) {
        let (head, len) = self.front.take_used(ring);
        let asked = self.out[ring][head as usize / 3].take().expect("it is under way");
        let (data, status) = self.front.places(ring, head as u16);
        assert_eq!(self.front.read(status, 1), [0]);
        let place = 512 * asked.sector as usize..512 * asked.sector as usize + asked.bytes.len();
        if asked.kind == 0 {
            assert_eq!(len as usize, asked.bytes.len() + 1);
            assert!(
                self.front.read(data, asked.bytes.len()) == self.disk[place],
                "a read of {}",
                asked.sector
            );
        } else {
            assert_eq!(len, 1);
            self.disk[place].copy_from_slice(&asked.bytes);
        }
    }

    /// Publishes and takes, and ends with nothing under way.
    pub fn go(&mut self, turns: usize) {
        for _ in 0..turns {
            let ring = self.numbers.below(self.out.len() as u64) as usize;
            self.publish(ring);
            let count = self.out[ring].iter().flatten().count() as u64;
            (0..self.numbers.below(count + 1)).for_each(|_| self.take(ring));
        }
        for ring in 0..self.out.len() {
            (0..self.out[ring].iter().flatten().count()).for_each(|_| self.take(ring));
        }
    }
}
