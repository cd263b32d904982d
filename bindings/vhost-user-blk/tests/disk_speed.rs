//! The driver of tools/disk_speed.py: it keeps so many requests under way, and looks for what came back without a rest.

mod front_end;

use front_end::*;
use std::env;
use std::hint::spin_loop;
use std::os::unix::net::UnixStream;
use std::sync::atomic::{fence, Ordering::SeqCst};
use std::time::{Duration, Instant};

// Where the data of the requests lie, and their headers and statuses.
const DATA: usize = 8 << 20;
const MOST: usize = 64 << 10;
const HEADS: usize = 13 << 20;

const WRITTEN: u16 = 2;
const NEXT: u16 = 1;

// What the program is asked for, by words as `depth=64`.
struct Asked {
    socket: String,
    sectors: u64,
    depth: u16,
    len: usize,
    // So many of a hundred requests are reads.
    reads: u64,
    time: Duration,
}

impl Asked {
    fn of(text: &str) -> Asked {
        let word = |name: &str| {
            let mut words = text.split(' ').filter_map(|it| it.split_once('='));
            words
                .find(|it| it.0 == name)
                .unwrap_or_else(|| panic!("{name} is missing"))
                .1
        };
        let number = |name: &str| word(name).parse::<u64>().unwrap();
        Asked {
            socket: word("socket").to_owned(),
            sectors: number("sectors"),
            depth: number("depth") as u16,
            len: number("len") as usize,
            reads: number("reads"),
            time: Duration::from_millis(number("millis")),
        }
    }
}

struct Driver {
    front: FrontEnd,
    asked: Asked,
    numbers: Numbers,
}

impl Driver {
    fn start(asked: Asked) -> Driver {
        assert!(asked.depth <= 64 && asked.len <= MOST && asked.len % 512 == 0);
        let mut front = FrontEnd::new(UnixStream::connect(&asked.socket).unwrap());
        let features = front.ask_u64(GET_FEATURES) & USUAL;
        let protocol = front.ask_u64(GET_PROTOCOL_FEATURES) & REPLY_ACK;
        front.send(SET_PROTOCOL_FEATURES, 0, &protocol.to_le_bytes(), &[]);
        front.send(SET_OWNER, 0, &[], &[]);
        front.send(SET_FEATURES, 0, &features.to_le_bytes(), &[]);
        front.set_memory();
        front.start_ring(256, 0);
        // It is not interrupted.
        front.word(front.parts(0).1).store(1, SeqCst);
        Driver {
            front,
            asked,
            numbers: Numbers(1),
        }
    }

    // Puts a request of a place into its three descriptors, and publishes it.
    fn put(&mut self, place: u16) {
        let (head, at) = (3 * place, HEADS + 0x1000 * usize::from(place));
        let is_read = self.numbers.below(100) < self.asked.reads;
        let count = (self.asked.len / 512) as u64;
        let sector = self.numbers.below(self.asked.sectors / count) * count;
        let kind = u32::from(!is_read);
        self.front
            .write(at, &[&kind.to_le_bytes()[..], &[0; 4], &sector.to_le_bytes()].concat());
        let data = DATA + MOST * usize::from(place);
        let parts = [
            (at, 16, NEXT, head + 1),
            (data, self.asked.len, NEXT | if is_read { WRITTEN } else { 0 }, head + 2),
            (at + 0x800, 1, WRITTEN, 0),
        ];
        let rows = parts.map(|(at, len, flags, next)| {
            let numbers = [
                (at as u64).to_le_bytes(),
                ((len as u64) | u64::from(flags) << 32 | u64::from(next) << 48).to_le_bytes(),
            ];
            numbers.concat()
        });
        self.front
            .write(self.front.parts(0).0 + 16 * usize::from(head), &rows.concat());
        self.front.publish(0, head);
    }

    // Notifies the device if it wants that.
    fn kick(&self) {
        fence(SeqCst);
        if self.front.word(self.front.parts(0).2).load(SeqCst) & 1 == 0 {
            self.front.kick(0);
        }
    }

    // The place of a request that came back, if one did.
    fn back(&mut self) -> Option<u16> {
        let ring = &self.front.rings[0];
        if self.front.used_idx(0) == ring.next_used {
            return None;
        }
        let at = self.front.parts(0).2 + 4 + 8 * usize::from(ring.next_used % ring.size);
        let place = self.front.word(at).load(SeqCst) / 3;
        self.front.rings[0].next_used = ring.next_used.wrapping_add(1);
        let status = self.front.read(HEADS + 0x1000 * usize::from(place) + 0x800, 1);
        assert_eq!(status, [0], "a request failed");
        Some(place)
    }

    // Keeps requests under way, and returns how many came back, and in which time.
    fn go(&mut self) -> (u64, Duration) {
        (0..self.asked.depth).for_each(|place| self.put(place));
        self.kick();
        let (begun, mut count) = (Instant::now(), 0);
        while begun.elapsed() < self.asked.time {
            let mut is_new = false;
            while let Some(place) = self.back() {
                self.put(place);
                (is_new, count) = (true, count + 1);
            }
            match is_new {
                true => self.kick(),
                false => spin_loop(),
            }
        }
        let took = begun.elapsed();
        let mut left = self.asked.depth;
        while left > 0 {
            left -= u16::from(self.back().is_some());
        }
        (count, took)
    }
}

#[test]
#[ignore = "it drives what tools/disk_speed.py measures"]
fn drive() {
    let asked = Asked::of(&env::var("DISK_SPEED").expect("DISK_SPEED says what is asked for"));
    let (count, took) = Driver::start(asked).go();
    println!("served {count} in {} ns", took.as_nanos());
}
