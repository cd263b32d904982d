//! What the compiled code loads and stores of guest memory: each byte that decides something once, and in the order
//! that the rules of rings ask for. The trees of calls say so of the code before it is compiled.
#![cfg(target_arch = "x86_64")]

mod traced;

use std::collections::BTreeSet;
use std::ops::Range;
use traced::{trace, Access};
use vm_memory_proved::block::{DeviceLimits, Request};
use vm_memory_proved::queue::Queue;
use vm_memory_proved::{GuestAddress, GuestMemory, Machine, MemoryId, Permissions};

const BASE: u64 = 0x10_0000;
const SIZE: usize = 0x8000;
const ENTRIES: u16 = 8;

// Where things lie in the block.
const TABLE: usize = 0;
const DRIVER: usize = 0x1000;
const DEVICE: usize = 0x2000;
const ROWS: usize = 0x3000;
const HEADER: usize = 0x4000;
const DATA: usize = 0x5000;
const STATUS: usize = 0x6000;

const NEXT: u16 = 1;
const WRITE: u16 = 2;
const INDIRECT: u16 = 4;
const AVAIL: u16 = 1 << 7;
const USED: u16 = 1 << 15;

struct Traced<'a> {
    memory: GuestMemory<'a>,
    queue: Queue<'a>,
    mapping: (*mut u8, usize),
    base: u64,
    is_packed: bool,
    first: u16,
}

fn at(place: u64) -> GuestAddress {
    GuestAddress(place)
}

impl<'a> Traced<'a> {
    // The first chain comes in this slot of the ring.
    fn new(machine: &'a Machine, is_packed: bool, is_translated: bool, event_idx: bool, first: u16) -> Traced<'a> {
        let block = machine.shared_block(SIZE, 0x1000, None).unwrap();
        let layout = machine
            .layout(&[machine.region(block.id(), at(BASE)).unwrap()])
            .unwrap();
        let (memory, base) = match is_translated {
            true => behind_an_iommu(machine, layout),
            false => (machine.plain(layout).unwrap(), BASE),
        };
        let queue = match is_packed {
            true => machine.packed_queue(ENTRIES, 64).unwrap(),
            false => machine.queue(ENTRIES, 64).unwrap(),
        };
        queue.try_set_desc_table_address(at(base + TABLE as u64)).unwrap();
        queue.try_set_avail_ring_address(at(base + DRIVER as u64)).unwrap();
        queue.try_set_used_ring_address(at(base + DEVICE as u64)).unwrap();
        queue.set_event_idx(event_idx);
        if is_packed {
            let place = u32::from(first) | 1 << 15;
            queue.set_vring_base(place | place << 16).unwrap();
        } else {
            queue.set_next_avail(first);
            queue.set_next_used(first);
        }
        queue.set_ready(true);
        let it = Traced {
            memory: machine.memory(memory).unwrap(),
            queue,
            mapping: block.mapping(),
            base,
            is_packed,
            first,
        };
        if !is_packed {
            it.put(DRIVER + 2, first);
        }
        // After a change of place the first answer comes from no look.
        assert!(it.queue.needs_notification(&it.memory).unwrap());
        it
    }

    // Where the descriptors of the chain lie, if it is in no table: in a packed ring from its slot on, and over the
    // end.
    fn rows(&self) -> [usize; 3] {
        let first = if self.is_packed { usize::from(self.first) } else { 0 };
        [0, 1, 2].map(|it| TABLE + 16 * ((first + it) % usize::from(ENTRIES)))
    }

    fn put<T: vm_memory_proved::ByteValued>(&self, place: usize, value: T) {
        self.memory.write_obj(value, at(self.base + place as u64)).unwrap();
    }

    // A descriptor of a chain's place in it: of the three parts of a request, or a table of them.
    fn put_row(&self, place: usize, to: usize, len: u32, flags: u16, next: u16) {
        let (third, fourth) = if self.is_packed { (5, flags) } else { (flags, next) };
        self.put(place, self.base + to as u64);
        self.put(place + 8, len);
        self.put(place + 12, third);
        self.put(place + 14, fourth);
    }

    // Publishes a read of a sector as the first chain: in three descriptors, or in a table of as many.
    fn publish(&self, is_indirect: bool) {
        let rows = self.rows();
        let mark = |row: usize| match self.is_packed {
            true if row < rows[0] => USED,
            true => AVAIL,
            false => 0,
        };
        let (places, inner) = match is_indirect {
            true => ([ROWS, ROWS + 16, ROWS + 32], [0; 3]),
            false => (rows, rows.map(mark)),
        };
        self.put_row(places[0], HEADER, 16, NEXT | inner[0], 1);
        self.put_row(places[1], DATA, 512, NEXT | WRITE | inner[1], 2);
        self.put_row(places[2], STATUS, 1, WRITE | inner[2], 0);
        if is_indirect {
            self.put_row(rows[0], ROWS, 48, INDIRECT | mark(rows[0]), 0);
        }
        self.put(HEADER, 0_u64);
        self.put(HEADER + 8, 3_u64);
        if !self.is_packed {
            self.put(DRIVER + 4 + 2 * usize::from(self.first), 0_u16);
            self.put(DRIVER + 2, self.first + 1);
        }
    }

    fn trace<T>(&self, call: impl FnOnce(&Queue<'a>, &GuestMemory<'a>) -> T) -> (T, Vec<Access>) {
        trace(self.mapping, || call(&self.queue, &self.memory))
    }
}

fn behind_an_iommu(machine: &Machine, layout: vm_memory_proved::LayoutId) -> (MemoryId, u64) {
    let (table, first) = (machine.table(None).unwrap(), 0x7000_0000);
    for page in (0..SIZE as u64).step_by(0x1000) {
        let (from, to) = (at(first + page), at(BASE + page));
        machine
            .set_mapping(table, from, to, 0x1000, Permissions::ReadWrite)
            .unwrap();
    }
    let (translator, space) = (
        machine.translator(table).unwrap(),
        machine.space(1 << 31, 0x1000).unwrap(),
    );
    (machine.new_memory(layout, translator, space, true).unwrap(), first)
}

// Each of these parts is stored, each byte of it once, or loaded, no byte of it twice, before the next one is, and
// nothing else is. The compiler loads no byte that does not count. A part of two bytes is a number, which has one
// access.
fn expect(accesses: &[Access], wanted: &[(bool, Range<usize>)], what: &str) {
    let mut accesses = accesses.iter().peekable();
    for (is_store, part) in wanted {
        let mut left: BTreeSet<usize> = part.clone().collect();
        while let Some(access) = accesses.peek() {
            let bytes: BTreeSet<usize> = (access.at..access.at + access.len).collect();
            let may_go_on = part.len() > 2 || left.len() == part.len();
            if access.is_store != *is_store || !may_go_on || !bytes.is_subset(&left) {
                break;
            }
            left = &left - &bytes;
            accesses.next();
        }
        let is_done = left.is_empty() || !is_store && left.len() < part.len();
        let next = accesses.peek();
        assert!(
            is_done,
            "{what}: {left:x?} of {part:x?} are left, and {next:x?} is next"
        );
    }
    assert_eq!(accesses.peek(), None, "{what}: it is more than {wanted:x?}");
}

// Whether there is memory is tried by loads before anything is stored, of each byte at most once. Their values do not
// count, and the compiler may leave them out.
fn after_tries<'a>(accesses: &'a [Access], tried: &[(bool, Range<usize>)]) -> &'a [Access] {
    let mut left: BTreeSet<usize> = tried.iter().flat_map(|(_, part)| part.clone()).collect();
    let is_try = |it: &&Access| !it.is_store && (it.at..it.at + it.len).all(|byte| left.remove(&byte));
    &accesses[accesses.iter().take_while(is_try).count()..]
}

const LOAD: bool = false;
const STORE: bool = true;

fn serve_one(is_packed: bool, is_translated: bool, event_idx: bool, is_indirect: bool, first: u16) {
    let what = |call: &str| {
        format!(
            "{call}, packed: {is_packed}, IOMMU: {is_translated}, events: {event_idx}, table: {is_indirect}, slot: {first}"
        )
    };
    let machine = Machine::new().unwrap();
    let it = Traced::new(&machine, is_packed, is_translated, event_idx, first);
    let (row, slot) = (it.rows()[0], usize::from(first));
    let rows = |places: [usize; 3]| places.map(|place| (LOAD, place..place + 16));
    // Nothing is there.
    let (none, accesses) = it.trace(|queue, memory| queue.pop_descriptor_chain(memory).unwrap().is_none());
    assert!(none);
    let index = if is_packed {
        (LOAD, row + 14..row + 16)
    } else {
        (LOAD, DRIVER + 2..DRIVER + 4)
    };
    expect(&accesses, std::slice::from_ref(&index), &what("pop of nothing"));
    if !is_packed {
        let (_, accesses) = it.trace(|queue, memory| queue.avail_idx(memory).unwrap());
        expect(&accesses, std::slice::from_ref(&index), &what("driver's index"));
        let (_, accesses) = it.trace(|queue, memory| queue.used_idx(memory).unwrap());
        expect(&accesses, &[(LOAD, DEVICE + 2..DEVICE + 4)], &what("device's index"));
    }
    let (more, accesses) = it.trace(|queue, memory| queue.enable_notification(memory).unwrap());
    assert!(!more);
    let words = match (is_packed, event_idx) {
        (true, _) => vec![DEVICE, DEVICE + 2],
        (false, true) => vec![DEVICE + 4 + 64],
        (false, false) => vec![DEVICE],
    };
    let told = words.iter().map(|&at| (STORE, at..at + 2)).chain([index.clone()]);
    let told: Vec<_> = told.collect();
    expect(after_tries(&accesses, &told), &told, &what("enable"));
    let (_, accesses) = it.trace(|queue, memory| queue.disable_notification(memory).unwrap());
    let told = match (is_packed, event_idx) {
        (true, _) => vec![(STORE, DEVICE + 2..DEVICE + 4)],
        (false, true) => vec![],
        (false, false) => vec![(STORE, DEVICE..DEVICE + 2)],
    };
    expect(&accesses, &told, &what("disable"));
    // A chain.
    it.publish(is_indirect);
    let (chain, accesses) = it.trace(|queue, memory| queue.pop_descriptor_chain(memory).unwrap().unwrap());
    // Of a packed ring the flags that say that a descriptor is there count, and not those that come with the rest of
    // it.
    let mut wanted = vec![index];
    if !is_packed {
        wanted.push((LOAD, DRIVER + 4 + 2 * slot..DRIVER + 6 + 2 * slot));
    }
    if is_indirect {
        wanted.push((LOAD, row..row + 16));
        wanted.extend(rows([ROWS, ROWS + 16, ROWS + 32]));
    } else {
        wanted.extend(rows(it.rows()));
    }
    expect(&accesses, &wanted, &what("pop"));
    // A request.
    let limits = DeviceLimits {
        sectors: 8,
        ..DeviceLimits::default()
    };
    let (request, accesses) = it.trace(|_, memory| chain.begin_request(memory, limits).unwrap());
    assert_eq!(request, Request::Read { sector: 3, len: 512 });
    expect(&accesses, &[(LOAD, HEADER..HEADER + 16)], &what("begin"));
    let (len, accesses) = it.trace(|_, memory| chain.finish_request(memory, 0, 512).unwrap());
    assert_eq!(len, 513);
    expect(&accesses, &[(STORE, STATUS..STATUS + 1)], &what("finish"));
    let (_, accesses) = it.trace(|queue, memory| queue.add_used(memory, chain.head_index(), len).unwrap());
    let told = match is_packed {
        true => [row + 14..row + 16, row + 8..row + 14],
        false => [DEVICE + 2..DEVICE + 4, DEVICE + 4 + 8 * slot..DEVICE + 12 + 8 * slot],
    };
    let [last, entry] = told;
    let told = [(STORE, entry), (STORE, last)];
    expect(after_tries(&accesses, &told), &told, &what("return"));
    let (_, accesses) = it.trace(|queue, memory| queue.needs_notification(memory).unwrap());
    let asked = match (is_packed, event_idx) {
        (true, _) => vec![(LOAD, DRIVER + 2..DRIVER + 4)],
        (false, true) => vec![(LOAD, DRIVER + 4 + 16..DRIVER + 6 + 16)],
        (false, false) => vec![(LOAD, DRIVER..DRIVER + 2)],
    };
    expect(&accesses, &asked, &what("needs"));
}

#[test]
fn each_byte_is_loaded_once_and_stores_are_in_order() {
    for number in 0..16 {
        let is = |bit: u32| number >> bit & 1 == 1;
        // From the last slot but one the chain goes on over the end of a packed ring.
        for first in [0, ENTRIES - 2] {
            serve_one(is(0), is(1), is(2), is(3), first);
        }
    }
}
