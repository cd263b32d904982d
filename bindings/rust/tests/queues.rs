//! Queues: their parts, chains in flight, indices that wrap, notifications, and refusals.

mod ring;

use ring::{at, memory_of, Descriptor, Driver, Numbers, INDIRECT, NEXT, WRITE};
use std::env;
use std::error::Error;
use std::io::{self, ErrorKind};
use std::panic::{catch_unwind, AssertUnwindSafe};
use std::process::Command;
use vm_memory_proved::queue::{ChainFault, Queue, QueueError, QueueState};
use vm_memory_proved::raw::{code, kind, part, Answer, Call};
use vm_memory_proved::{GuestMemory, GuestMemoryError, IovaRange, Machine, Miss, Permissions, QueueId};

const BASE: u64 = 0x1000;
const DATA: u64 = 0x8000;
const SIZE: usize = 0x8000;

fn machine_and_memory() -> (Machine, vm_memory_proved::MemoryId) {
    let machine = Machine::new().unwrap();
    let memory = memory_of(&machine, BASE, SIZE);
    (machine, memory)
}

// The head, and how many bytes are read and written, of the next chain.
fn pop(queue: &Queue<'_>, memory: &GuestMemory<'_>) -> Option<(u16, usize, usize)> {
    let chain = queue.pop_descriptor_chain(memory).unwrap()?;
    Some((chain.head_index(), chain.readable_len(), chain.writable_len()))
}

macro_rules! assert_refused {
    ($answer:expr, $error:pat) => {
        match $answer {
            Err($error) => {}
            other => panic!("{other:?}, not {}", stringify!($error)),
        }
    };
}

// ---- parts

// Each call that sets a part, of the queue and of what its state has to be then.
type Set = fn(&Queue<'_>, &mut QueueState);

const SETS: [Set; 8] = [
    |queue, state| {
        state.size = 1 << (state.max_size.trailing_zeros() / 2);
        queue.set_size(state.size).unwrap();
    },
    |queue, state| {
        state.desc_table = u64::MAX - 15;
        queue.try_set_desc_table_address(at(state.desc_table)).unwrap();
    },
    |queue, state| {
        state.avail_ring = u64::MAX - 1;
        queue.try_set_avail_ring_address(at(state.avail_ring)).unwrap();
    },
    |queue, state| {
        state.used_ring = u64::MAX - 3;
        queue.try_set_used_ring_address(at(state.used_ring)).unwrap();
    },
    |queue, state| {
        state.ready = !state.ready;
        queue.set_ready(state.ready);
    },
    |queue, state| {
        state.event_idx_enabled = !state.event_idx_enabled;
        queue.set_event_idx(state.event_idx_enabled);
    },
    |queue, state| {
        state.next_avail = 0xffff;
        queue.set_next_avail(0xffff);
    },
    |queue, state| {
        state.next_used = 0xfffe;
        queue.set_next_used(0xfffe);
    },
];

// By the call for each part.
fn parts_of(queue: &Queue<'_>) -> QueueState {
    QueueState {
        max_size: queue.max_size(),
        next_avail: queue.next_avail(),
        next_used: queue.next_used(),
        event_idx_enabled: queue.event_idx_enabled(),
        size: queue.size(),
        ready: queue.ready(),
        desc_table: queue.desc_table(),
        avail_ring: queue.avail_ring(),
        used_ring: queue.used_ring(),
    }
}

#[test]
fn each_part_is_set_by_itself() {
    let (machine, _) = machine_and_memory();
    for max_size in (0..16).map(|k| 1 << k) {
        let queue = machine.queue(max_size, 1).unwrap();
        let made = QueueState {
            max_size,
            next_avail: 0,
            next_used: 0,
            event_idx_enabled: false,
            size: max_size,
            ready: false,
            desc_table: 0,
            avail_ring: 0,
            used_ring: 0,
        };
        let mut state = made;
        assert_eq!(queue.state(), made);
        // Twice, so that what is on goes off.
        for set in SETS.iter().chain(&SETS) {
            set(&queue, &mut state);
            assert_eq!(queue.state(), state);
            assert_eq!(parts_of(&queue), state);
        }
        queue.set_ready(true);
        queue.reset();
        assert_eq!(queue.state(), made);
    }
}

#[test]
fn parts_that_no_queue_has_are_refused() {
    let (machine, _) = machine_and_memory();
    for max_size in [0, 3, 5, 6, 0x7fff, 0x8001, 0xc000, 0xffff] {
        assert_refused!(machine.queue(max_size, 1), QueueError::InvalidMaxSize);
    }
    let queue = machine.queue(16, 1).unwrap();
    assert_eq!(queue.id().number(), 0);
    let state = queue.state();
    for size in [0, 3, 12, 17, 32, 0x8000, 0xffff] {
        assert_refused!(queue.set_size(size), QueueError::InvalidSize);
    }
    for addr in [1, 2, 4, 8, 15, u64::MAX] {
        assert_refused!(
            queue.try_set_desc_table_address(at(addr)),
            QueueError::InvalidDescTableAlign
        );
    }
    assert_refused!(
        queue.try_set_avail_ring_address(at(0x1001)),
        QueueError::InvalidAvailRingAlign
    );
    for addr in [1, 2, 3, u64::MAX] {
        assert_refused!(
            queue.try_set_used_ring_address(at(addr)),
            QueueError::InvalidUsedRingAlign
        );
    }
    assert_eq!(queue.state(), state);
}

// Queues go by number, and each is set by itself.
#[test]
fn queues_are_apart() {
    let (machine, memory) = machine_and_memory();
    let memory = machine.memory(memory).unwrap();
    let mut drivers = [0, 1].map(|i| Driver::new(memory, BASE + 0x1000 * i, 4));
    let queues = [0, 1].map(|i| drivers[i as usize].queue(4));
    assert_eq!(queues.map(|queue| queue.id()), [QueueId::new(0), QueueId::new(1)]);
    assert!(machine.queue_by_id(QueueId::new(2)).is_none());
    for (i, driver) in drivers.iter_mut().enumerate() {
        driver.put_chain(1, &[(DATA, 5 + i as u32, false)]);
        driver.publish(1);
    }
    assert_eq!(pop(&queues[1], &memory), Some((1, 6, 0)));
    let first = machine.queue_by_id(QueueId::new(0)).unwrap();
    assert_refused!(first.add_used(&memory, 1, 0), QueueError::NotInFlight);
    assert_eq!(pop(&first, &memory), Some((1, 5, 0)));
    first.reset();
    queues[1].add_used(&memory, 1, 9).unwrap();
    assert_eq!(drivers.each_mut().map(|driver| driver.take()), [None, Some((1, 9))]);
}

// ---- calls of plain numbers

fn call(kind: u32, first: usize, second: usize, third: usize, value: u64) -> Call {
    Call {
        kind,
        first,
        second,
        third,
        value,
        ..Call::default()
    }
}

// A driver and a queue with one chain in flight, of 8 bytes that are read and 8 that are written.
fn one_in_flight<'a>(memory: GuestMemory<'a>) -> (Driver<'a>, Queue<'a>) {
    let mut driver = Driver::new(memory, BASE, 4);
    let queue = driver.queue(4);
    driver.put_chain(0, &[(DATA, 8, false), (DATA + 8, 8, true)]);
    driver.publish(0);
    assert_eq!(pop(&queue, &memory), Some((0, 8, 8)));
    (driver, queue)
}

#[test]
fn plain_calls_that_mean_nothing_change_nothing() {
    let (machine, id) = machine_and_memory();
    let memory = machine.memory(id).unwrap();
    let (mut driver, queue) = one_in_flight(memory);
    let state = queue.state();
    let (bad, none, no_chain) = (code::BAD_CALL, code::NO_SUCH, code::NOT_IN_FLIGHT);
    let rows = [
        (call(kind::SET_QUEUE, 0, 8, 0, 0), bad),
        (call(kind::SET_QUEUE, 0, usize::MAX, 0, 0), bad),
        (call(kind::SET_QUEUE, 0, part::SIZE, 0, 0x1_0004), bad),
        (call(kind::SET_QUEUE, 0, part::READY, 0, 2), bad),
        (call(kind::SET_QUEUE, 0, part::EVENT_IDX, 0, u64::MAX), bad),
        (call(kind::SET_QUEUE, 0, part::NEXT_AVAIL, 0, 0x1_0000), bad),
        (call(kind::SET_QUEUE, 0, part::NEXT_USED, 0, 0x1_0000), bad),
        (call(kind::SET_QUEUE, 1, part::READY, 0, 1), none),
        (call(kind::RESET_QUEUE, 1, 0, 0, 0), none),
        (call(kind::QUEUE_STATE, 1, 0, 0, 0), none),
        (call(kind::FORGET, 1, 0, 0, 0), none),
        (call(kind::FORGET, 0, 0, 1, 0), no_chain),
        (call(kind::FORGET, 0, 0, 0x1_0000, 0), no_chain),
        (call(kind::ADD_USED, 0, 0, 0, 1 << 32), bad),
        (call(kind::ADD_USED, 0, 0, 3, 0), no_chain),
        (call(kind::COMPLETE_CHAIN, 0, 0, 0, 1 << 32), bad),
        (call(kind::COMPLETE_CHAIN, 0, 0, 0, u64::MAX), bad),
        (call(kind::COMPLETE_CHAIN, 0, 0, 3, 0), no_chain),
        (call(kind::COMPLETE_CHAIN, 0, 0, 0x1_0000, 0), no_chain),
        (call(kind::ADD_USED, 0, 0, 0x1_0000, 0), no_chain),
        (call(kind::READ_CHAIN, 0, 0, 1, 0), no_chain),
        (call(kind::WRITE_CHAIN, 0, 0, usize::MAX, 0), no_chain),
    ];
    for (call, code) in rows {
        assert_eq!(machine.call(&call, &[], &mut [0; 72]).code, code, "{call:?}");
    }
    // On a queue or a memory that is none.
    for kind in (kind::QUEUE_IS_VALID..=kind::FINISH_REQUEST).chain([kind::COMPLETE_CHAIN]) {
        for (first, second) in [(1, 0), (0, 1), (usize::MAX, 0), (0, usize::MAX)] {
            let call = call(kind, first, second, 0, 0);
            assert_eq!(machine.call(&call, &[], &mut []).code, none, "{call:?}");
        }
    }
    assert_eq!((queue.state(), driver.used_idx()), (state, 0));
    queue.add_used(&memory, 0, u32::MAX).unwrap();
    assert_eq!(driver.take(), Some((0, u32::MAX)));
}

// The return of a chain that took all bytes is refused: they stay written, and it stays in flight.
#[test]
fn a_chain_whose_return_is_refused_keeps_its_bytes() {
    let (machine, id) = machine_and_memory();
    let memory = machine.memory(id).unwrap();
    let mut driver = Driver::new(memory, BASE, 4);
    let queue = driver.queue(4);
    driver.put_chain(0, &[(DATA, 8, false), (DATA + 8, 8, true)]);
    driver.publish(0);
    let chain = queue.pop_descriptor_chain(&memory).unwrap().unwrap();
    let used = queue.used_ring();
    queue.try_set_used_ring_address(at(0x10_0000)).unwrap();
    assert_refused!(chain.complete_at(&memory, 2, b"reply", 7), QueueError::InvalidUsedEntry);
    assert_eq!(memory.read_obj::<[u8; 8]>(at(DATA + 8)).unwrap(), *b"\0\0reply\0");
    queue.try_set_used_ring_address(at(used)).unwrap();
    assert_eq!(driver.take(), None);
    chain.complete_at(&memory, 7, b"!", 8).unwrap();
    assert_eq!(driver.take(), Some((0, 8)));
    assert_eq!(memory.read_obj::<[u8; 8]>(at(DATA + 8)).unwrap(), *b"\0\0reply!");
    assert_refused!(chain.complete_at(&memory, 0, b"", 0), QueueError::NotInFlight);
    assert_eq!(queue.next_used(), 1);
}

#[test]
fn an_output_that_is_too_short_stays() {
    let (machine, id) = machine_and_memory();
    let (_, queue) = one_in_flight(machine.memory(id).unwrap());
    let state = queue.state();
    let mut output = [7; 72];
    let answer = machine.call(&call(kind::QUEUE_STATE, 0, 0, 0, 0), &[], &mut output[..71]);
    assert_eq!((answer.code, answer.count), (code::SHORT, 72));
    // Fewer bytes are there to be read than are asked for.
    let mut read = call(kind::READ_CHAIN, 0, 0, 0, 0);
    read.length = 9;
    let answer = machine.call(&read, &[], &mut output[..8]);
    assert_eq!((answer.code, answer.count), (code::SHORT, 9));
    assert_eq!((output, queue.state()), ([7; 72], state));
}

// What the answer of each call is, in plain numbers.
#[test]
fn plain_calls_answer_by_numbers() {
    let (machine, id) = machine_and_memory();
    let memory = machine.memory(id).unwrap();
    let mut driver = Driver::new(memory, BASE, 4);
    driver.queue(4);
    driver.put_chain(2, &[(DATA, 3, false), (DATA + 0x100, 5, true)]);
    driver.publish(2);
    let answered = |code, count, value, address| Answer {
        code,
        count,
        value,
        address,
    };
    let mut call = Call {
        kind: kind::POP,
        ..Call::default()
    };
    let mut output = [0; 72];
    assert_eq!(machine.call(&call, &[], &mut []), answered(code::DONE, 3, 2, 5));
    assert_eq!(machine.call(&call, &[], &mut []).code, code::NO_CHAIN);
    call.kind = kind::READ_CHAIN;
    (call.third, call.address, call.length) = (2, 1, 72);
    assert_eq!(machine.call(&call, &[], &mut output).count, 2);
    call.kind = kind::WRITE_CHAIN;
    assert_eq!(machine.call(&call, b"proved", &mut []).count, 4);
    assert_eq!(memory.read_obj::<[u8; 6]>(at(DATA + 0x100)).unwrap(), *b"\0prov\0");
    call.kind = kind::ADD_USED;
    call.value = 5;
    assert_eq!(machine.call(&call, &[], &mut []).code, code::DONE);
    call.kind = kind::QUEUE_STATE;
    assert_eq!(machine.call(&call, &[], &mut output).count, 9);
    let numbers: Vec<u64> = output
        .chunks_exact(8)
        .map(|bytes| u64::from_le_bytes(bytes.try_into().unwrap()))
        .collect();
    let areas = [driver.desc_table, driver.avail_ring, driver.used_ring];
    assert_eq!(numbers[..3], [4, 4, 1]);
    assert_eq!(numbers[3..6], areas);
    assert_eq!(numbers[6..], [1, 1, 0]);
}

// ---- chains in flight

// The orders of a number of chains.
fn orders(count: u16) -> Vec<Vec<u16>> {
    if count == 0 {
        return vec![Vec::new()];
    }
    let mut all = Vec::new();
    for order in orders(count - 1) {
        for place in 0..=order.len() {
            let mut order = order.clone();
            order.insert(place, count - 1);
            all.push(order);
        }
    }
    all
}

// Four chains in flight, each read and written while others come and go, return in every order.
#[test]
fn chains_return_in_every_order() {
    let (machine, memory) = machine_and_memory();
    let memory = machine.memory(memory).unwrap();
    let mut driver = Driver::new(memory, BASE, 8);
    let queue = driver.queue(8);
    for i in 0..4 {
        let data = DATA + 0x20 * u64::from(i);
        driver.put_chain(2 * i, &[(data, 4, false), (data + 0x10, 4, true)]);
    }
    assert_eq!(orders(4).len(), 24);
    for order in orders(4) {
        for i in 0..4 {
            let bytes = [b'0' + i as u8; 4];
            memory.write_slice(&bytes, at(DATA + 0x20 * u64::from(i))).unwrap();
            driver.publish(2 * i);
        }
        let chains: Vec<_> = queue.iter(&memory).map(Result::unwrap).collect();
        assert_eq!(chains.len(), 4);
        for (place, &i) in order.iter().enumerate() {
            let mut bytes = [0; 5];
            assert_eq!(chains[i as usize].read_at(&memory, 0, &mut bytes).unwrap(), 4);
            assert_eq!(
                bytes,
                [b'0' + i as u8, b'0' + i as u8, b'0' + i as u8, b'0' + i as u8, 0]
            );
            assert_eq!(chains[i as usize].write_at(&memory, 1, &bytes).unwrap(), 3);
            queue.add_used(&memory, 2 * i, 10 + u32::from(i)).unwrap();
            assert_eq!(driver.take(), Some((2 * u32::from(i), 10 + u32::from(i))));
            // Those returned are in flight no more, and the others still are.
            for (earlier, &j) in order.iter().enumerate() {
                let read = chains[j as usize].read_at(&memory, 0, &mut bytes);
                if earlier <= place {
                    assert_refused!(read, QueueError::NotInFlight);
                    assert_refused!(queue.add_used(&memory, 2 * j, 0), QueueError::NotInFlight);
                } else {
                    assert_eq!(read.unwrap(), 4);
                }
            }
        }
        assert_eq!(driver.take(), None);
    }
}

#[test]
fn a_head_in_flight_is_not_popped_again() {
    let (machine, memory) = machine_and_memory();
    let memory = machine.memory(memory).unwrap();
    let mut driver = Driver::new(memory, BASE, 4);
    let queue = driver.queue(4);
    driver.put_chain(3, &[(DATA, 6, false)]);
    driver.publish(3);
    driver.publish(3);
    let first = queue.pop_descriptor_chain(&memory).unwrap().unwrap();
    let state = queue.state();
    for _ in 0..3 {
        assert_refused!(queue.pop_descriptor_chain(&memory), QueueError::InFlight);
        assert_eq!(queue.state(), state);
    }
    // The chain in flight is the one that was popped, whatever the driver does to its descriptor.
    memory.write_slice(b"secret", at(DATA)).unwrap();
    driver.put_chain(3, &[(DATA + 0x100, 2, true)]);
    let mut bytes = [0; 8];
    assert_eq!(first.read_at(&memory, 0, &mut bytes).unwrap(), 6);
    assert_eq!(bytes, *b"secret\0\0");
    assert_eq!(first.write_at(&memory, 0, b"x").unwrap(), 0);
    queue.add_used(&memory, 3, 0).unwrap();
    // Now it is the next one, with its descriptor as it is now. The first value reaches it, too.
    assert_eq!(pop(&queue, &memory), Some((3, 0, 2)));
    assert_eq!(first.read_at(&memory, 0, &mut bytes).unwrap(), 0);
    assert_eq!(first.write_at(&memory, 0, b"xyz").unwrap(), 2);
    queue.add_used(&memory, 3, 2).unwrap();
    assert_eq!(
        [driver.take(), driver.take(), driver.take()],
        [Some((3, 0)), Some((3, 2)), None]
    );
}

// So many descriptors and no more are in flight: a chain that would pass that stays the next one.
#[test]
fn descriptors_in_flight_are_bounded() {
    let (machine, memory) = machine_and_memory();
    let memory = machine.memory(memory).unwrap();
    let mut driver = Driver::new(memory, BASE, 16);
    for bound in 1..9 {
        let queue = driver.queue(bound);
        let lens = [3, 1, 2, 2];
        let (mut first, mut heads) = (0, Vec::new());
        for len in lens {
            driver.put_chain(first, &vec![(DATA, 1, true); len]);
            driver.publish(first);
            heads.push(first);
            first += len as u16;
        }
        // The chains that are in flight at once are those that fit, in order, and each has its turn once others
        // returned.
        let (mut in_flight, mut next) = (Vec::new(), 0);
        while next < lens.len() {
            let held: usize = in_flight.iter().map(|&i: &usize| lens[i]).sum();
            let state = queue.state();
            match queue.pop_descriptor_chain(&memory) {
                Ok(Some(chain)) => {
                    assert!(held + lens[next] <= bound);
                    assert_eq!((chain.head_index(), chain.writable_len()), (heads[next], lens[next]));
                    in_flight.push(next);
                    next += 1;
                }
                Err(QueueError::TooMany) => {
                    assert!(held + lens[next] > bound);
                    assert_eq!(queue.state(), state);
                    let Some(i) = in_flight.pop() else {
                        assert!(lens[next] > bound);
                        break;
                    };
                    queue.add_used(&memory, heads[i], 1).unwrap();
                }
                other => panic!("{other:?}"),
            }
        }
        assert!(bound < 3 || next == lens.len());
        queue.reset();
        driver.next_used = 0;
        driver.next_avail = 0;
        driver.set_word(driver.avail_ring + 2, 0);
        driver.set_word(driver.used_ring + 2, 0);
    }
}

// Those of an indirect table count.
#[test]
fn descriptors_of_indirect_tables_count() {
    let (machine, memory) = machine_and_memory();
    let memory = machine.memory(memory).unwrap();
    Driver::new(memory, DATA, 16).put_chain(0, &[(DATA + 0x200, 1, true); 10]);
    for (bound, fits) in [(11, true), (9, false), (1, false)] {
        let mut driver = Driver::new(memory, BASE, 2);
        driver.put(
            0,
            Descriptor {
                addr: DATA,
                len: 160,
                flags: INDIRECT,
                next: 0,
            },
        );
        driver.publish(0);
        match driver.queue(bound).pop_descriptor_chain(&memory) {
            Ok(Some(chain)) => assert!(fits && chain.writable_len() == 10),
            Err(QueueError::TooMany) => assert!(!fits),
            other => panic!("{other:?}"),
        }
    }
}

#[test]
fn a_chain_is_forgotten() {
    let (machine, memory) = machine_and_memory();
    let memory = machine.memory(memory).unwrap();
    let mut driver = Driver::new(memory, BASE, 4);
    let queue = driver.queue(2);
    driver.put_chain(1, &[(DATA, 2, false), (DATA, 2, true)]);
    driver.publish(1);
    for _ in 0..3 {
        let chain = queue.pop_descriptor_chain(&memory).unwrap().unwrap();
        drop(chain.clone());
        assert_eq!(chain.read_at(&memory, 0, &mut [0; 4]).unwrap(), 2);
        assert_refused!(queue.forget(0), QueueError::NotInFlight);
        queue.forget(1).unwrap();
        assert_refused!(queue.forget(1), QueueError::NotInFlight);
        assert_refused!(chain.read_at(&memory, 0, &mut [0; 4]), QueueError::NotInFlight);
        assert_refused!(chain.write_at(&memory, 0, &[0; 4]), QueueError::NotInFlight);
        assert_refused!(queue.add_used(&memory, 1, 0), QueueError::NotInFlight);
        // It is the next one again if the device says so.
        assert!(queue.pop_descriptor_chain(&memory).unwrap().is_none());
        queue.set_next_avail(0);
    }
    assert_eq!(driver.take(), None);
}

#[test]
fn a_reset_drops_all_chains() {
    let (machine, memory) = machine_and_memory();
    let memory = machine.memory(memory).unwrap();
    let mut driver = Driver::new(memory, BASE, 4);
    let queue = driver.queue(4);
    for head in 0..4 {
        driver.put_chain(head, &[(DATA, 4, true)]);
        driver.publish(head);
    }
    let chains: Vec<_> = queue.iter(&memory).map(Result::unwrap).collect();
    assert_eq!(chains.len(), 4);
    driver.set_up(&queue);
    for chain in &chains {
        assert_refused!(chain.write_at(&memory, 0, b"late"), QueueError::NotInFlight);
        assert_refused!(queue.add_used(&memory, chain.head_index(), 4), QueueError::NotInFlight);
    }
    assert_eq!(memory.read_obj::<u32>(at(DATA)).unwrap(), 0);
    // They are popped anew, all four.
    assert_eq!(queue.iter(&memory).map(Result::unwrap).count(), 4);
}

#[test]
fn an_iteration_ends_at_the_first_error() {
    let (machine, memory) = machine_and_memory();
    let memory = machine.memory(memory).unwrap();
    let mut driver = Driver::new(memory, BASE, 4);
    let queue = driver.queue(4);
    for head in [0, 1, 9, 2] {
        driver.put_chain(head % 4, &[(DATA, 4, true)]);
        driver.publish(head);
    }
    assert_eq!(queue.iter(&memory).take(1).count(), 1);
    let mut chains = queue.iter(&memory);
    assert_eq!(chains.next().unwrap().unwrap().head_index(), 1);
    assert_refused!(chains.next().unwrap(), QueueError::InvalidDescriptorIndex);
    assert!(chains.next().is_none());
    assert_refused!(queue.iter(&memory).next().unwrap(), QueueError::InvalidDescriptorIndex);
    let mut none = machine.queue(4, 4).unwrap().iter(&memory);
    assert_refused!(none.next().unwrap(), QueueError::QueueNotReady);
    assert!(none.next().is_none());
}

// ---- indices

// More requests than an index counts, through queues of some sizes and from some index on.
#[test]
fn indices_count_modulo_two_to_the_sixteen() {
    let (machine, memory) = machine_and_memory();
    let memory = machine.memory(memory).unwrap();
    for (size, start, requests) in [(1, 0, 70_000), (2, 65_535, 10), (8, 65_530, 66_000), (128, 1, 70_000)] {
        let mut driver = Driver::new(memory, BASE, size);
        (driver.next_avail, driver.next_used) = (start, start);
        driver.set_word(driver.avail_ring + 2, start);
        driver.set_word(driver.used_ring + 2, start);
        let queue = driver.queue(size.into());
        queue.set_next_avail(start);
        queue.set_next_used(start);
        let mut numbers = Numbers(u64::from(start) + 1);
        let mut done = 0;
        while done < requests {
            let count = 1 + numbers.below(size.into()) as u16;
            for head in 0..count {
                driver.put_chain(head, &[(DATA + u64::from(head), 1, true)]);
                driver.publish(head);
            }
            assert_eq!(queue.avail_idx(&memory).unwrap(), driver.next_avail);
            for head in 0..count {
                assert_eq!(pop(&queue, &memory), Some((head, 0, 1)));
            }
            assert_eq!(pop(&queue, &memory), None);
            assert_eq!(queue.next_avail(), driver.next_avail);
            for head in (0..count).rev() {
                queue.add_used(&memory, head, done + u32::from(head)).unwrap();
                assert_eq!(driver.take(), Some((u32::from(head), done + u32::from(head))));
            }
            assert_eq!(driver.take(), None);
            assert_eq!(queue.next_used(), driver.next_used);
            assert_eq!(queue.used_idx(&memory).unwrap(), driver.next_used);
            done += u32::from(count);
        }
    }
}

#[test]
fn an_index_too_far_ahead_is_refused() {
    let (machine, memory) = machine_and_memory();
    let memory = machine.memory(memory).unwrap();
    for size in [1, 4, 256] {
        let driver = Driver::new(memory, BASE, size);
        let queue = driver.queue(1);
        driver.put_chain(0, &[(DATA, 1, true)]);
        for next in [0, 1, 0x7fff, 0xffff] {
            queue.set_next_avail(next);
            for ahead in [0, 1, size, size + 1, 0x8000, 0xffff] {
                driver.set_word(driver.avail_ring + 2, next.wrapping_add(ahead));
                match queue.pop_descriptor_chain(&memory) {
                    Ok(None) => assert_eq!(ahead, 0),
                    Ok(Some(chain)) => {
                        assert!(1 <= ahead && ahead <= size);
                        queue.forget(chain.head_index()).unwrap();
                        queue.set_next_avail(next);
                    }
                    Err(QueueError::InvalidAvailRingIndex) => assert!(ahead > size),
                    Err(error) => panic!("{error}"),
                }
                assert_eq!(queue.next_avail(), next);
            }
        }
    }
}

// ---- notifications

// The rule of the specification for a device (version 1.2, 2.7.7), as its own helper has it: the index that is waited
// for is among those that were added.
fn need_event(event: u16, new: u16, old: u16) -> bool {
    new.wrapping_sub(event).wrapping_sub(1) < new.wrapping_sub(old)
}

// Adds a number of entries.
fn add(driver: &mut Driver<'_>, queue: &Queue<'_>, count: u16) {
    for _ in 0..count {
        driver.publish(0);
        assert_eq!(pop(queue, &driver.memory), Some((0, 1, 0)));
        queue.add_used(&driver.memory, 0, 0).unwrap();
    }
}

#[test]
fn event_indices_ask_for_notifications() {
    let (machine, memory) = machine_and_memory();
    let memory = machine.memory(memory).unwrap();
    for size in [1, 2, 64, 256] {
        let mut driver = Driver::new(memory, BASE, size);
        driver.put_chain(0, &[(DATA, 1, false)]);
        let queue = driver.queue(1);
        queue.set_event_idx(true);
        // With event indices the flags mean nothing.
        driver.set_avail_flags(1);
        let (mut numbers, mut asked) = (Numbers(7), 0);
        for _ in 0..4_000 {
            add(&mut driver, &queue, numbers.below(5) as u16);
            let new = driver.next_avail;
            let event = new.wrapping_sub(4).wrapping_add(numbers.below(8) as u16);
            driver.set_used_event(event);
            let needs = queue.needs_notification(&memory).unwrap();
            assert_eq!(needs, need_event(event, new, asked), "{event} {new} {asked}");
            asked = new;
            // What was asked once is not asked again.
            assert!(!queue.needs_notification(&memory).unwrap());
        }
        // All indices were added.
        for event in [0, 0x1234, 0xffff] {
            add(&mut driver, &queue, 0xffff);
            add(&mut driver, &queue, 1);
            driver.set_used_event(event);
            assert!(queue.needs_notification(&memory).unwrap());
        }
        // It is not known which ones the driver was notified of.
        queue.set_next_used(driver.next_avail);
        driver.set_used_event(driver.next_avail);
        assert!(queue.needs_notification(&memory).unwrap());
        assert!(!queue.needs_notification(&memory).unwrap());
        driver.set_avail_flags(0);
    }
}

#[test]
fn flags_ask_for_notifications() {
    let (machine, memory) = machine_and_memory();
    let memory = machine.memory(memory).unwrap();
    let mut driver = Driver::new(memory, BASE, 4);
    driver.put_chain(0, &[(DATA, 1, false)]);
    let queue = driver.queue(1);
    for flags in [0, 1, 2, 3, 0xfffe, 0xffff] {
        add(&mut driver, &queue, 1);
        driver.set_avail_flags(flags);
        // Here an event index means nothing.
        driver.set_used_event(driver.next_avail);
        assert_eq!(queue.needs_notification(&memory).unwrap(), flags & 1 == 0);
    }
    queue.set_next_used(5);
    assert!(queue.needs_notification(&memory).unwrap());
    assert!(!queue.needs_notification(&memory).unwrap());
}

#[test]
fn a_device_asks_for_notifications() {
    let (machine, memory) = machine_and_memory();
    let memory = machine.memory(memory).unwrap();
    for size in [1, 8, 512] {
        let mut driver = Driver::new(memory, BASE, size);
        driver.put_chain(0, &[(DATA, 1, false)]);
        let queue = driver.queue(1);
        // By flags.
        queue.disable_notification(&memory).unwrap();
        assert_eq!(driver.used_flags(), 1);
        assert!(!queue.enable_notification(&memory).unwrap());
        assert_eq!(driver.used_flags(), 0);
        queue.disable_notification(&memory).unwrap();
        driver.publish(0);
        assert!(queue.enable_notification(&memory).unwrap());
        assert_eq!((driver.used_flags(), driver.avail_event()), (0, 0));
        // By event indices: that of the next head.
        queue.set_event_idx(true);
        for next in [0, 1, 0x8000, 0xffff] {
            queue.set_next_avail(next);
            driver.set_word(driver.avail_ring + 2, next);
            assert!(!queue.enable_notification(&memory).unwrap());
            assert_eq!(driver.avail_event(), next);
            driver.set_word(driver.avail_ring + 2, next.wrapping_add(1));
            assert!(queue.enable_notification(&memory).unwrap());
            // Nothing else is written.
            driver.set_word(driver.used_ring + 4 + 8 * u64::from(size), 7);
            queue.disable_notification(&memory).unwrap();
            assert_eq!((driver.used_flags(), driver.avail_event()), (0, 7));
        }
    }
}

// ---- refusals

#[test]
fn a_queue_that_is_not_ready_is_refused() {
    let (machine, memory) = machine_and_memory();
    let memory = machine.memory(memory).unwrap();
    let mut driver = Driver::new(memory, BASE, 4);
    let queue = driver.queue(4);
    driver.put_chain(0, &[(DATA, 1, false)]);
    driver.publish(0);
    assert_eq!(pop(&queue, &memory), Some((0, 1, 0)));
    queue.set_ready(false);
    use QueueError::QueueNotReady;
    assert_refused!(queue.is_valid(&memory), QueueNotReady);
    assert_refused!(queue.avail_idx(&memory), QueueNotReady);
    assert_refused!(queue.used_idx(&memory), QueueNotReady);
    assert_refused!(queue.pop_descriptor_chain(&memory), QueueNotReady);
    assert_refused!(queue.add_used(&memory, 0, 0), QueueNotReady);
    assert_refused!(queue.needs_notification(&memory), QueueNotReady);
    assert_refused!(queue.enable_notification(&memory), QueueNotReady);
    assert_refused!(queue.disable_notification(&memory), QueueNotReady);
    // The chain is still in flight.
    queue.set_ready(true);
    queue.add_used(&memory, 0, 1).unwrap();
    assert_eq!(driver.take(), Some((0, 1)));
}

// Each area at the end of memory, and one place further.
#[test]
fn areas_lie_whole_in_memory() {
    let (machine, memory) = machine_and_memory();
    let memory = machine.memory(memory).unwrap();
    let end = BASE + SIZE as u64;
    for size in [1, 2, 256] {
        let n = u64::from(size);
        let driver = Driver::new(memory, BASE, size);
        let queue = driver.queue(1);
        assert!(queue.is_valid(&memory).unwrap());
        let last = end - 16 * n;
        for (addr, is_valid) in [(last, true), (last + 16, false), (BASE - 16, false)] {
            queue.try_set_desc_table_address(at(addr)).unwrap();
            assert_eq!(queue.is_valid(&memory).unwrap(), is_valid);
        }
        driver.set_up(&queue);
        let last = end - (6 + 2 * n);
        for (addr, is_valid) in [(last, true), (last + 2, false), (u64::MAX - 1, false)] {
            queue.try_set_avail_ring_address(at(addr)).unwrap();
            assert_eq!(queue.is_valid(&memory).unwrap(), is_valid);
        }
        driver.set_up(&queue);
        let last = (end - (6 + 8 * n)) & !3;
        for (addr, is_valid) in [(last, true), (last + 4, false), (u64::MAX - 3, false)] {
            queue.try_set_used_ring_address(at(addr)).unwrap();
            assert_eq!(queue.is_valid(&memory).unwrap(), is_valid);
        }
    }
}

// Fields past the end of memory, or past the greatest address. A chain that could not be returned stays in flight.
#[test]
fn fields_outside_of_memory_are_refused() {
    let (machine, memory) = machine_and_memory();
    let memory = machine.memory(memory).unwrap();
    let mut driver = Driver::new(memory, BASE, 4);
    let queue = driver.queue(4);
    driver.put_chain(0, &[(DATA, 1, false)]);
    driver.publish(0);
    let end = BASE + SIZE as u64;
    let no_memory = |error: QueueError, wanted: u64| match error {
        QueueError::GuestMemory(GuestMemoryError::InvalidGuestAddress(addr)) => assert_eq!(addr.0, wanted),
        error => panic!("{error}"),
    };
    queue.try_set_avail_ring_address(at(end - 2)).unwrap();
    no_memory(queue.pop_descriptor_chain(&memory).unwrap_err(), end);
    no_memory(queue.avail_idx(&memory).unwrap_err(), end);
    queue.try_set_avail_ring_address(at(u64::MAX - 1)).unwrap();
    assert_refused!(queue.pop_descriptor_chain(&memory), QueueError::AddressOverflow);
    assert_refused!(queue.avail_idx(&memory), QueueError::AddressOverflow);
    queue.try_set_avail_ring_address(at(driver.avail_ring)).unwrap();
    queue.try_set_desc_table_address(at(end)).unwrap();
    no_memory(queue.pop_descriptor_chain(&memory).unwrap_err(), end);
    queue.try_set_desc_table_address(at(driver.desc_table)).unwrap();
    assert_eq!(pop(&queue, &memory), Some((0, 1, 0)));

    let state = queue.state();
    for (addr, entry) in [(end - 4, end), (end - 8, end - 4), (BASE - 4, BASE)] {
        queue.try_set_used_ring_address(at(addr)).unwrap();
        match queue.add_used(&memory, 0, 7) {
            // The entry does not lie whole in memory, or the index before it does not.
            Err(QueueError::InvalidUsedEntry) => assert!(entry + 8 > end),
            Err(error) => no_memory(error, BASE - 2),
            Ok(()) => panic!("{addr:#x}"),
        }
    }
    queue.try_set_used_ring_address(at(u64::MAX - 3)).unwrap();
    assert_refused!(queue.add_used(&memory, 0, 7), QueueError::AddressOverflow);
    no_memory(queue.used_idx(&memory).unwrap_err(), u64::MAX - 1);
    no_memory(queue.enable_notification(&memory).unwrap_err(), u64::MAX - 3);
    queue.try_set_used_ring_address(at(driver.used_ring)).unwrap();
    assert_eq!((queue.state(), driver.used_idx()), (state, 0));
    queue.add_used(&memory, 0, 7).unwrap();
    assert_eq!(driver.take(), Some((0, 7)));
}

// A head past a size that was made smaller meanwhile.
#[test]
fn a_head_past_the_size_is_not_returned() {
    let (machine, memory) = machine_and_memory();
    let memory = machine.memory(memory).unwrap();
    let mut driver = Driver::new(memory, BASE, 8);
    let queue = driver.queue(8);
    driver.put_chain(5, &[(DATA, 1, false)]);
    driver.publish(5);
    assert_eq!(pop(&queue, &memory), Some((5, 1, 0)));
    queue.set_size(4).unwrap();
    assert_refused!(queue.add_used(&memory, 5, 0), QueueError::InvalidDescriptorIndex);
    queue.set_size(8).unwrap();
    queue.add_used(&memory, 5, 0).unwrap();
}

#[test]
fn a_memory_of_another_machine_is_no_memory() {
    let (machine, memory) = machine_and_memory();
    let (other, other_memory) = machine_and_memory();
    let queue = Driver::new(machine.memory(memory).unwrap(), BASE, 4).queue(4);
    let other = other.memory(other_memory).unwrap();
    let tried = catch_unwind(AssertUnwindSafe(|| queue.avail_idx(&other)));
    assert!(tried.is_err());
}

// ---- dirty pages, and an IOMMU

// What each call of a device marks: the pages of what it writes.
#[test]
fn pages_are_dirty_by_writes_alone() {
    let (machine, id) = machine_and_memory();
    let memory = machine.memory(id).unwrap();
    let mut driver = Driver::new(memory, BASE, 4);
    let queue = driver.queue(4);
    driver.put_chain(0, &[(DATA, 0x20, false), (DATA + 0x100, 0x20, true)]);
    driver.publish(0);
    let block = vm_memory_proved::BlockId::new(0);
    machine.harvest_block(block).unwrap();
    let page = |addr: u64| ((addr - BASE) / 16) as usize;
    let chain = queue.pop_descriptor_chain(&memory).unwrap().unwrap();
    chain.read_at(&memory, 0, &mut [0; 0x20]).unwrap();
    queue.is_valid(&memory).unwrap();
    assert!(machine.harvest_block(block).unwrap().is_empty());
    chain.write_at(&memory, 15, &[1; 2]).unwrap();
    let first = page(DATA + 0x100);
    assert_eq!(machine.harvest_block(block).unwrap(), [first, first + 1]);
    queue.add_used(&memory, 0, 2).unwrap();
    let (index, entry) = (driver.used_ring + 2, driver.used_ring + 4);
    let mut pages = vec![page(index), page(entry), page(entry + 7)];
    pages.dedup();
    assert_eq!(machine.harvest_block(block).unwrap(), pages);
    queue.needs_notification(&memory).unwrap();
    assert!(machine.harvest_block(block).unwrap().is_empty());
    queue.disable_notification(&memory).unwrap();
    assert_eq!(machine.harvest_block(block).unwrap(), [page(driver.used_ring)]);
    queue.set_event_idx(true);
    queue.enable_notification(&memory).unwrap();
    assert_eq!(machine.harvest_block(block).unwrap(), [page(driver.used_ring + 4 + 32)]);
}

// All of a queue lies behind an IOMMU, at addresses that map to others.
#[test]
fn a_queue_lies_behind_an_iommu() {
    const IOVA: u64 = 0x10_0000;
    let machine = Machine::new().unwrap();
    let block = machine.block(SIZE, 16).unwrap();
    let region = machine.region(block, at(BASE)).unwrap();
    let layout = machine.layout(&[region]).unwrap();
    let plain = machine.memory(machine.plain(layout).unwrap()).unwrap();
    let (table, space) = (machine.table(None).unwrap(), machine.space(1 << 21, 16).unwrap());
    let translator = machine.translator(table).unwrap();
    let id = machine.new_memory(layout, translator, space, true).unwrap();
    let memory = machine.memory(id).unwrap();
    let map = |access| machine.set_mapping(table, at(IOVA), at(BASE), SIZE, access).unwrap();

    // The driver writes by physical addresses what the device reads by I/O addresses.
    let mut driver = Driver::new(plain, BASE, 4);
    driver.put_chain(0, &[(IOVA + 0x1000, 3, false), (IOVA + 0x2000, 3, true)]);
    driver.publish(0);
    let device = Driver::new(memory, IOVA, 4);
    let queue = device.queue(4);
    let refused = queue.pop_descriptor_chain(&memory).unwrap_err();
    let text = refused.to_string();
    assert!(text.contains("missing mapping"), "{text}");
    let missed = |base, length, access| {
        let iova_range = IovaRange { base: at(base), length };
        Some(Miss { iova_range, access })
    };
    assert_eq!(machine.take_miss(), missed(device.avail_ring + 2, 2, Permissions::Read));
    map(Permissions::Read);
    plain.write_slice(b"ask", at(BASE + 0x1000)).unwrap();
    let chain = queue.pop_descriptor_chain(&memory).unwrap().unwrap();
    let mut bytes = [0; 3];
    assert_eq!(chain.read_at(&memory, 0, &mut bytes).unwrap(), 3);
    assert_eq!(bytes, *b"ask");
    let refused = chain.write_at(&memory, 0, b"say").unwrap_err().to_string();
    assert!(refused.contains("access not allowed"), "{refused}");
    assert_eq!(machine.take_miss(), missed(IOVA + 0x2000, 3, Permissions::Write));
    queue.enable_notification(&memory).unwrap_err();
    assert_eq!(machine.take_miss(), missed(device.used_ring, 2, Permissions::Write));
    queue.disable_notification(&memory).unwrap_err();
    assert_eq!(machine.take_miss(), missed(device.used_ring, 2, Permissions::Write));
    assert!(!queue.is_valid(&memory).unwrap());
    assert_eq!(machine.take_miss(), None);
    let refused = queue.add_used(&memory, 0, 3).unwrap_err().to_string();
    assert!(refused.contains("access not allowed"), "{refused}");
    assert_eq!(machine.take_miss(), missed(device.used_ring + 4, 8, Permissions::Write));
    // If what is written to be notified is mapped, the driver's index is what is read then.
    machine
        .set_mapping(table, at(IOVA), at(BASE), SIZE, Permissions::Write)
        .unwrap();
    queue.enable_notification(&memory).unwrap_err();
    assert_eq!(machine.take_miss(), missed(device.avail_ring + 2, 2, Permissions::Read));
    map(Permissions::ReadWrite);
    assert!(queue.is_valid(&memory).unwrap());
    assert_eq!(chain.write_at(&memory, 0, b"say").unwrap(), 3);
    queue.add_used(&memory, 0, 3).unwrap();
    assert_eq!(driver.take(), Some((0, 3)));
    assert_eq!(plain.read_obj::<[u8; 3]>(at(BASE + 0x2000)).unwrap(), *b"say");
    // A write marks the space at its I/O address.
    let mut pages = vec![device.used_ring, device.used_ring + 11, IOVA + 0x2000];
    pages.iter_mut().for_each(|addr| *addr /= 16);
    pages.dedup();
    let dirty = machine.harvest_space(space).unwrap();
    assert_eq!(dirty.iter().map(|page| *page as u64).collect::<Vec<_>>(), pages);
    // The flags of the available ring say whether the driver is to be interrupted.
    machine.invalidate_all(table).unwrap();
    queue.needs_notification(&memory).unwrap_err();
    assert_eq!(machine.take_miss(), missed(device.avail_ring, 2, Permissions::Read));
    map(Permissions::Read);
    assert!(queue.needs_notification(&memory).unwrap());
}

// ---- errors

#[test]
fn errors_have_texts_and_become_errors_of_io() {
    let rows = [
        (QueueError::InvalidMaxSize, "invalid greatest size of a queue"),
        (QueueError::InvalidSize, "invalid size of a queue"),
        (QueueError::InvalidDescTableAlign, "descriptor table is not aligned"),
        (QueueError::InvalidAvailRingAlign, "available ring is not aligned"),
        (QueueError::InvalidUsedRingAlign, "used ring is not aligned"),
        (QueueError::QueueNotReady, "queue is not ready"),
        (QueueError::AddressOverflow, "address overflow"),
        (QueueError::InvalidAvailRingIndex, "invalid index of the available ring"),
        (QueueError::InvalidDescriptorIndex, "invalid descriptor index"),
        (QueueError::DescriptorLoop, "loop of descriptors"),
        (QueueError::IndirectWithNext, "indirect descriptor with a next one"),
        (QueueError::NestedIndirect, "indirect table inside an indirect table"),
        (QueueError::InvalidIndirectTable, "invalid length of an indirect table"),
        (
            QueueError::InvalidChain(ChainFault::Order),
            "invalid chain: chain order",
        ),
        (
            QueueError::InvalidChain(ChainFault::TooLong),
            "invalid chain: chain too long",
        ),
        (
            QueueError::InvalidChain(ChainFault::Range),
            "invalid chain: chain range",
        ),
        (QueueError::InvalidUsedEntry, "used entry is not in memory"),
        (QueueError::InFlight, "the chain of this head is in flight"),
        (QueueError::TooMany, "too many descriptors in flight"),
        (QueueError::NotInFlight, "no chain of this head is in flight"),
        (
            QueueError::GuestMemory(GuestMemoryError::InvalidGuestAddress(at(16))),
            "Guest memory error: invalid guest address 16",
        ),
        (QueueError::Memory, "out of memory"),
    ];
    for (error, text) in rows {
        assert_eq!((&error as &dyn Error).to_string(), text);
        let kind = match error {
            QueueError::Memory => ErrorKind::OutOfMemory,
            _ => ErrorKind::Other,
        };
        let wrapped = io::Error::from(error);
        assert_eq!((wrapped.kind(), wrapped.to_string()), (kind, text.to_string()));
        assert!(wrapped.get_ref().unwrap().is::<QueueError>());
    }
}

// A chain of each fault that a driver can make, by the order in which they are looked for.
#[test]
fn faults_of_a_driver_are_told() {
    let (machine, memory) = machine_and_memory();
    let memory = machine.memory(memory).unwrap();
    let put = |first: Descriptor, second: Descriptor| {
        let mut driver = Driver::new(memory, BASE, 2);
        driver.put(0, first);
        driver.put(1, second);
        driver.publish(0);
        driver.queue(8).pop_descriptor_chain(&memory).map(drop).unwrap_err()
    };
    let of = |addr, len, flags, next| Descriptor { addr, len, flags, next };
    let last = of(DATA, 1, 0, 0);
    use QueueError::*;
    assert!(matches!(put(of(DATA, 1, NEXT, 2), last), InvalidDescriptorIndex));
    assert!(matches!(put(of(DATA, 1, NEXT, 0), last), DescriptorLoop));
    let table = |len, flags| of(BASE, len, INDIRECT | flags, 1);
    assert!(matches!(put(table(16, NEXT), last), IndirectWithNext));
    for len in [0, 1, 8, 17, 16 * 65_536, u32::MAX] {
        assert!(matches!(put(table(len, 0), last), InvalidIndirectTable));
    }
    // The table of descriptors is an indirect table of its own.
    assert!(matches!(put(table(16, 0), last), NestedIndirect));
    let second = of(BASE + 16, 16, INDIRECT | WRITE, 0);
    assert!(matches!(put(of(DATA, 1, NEXT, 1), second), NestedIndirect));
    let order = put(of(DATA, 1, NEXT | WRITE, 1), last);
    assert!(matches!(order, InvalidChain(ChainFault::Order)));
    let long = put(of(DATA, u32::MAX, NEXT, 1), last);
    assert!(matches!(long, InvalidChain(ChainFault::TooLong)));
    let range = put(of(u64::MAX, 1, 0, 1), last);
    assert!(matches!(range, InvalidChain(ChainFault::Range)));
    assert!(matches!(put(of(u64::MAX - 15, 16, INDIRECT, 0), last), GuestMemory(_)));
    assert!(matches!(put(of(u64::MAX - 14, 16, INDIRECT, 0), last), AddressOverflow));
}

// The example, which `cargo test` builds beside this test.
#[test]
fn the_device_of_the_example_answers() {
    let folder = env::current_exe().unwrap().ancestors().nth(2).unwrap().join("examples");
    let Ok(run) = Command::new(folder.join("device")).output() else {
        println!("left out, as the example is not built");
        return;
    };
    assert_eq!(
        String::from_utf8(run.stdout).unwrap(),
        "the driver reads \"HELLO\"\nit is interrupted: true\n"
    );
    assert!(run.status.success());
}
