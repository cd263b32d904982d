//! What a queue allocates: nothing in its steady state, and no more than a bound whatever a driver publishes.

mod front_end;
mod guest;
mod ring;

use front_end::*;
use guest::Guest;
use ring::{at, memory_of, Descriptor, Driver, INDIRECT, NEXT};
use std::cell::Cell;
use std::ffi::c_void;
use std::os::fd::{AsFd, OwnedFd};
use vm_memory_proved::back_end::{Action, BackEnd, Disk, PartEnd, Room, State};
use vm_memory_proved::queue::Queue;
use vm_memory_proved::vhost_user::Offer;
use vm_memory_proved::{memfd, GuestMemory, Machine, MemoryId, Permissions};

unsafe extern "C" {
    fn __libc_malloc(size: usize) -> *mut c_void;
    fn __libc_calloc(count: usize, size: usize) -> *mut c_void;
    fn __libc_realloc(at: *mut c_void, size: usize) -> *mut c_void;
    fn __libc_free(at: *mut c_void);
    fn malloc_usable_size(at: *mut c_void) -> usize;
}

// How often a thread asked for memory, and how many bytes it holds: other threads of the test program allocate too.
thread_local! {
    static ASKED: Cell<usize> = const { Cell::new(0) };
    static HELD: Cell<isize> = const { Cell::new(0) };
}

fn size_of(at: *mut c_void) -> isize {
    // SAFETY: it is null, or memory of the C library's allocator.
    unsafe { malloc_usable_size(at) as isize }
}

fn hold(size: isize) {
    HELD.with(|held| held.set(held.get() + size));
}

fn counted(at: *mut c_void) -> *mut c_void {
    ASKED.with(|asked| asked.set(asked.get() + 1));
    hold(size_of(at));
    at
}

// SAFETY: these take the place of the C library's functions, and do what those do.
#[unsafe(no_mangle)]
extern "C" fn malloc(size: usize) -> *mut c_void {
    counted(unsafe { __libc_malloc(size) })
}

#[unsafe(no_mangle)]
extern "C" fn calloc(count: usize, size: usize) -> *mut c_void {
    counted(unsafe { __libc_calloc(count, size) })
}

#[unsafe(no_mangle)]
unsafe extern "C" fn realloc(at: *mut c_void, size: usize) -> *mut c_void {
    hold(-size_of(at));
    counted(unsafe { __libc_realloc(at, size) })
}

#[unsafe(no_mangle)]
unsafe extern "C" fn free(at: *mut c_void) {
    hold(-size_of(at));
    unsafe { __libc_free(at) }
}

const SIZE: u16 = 64;
const DATA: u64 = 0x8000;
const TABLE: u64 = 0x1_0000;
const BYTES: usize = 0x4_0000;

// How many descriptors chains have, one after the other: 48 in a round, so that a packed ring's rounds end anywhere.
const LENGTHS: [u16; 8] = [3, 1, 12, 2, 3, 17, 3, 7];

// The same memory, plain or behind an IOMMU that leads each page to itself.
fn memories(machine: &Machine) -> [MemoryId; 2] {
    let block = machine.block(BYTES, 0x1000).unwrap();
    let region = machine.region(block, at(0)).unwrap();
    let layout = machine.layout(&[region]).unwrap();
    let table = machine.table(None).unwrap();
    machine
        .set_mapping(table, at(0), at(0), BYTES, Permissions::ReadWrite)
        .unwrap();
    let translator = machine.translator(table).unwrap();
    let space = machine.space(0x1000, 0x1000).unwrap();
    [
        machine.plain(layout).unwrap(),
        machine.new_memory(layout, translator, space, true).unwrap(),
    ]
}

// Publishes chains of these lengths in a split ring, a round at a time.
fn publish_split(driver: &mut Driver<'_>) {
    let mut head = 0;
    for len in LENGTHS {
        let segments = vec![(DATA, 1, false); len.into()];
        driver.put_chain(head, &segments);
        driver.publish(head);
        head += len;
    }
}

// The same in a packed ring, whose next slot and wrap counter these are.
fn publish_packed(memory: &GuestMemory<'_>, place: &mut (u16, bool)) {
    for (id, len) in (0..).zip(LENGTHS) {
        for i in 0..len {
            let (slot, wrap) = *place;
            let available = if wrap { 0x80 } else { 0x8000 };
            let descriptor = Descriptor {
                addr: DATA,
                len: 1,
                flags: available | if i + 1 < len { NEXT } else { 0 },
                // The id of a packed descriptor stands before its flags.
                next: 0,
            };
            let mut bytes = descriptor.bytes();
            let flags = [bytes[12], bytes[13]];
            bytes[12..14].copy_from_slice(&u16::to_le_bytes(id));
            bytes[14..].copy_from_slice(&flags);
            memory.write_slice(&bytes, at(16 * u64::from(slot))).unwrap();
            *place = if slot + 1 == SIZE { (0, !wrap) } else { (slot + 1, wrap) };
        }
    }
}

// Pops all chains of a round, then returns them, the last one first.
fn serve(queue: &Queue<'_>, memory: &GuestMemory<'_>) {
    let mut heads = [0; LENGTHS.len()];
    for (head, len) in heads.iter_mut().zip(LENGTHS) {
        let chain = queue.pop_descriptor_chain(memory).unwrap().unwrap();
        assert_eq!(chain.readable_len(), usize::from(len));
        *head = chain.head_index();
    }
    assert!(queue.pop_descriptor_chain(memory).unwrap().is_none());
    for head in heads.iter().rev() {
        queue.add_used(memory, *head, 0).unwrap();
    }
}

// How often a call asks for memory.
fn asked(call: impl FnOnce()) -> usize {
    let before = ASKED.get();
    call();
    ASKED.get() - before
}

// Serves rounds until the lists are as long as the longest chain, and then two thousand that allocate nothing.
fn expect_steady(queue: &Queue<'_>, memory: &GuestMemory<'_>, mut publish: impl FnMut()) {
    publish();
    assert!(asked(|| serve(queue, memory)) > 0);
    for _ in 0..LENGTHS.len() {
        publish();
        serve(queue, memory);
    }
    for round in 0..2_000 {
        publish();
        assert_eq!(asked(|| serve(queue, memory)), 0, "round {round}");
    }
}

#[test]
fn queues_in_their_steady_state_allocate_nothing() {
    let machine = Machine::new().unwrap();
    for id in memories(&machine) {
        let memory = machine.memory(id).unwrap();
        let mut driver = Driver::new(memory, 0, SIZE);
        let queue = driver.queue(1024);
        expect_steady(&queue, &memory, || publish_split(&mut driver));
        let queue = machine.packed_queue(SIZE, 1024).unwrap();
        set_up_packed(&queue);
        memory.write_slice(&[0; 16 * SIZE as usize], at(0)).unwrap();
        let mut place = (0, true);
        expect_steady(&queue, &memory, || publish_packed(&memory, &mut place));
    }
}

// A reset drops the chains in flight: what they held counts no more.
#[test]
fn queues_that_were_reset_allocate_nothing_later() {
    let machine = Machine::new().unwrap();
    let memory = machine.memory(memory_of(&machine, 0, BYTES)).unwrap();
    let mut driver = Driver::new(memory, 0, SIZE);
    let queue = driver.queue(1024);
    for _ in 0..200 {
        publish_split(&mut driver);
        while queue.pop_descriptor_chain(&memory).unwrap().is_some() {}
        driver.set_up(&queue);
        driver.next_avail = 0;
        driver.set_word(driver.avail_ring + 2, 0);
        driver.set_word(driver.used_ring + 2, 0);
    }
    driver.next_used = 0;
    expect_steady(&queue, &memory, || publish_split(&mut driver));
}

fn set_up_packed(queue: &Queue<'_>) {
    queue.set_size(SIZE).unwrap();
    queue.try_set_desc_table_address(at(0)).unwrap();
    queue.try_set_avail_ring_address(at(0x4000)).unwrap();
    queue.try_set_used_ring_address(at(0x5000)).unwrap();
    queue.set_ready(true);
}

// A driver has short chains take the lists of long ones, and keeps the short ones in flight.
#[test]
fn what_lists_take_is_bounded() {
    const LONG: u16 = 2000;
    let machine = Machine::new().unwrap();
    let memory = machine.memory(memory_of(&machine, 0, BYTES)).unwrap();
    let mut driver = Driver::new(memory, 0, SIZE);
    let most = usize::from(LONG) + usize::from(SIZE);
    let queue = driver.queue(most);
    for index in 0..LONG {
        let descriptor = Descriptor {
            addr: DATA,
            len: 1,
            flags: if index + 1 < LONG { NEXT } else { 0 },
            next: index + 1,
        };
        memory
            .write_slice(&descriptor.bytes(), at(TABLE + 16 * u64::from(index)))
            .unwrap();
    }
    let indirect = Descriptor {
        addr: TABLE,
        len: 16 * u32::from(LONG),
        flags: INDIRECT,
        next: 0,
    };
    driver.put(0, indirect);
    let before = HELD.get();
    for head in 1..SIZE {
        driver.put_chain(head, &[(DATA, 1, false)]);
        driver.publish(0);
        driver.publish(head);
        let long = queue.pop_descriptor_chain(&memory).unwrap().unwrap();
        assert_eq!(long.readable_len(), LONG.into());
        queue.add_used(&memory, 0, 0).unwrap();
        assert_eq!(queue.pop_descriptor_chain(&memory).unwrap().unwrap().head_index(), head);
    }
    // Each short one would hold the list of a long one: 63 of 2,048 segments.
    let held = usize::try_from(HELD.get() - before).unwrap();
    assert!(held <= 24 * (4 * most + 2 * 4096), "{held} bytes");
}

// ---- a back end's

const USER: u64 = 0x7f00_0000_0000;
const AVAIL: u64 = 0x4000;
const USED: u64 = 0x5000;
const HEADERS: u64 = 0x6000;

// Tells a back end a message, and does what that asks for.
fn tell(back_end: &mut BackEnd, room: &mut Room, file: &OwnedFd, request: u32, payload: &[u8], descriptors: usize) {
    assert!(back_end.message(&message(request, 0, payload), descriptors));
    for _ in 0..4 {
        back_end.run(&[], 1, room);
        for action in room.actions() {
            match action {
                Action::Map(region) => back_end.map(&region, file.as_fd()).unwrap(),
                Action::Keep { .. } => back_end.done(),
                Action::UnmapAll | Action::Interrupt(0) => (),
                other => panic!("{other:?}"),
            }
        }
    }
    assert_eq!(room.state(), State::Free);
}

// A back end with a ring in the file, which is its guest's memory.
fn back_end_on(file: &OwnedFd, room: &mut Room) -> BackEnd {
    let offer = Offer {
        features: VERSION_1,
        queues: 1,
        max_queue_size: SIZE.into(),
        ..Offer::default()
    };
    let disk = Disk {
        sectors: 64,
        unread: 4096,
        ..Disk::default()
    };
    let mut back_end = BackEnd::new(&offer, &[0; 8], &disk).unwrap();
    let parts = [USER, USER + USED, USER + AVAIL, 0];
    for (request, payload, descriptors) in [
        (SET_OWNER, Vec::new(), 0),
        (SET_FEATURES, longs(&[VERSION_1]), 0),
        (SET_MEM_TABLE, table(&[[0, BYTES as u64, USER, 0]]), 1),
        (SET_VRING_NUM, words(&[0, SIZE.into()]), 0),
        (SET_VRING_BASE, words(&[0, 0]), 0),
        (SET_VRING_ADDR, addresses(0, 0, parts), 0),
        (SET_VRING_CALL, longs(&[0]), 1),
        (SET_VRING_KICK, longs(&[0]), 1),
    ] {
        tell(&mut back_end, room, file, request, &payload, descriptors);
    }
    back_end
}

// Publishes reads of the disk in chains of these lengths and two more, a round at a time.
fn publish_reads(guest: &Guest, index: &mut u16) {
    let mut head = 0;
    for len in LENGTHS {
        for i in 0..len + 2 {
            let (addr, len, flags) = match i {
                0 => (HEADERS, 16, NEXT),
                i if i == len + 1 => (HEADERS + 16, 1, 2),
                _ => (DATA, 512, NEXT | 2),
            };
            let next = head + i + 1;
            let descriptor = Descriptor { addr, len, flags, next };
            guest.write(16 * usize::from(head + i), &descriptor.bytes());
        }
        let entry = AVAIL as usize + 4 + 2 * usize::from(*index % SIZE);
        guest.write(entry, &head.to_le_bytes());
        *index = index.wrapping_add(1);
        head += len + 2;
    }
    guest.write(AVAIL as usize + 2, &index.to_le_bytes());
}

// Has a back end serve all that is published. Data stay as they are.
fn serve_reads(back_end: &mut BackEnd, room: &mut Room, ends: &mut Vec<PartEnd>) {
    back_end.kick(0);
    loop {
        back_end.run(ends, 2, room);
        ends.drain(..room.ends_taken());
        for action in room.actions() {
            match action {
                Action::Serve(part) => ends.push(PartEnd {
                    ring: part.ring,
                    id: part.id,
                    failed: 0,
                    bytes: part.len as u32,
                }),
                Action::Interrupt(0) => (),
                other => panic!("{other:?}"),
            }
        }
        if ends.is_empty() && !room.has_more() {
            return;
        }
    }
}

#[test]
fn back_ends_in_their_steady_state_allocate_nothing() {
    let file = memfd(BYTES as u64).unwrap();
    let guest = Guest::of_file(&file, BYTES);
    let (mut room, mut ends) = (Room::new(), Vec::with_capacity(usize::from(SIZE)));
    let mut back_end = back_end_on(&file, &mut room);
    let mut index = 0;
    let mut round = || {
        publish_reads(&guest, &mut index);
        guest.write(HEADERS as usize + 16, &[0xff]);
        let count = asked(|| serve_reads(&mut back_end, &mut room, &mut ends));
        assert_eq!(guest.read(USED as usize + 2, 2), index.to_le_bytes());
        assert_eq!(guest.read(HEADERS as usize + 16, 1), [0]);
        count
    };
    assert!(round() > 0);
    for _ in 0..LENGTHS.len() {
        round();
    }
    for number in 0..2_000 {
        assert_eq!(round(), 0, "round {number}");
    }
}
