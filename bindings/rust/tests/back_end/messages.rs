//! Messages of a front end: tables of memory, and what rings, features and the log are changed by.

use super::driver::{Driver, FILE, PAGE, PARTS};
use super::space::Space;
use crate::front_end::*;
use crate::ring::Numbers;

/// Where a file lies in the front end's own memory.
pub const USER: u64 = 0x7f00_0000_0000;

/// What is offered, and of the protocol.
pub const FEATURES: u64 = FLUSH
    | BLK_MQ
    | LOG_ALL
    | INDIRECT_DESC
    | EVENT_IDX
    | PROTOCOL_FEATURES
    | VERSION_1
    | RING_PACKED
    | 1 << 1
    | 1 << 2;
pub const OF_PROTOCOL: u64 = MQ | LOG_SHMFD | REPLY_ACK | BACKEND_REQ | CONFIG;

/// A message, and how many descriptors come with it.
pub type Sent = (Vec<u8>, usize);

pub fn user_address(file: usize, offset: u64) -> u64 {
    USER + 0x100_0000 * file as u64 + offset
}

/// A table that has parts of both files at any addresses.
pub fn any_table(numbers: &mut Numbers) -> (Vec<u8>, usize) {
    let pages = FILE / PAGE;
    let mut parts = Vec::new();
    for file in 0..2 {
        if numbers.one_in(40) {
            continue;
        }
        let cut = if numbers.one_in(3) {
            1 + numbers.below(pages - 1)
        } else {
            pages
        };
        parts.push((file, 0, cut));
        if cut < pages && !numbers.one_in(8) {
            parts.push((file, cut, pages - cut));
        }
    }
    // Each begins at a place of its own, next to the one before it or not.
    let mut rows = Vec::new();
    let mut at = numbers.below(3);
    while !parts.is_empty() {
        let (file, from, count) = parts.swap_remove(numbers.below(parts.len() as u64) as usize);
        rows.push([PAGE * at, PAGE * count, user_address(file, PAGE * from), PAGE * from]);
        at += count + if numbers.one_in(2) { 0 } else { numbers.below(40) };
    }
    if numbers.one_in(2) {
        rows.reverse();
    }
    let count = rows.len();
    (table(&rows), count)
}

/// Where a ring lies, for a SET_VRING_ADDR. Behind an IOMMU its writes are mostly logged where they are made.
pub fn ring_addresses(numbers: &mut Numbers, index: u32, driver: &Driver, space: &Space, is_logged: bool) -> Vec<u8> {
    let place = |part| match space.is_on {
        true => space.iova(driver.file, driver.base + part),
        false => user_address(driver.file, driver.base + part),
    };
    let [desc, avail, used] = PARTS.map(place);
    let (file, offset) = driver.spare;
    let log = match space.is_on {
        true if numbers.one_in(6) => space.iova(file, offset + PAGE / 2 * u64::from(index) + numbers.below(0x300)),
        true => used,
        false => 0,
    };
    addresses(index, is_logged.into(), [desc, used, avail, log])
}

// A log, which sometimes is too small.
fn any_log(numbers: &mut Numbers) -> Vec<u8> {
    let size = if numbers.one_in(12) { 1 + numbers.below(3) } else { 4096 };
    longs(&[size, 0])
}

/// A message to change something that may be changed at any time.
pub fn any_message(numbers: &mut Numbers, drivers: &[Driver; 2], space: &Space, features: u64) -> Sent {
    let index = numbers.below(2);
    let ring = u64::to_le_bytes(index);
    let without = u64::to_le_bytes(index | NO_DESCRIPTOR);
    let two = |number: u32| words(&[index as u32, number]);
    let asks = if numbers.one_in(2) { NEED_REPLY } else { 0 };
    let of = |request, payload: &[u8], descriptors| (message(request, asks, payload), descriptors);
    match numbers.below(200) {
        0..=39 => {
            let (table, count) = any_table(numbers);
            of(SET_MEM_TABLE, &table, count)
        }
        40..=69 => of(SET_VRING_ENABLE, &two(numbers.below(2) as u32), 0),
        70..=99 => of(SET_FEATURES, &u64::to_le_bytes(features ^ LOG_ALL), 0),
        100..=114 => of(SET_LOG_BASE, &any_log(numbers), 1),
        115..=119 => of(SET_LOG_FD, &[], 1),
        120..=134 => of(SET_VRING_CALL, &ring, 1),
        135..=139 => of(SET_VRING_CALL, &without, 0),
        140..=144 => of(SET_VRING_ERR, &ring, 1),
        145..=149 => of(SET_VRING_KICK, &ring, 1),
        150..=152 => of(SET_VRING_KICK, &without, 0),
        153..=159 => {
            let is_logged = numbers.one_in(2);
            let addresses = ring_addresses(numbers, index as u32, &drivers[index as usize], space, is_logged);
            of(SET_VRING_ADDR, &addresses, 0)
        }
        160..=163 => of(GET_CONFIG, &config(numbers.below(200) as u32, 0, &[0; 8]), 0),
        164..=167 => of(SET_CONFIG, &config(numbers.below(200) as u32, 1, &[7; 8]), 0),
        168..=171 => of(GET_FEATURES, &[], 0),
        172..=175 => of(GET_PROTOCOL_FEATURES, &[], 0),
        176..=179 => of(GET_QUEUE_NUM, &[], 0),
        180..=183 => of(SET_BACKEND_REQ_FD, &[], 1),
        184..=187 => of(SET_OWNER, &[], 0),
        188..=191 => of(RESET_OWNER, &[], 0),
        192..=197 => of(SET_PROTOCOL_FEATURES, &u64::to_le_bytes(OF_PROTOCOL), 0),
        _ => wrong_message(numbers, of),
    }
}

// A message that is mostly refused.
fn wrong_message(numbers: &mut Numbers, of: impl Fn(u32, &[u8], usize) -> Sent) -> Sent {
    let two = |index: u32, number: u32| words(&[index, number]);
    match numbers.below(12) {
        0 => of(SET_VRING_NUM, &two(0, 8), 0),
        1 => of(SET_VRING_BASE, &two(1, 8), 0),
        2 => of(SET_FEATURES, &u64::to_le_bytes(1 << 40), 0),
        3 => of(SET_FEATURES, &u64::to_le_bytes(VERSION_1), 0),
        4 => of(SET_MEM_TABLE, &table(&[[0, PAGE, USER, 0], [0x800, PAGE, USER, 0]]), 2),
        5 => of(SET_MEM_TABLE, &table(&[[0, PAGE, USER, 0]]), 0),
        6 => of(GET_VRING_BASE, &two(2, 0), 0),
        7 => of(SET_VRING_ENABLE, &two(0, 2), 0),
        8 => of(GET_CONFIG, &config(300, 0, &[0; 8]), 0),
        9 => of(99, &[], 0),
        10 => of(IOTLB_MSG, &iotlb(0, PAGE, USER, 3, 2), 0),
        _ => of(SET_VRING_ADDR, &addresses(0, 0, [USER, USER, USER, 0]), 0),
    }
}

/// The messages by which a front end sets up a connection, before its rings.
pub fn begin(numbers: &mut Numbers, features: u64) -> Vec<Sent> {
    let (table, count) = any_table(numbers);
    let has_channel = features & ACCESS_PLATFORM != 0 && !numbers.one_in(20);
    let of = |request, payload: &[u8], descriptors| (message(request, 0, payload), descriptors);
    let mut all = vec![
        of(GET_FEATURES, &[], 0),
        of(SET_OWNER, &[], 0),
        of(GET_PROTOCOL_FEATURES, &[], 0),
        of(SET_PROTOCOL_FEATURES, &u64::to_le_bytes(OF_PROTOCOL), 0),
        of(SET_LOG_BASE, &longs(&[4096, 0]), 1),
        of(SET_FEATURES, &u64::to_le_bytes(features), 0),
        of(SET_MEM_TABLE, &table, count),
    ];
    if has_channel {
        all.push(of(SET_BACKEND_REQ_FD, &[], 1));
    }
    all
}

/// The messages by which a ring is started from a base on.
pub fn start(numbers: &mut Numbers, index: u32, driver: &Driver, space: &Space, base: u32, features: u64) -> Vec<Sent> {
    let asks = if numbers.one_in(2) { NEED_REPLY } else { 0 };
    let of = |request, payload: &[u8], descriptors| (message(request, asks, payload), descriptors);
    let ring = u64::from(index).to_le_bytes();
    let two = |number: u32| words(&[index, number]);
    // The features are mostly left as they are.
    let first = numbers
        .one_in(4)
        .then(|| of(SET_FEATURES, &u64::to_le_bytes(features), 0));
    let addresses = ring_addresses(numbers, index, driver, space, true);
    let others = [
        of(SET_VRING_NUM, &two(driver.size.into()), 0),
        of(SET_VRING_BASE, &two(base), 0),
        of(SET_VRING_ADDR, &addresses, 0),
        of(SET_VRING_CALL, &ring, 1),
        of(SET_VRING_ERR, &ring, 1),
        of(SET_VRING_KICK, &ring, 1),
        of(SET_VRING_ENABLE, &two(1), 0),
    ];
    first.into_iter().chain(others).collect()
}
