//! The log of a front end.

use super::*;
use std::collections::BTreeSet;

/// How far I/O addresses lie after the guest's.
pub const SHIFT: u64 = 0x8000_0000;
/// A bit for each page of the memory.
pub const LOG_LEN: u64 = RAM as u64 / PAGE / 8;
/// Where it begins in its file.
pub const LOG_AT: u64 = 3 * PAGE;

/// A front end with a ring, which reaches it by I/O addresses if it accepts that.
pub fn started(program: &Program, features: u64) -> FrontEnd {
    let mut front = program.connect();
    front.negotiate(features);
    front.set_memory();
    if features & ACCESS_PLATFORM != 0 {
        front.translate(SHIFT);
    }
    front.start_ring(64, 0);
    front
}

/// Shares a log and has writes be marked there, while the ring runs.
pub fn begin(front: &mut FrontEnd, features: u64, len: u64) -> OwnedFd {
    let log = memfd((LOG_AT + len.max(LOG_LEN)) as usize);
    front.send(SET_LOG_BASE, 0, &longs(&[len, LOG_AT]), &[&log]);
    assert!(front.reply(SET_LOG_BASE).is_empty());
    assert!(front.is_done(SET_FEATURES, &(features | LOG_ALL).to_le_bytes(), &[]));
    for index in 0..front.rings.len() {
        let addresses = front.addresses(index, true);
        assert!(front.is_done(SET_VRING_ADDR, &addresses, &[]));
    }
    log
}

/// The pages that are marked, which are cleared.
pub fn taken(log: &OwnedFd) -> BTreeSet<u64> {
    let file = File::from(again(log));
    let mut bytes = vec![0; (file.metadata().unwrap().len() - LOG_AT) as usize];
    file.read_exact_at(&mut bytes, LOG_AT).unwrap();
    file.write_all_at(&vec![0; bytes.len()], LOG_AT).unwrap();
    let is_set = |page: &u64| bytes[(page / 8) as usize] >> (page % 8) & 1 == 1;
    (0..8 * bytes.len() as u64).filter(is_set).collect()
}

/// The pages of these addresses.
pub fn pages(addresses: &[u64]) -> BTreeSet<u64> {
    addresses.iter().map(|address| address / PAGE).collect()
}

/// The pages of the bytes of segments.
pub fn pages_of(segments: &[(usize, usize)]) -> BTreeSet<u64> {
    let of = |&(addr, len): &(usize, usize)| (addr..addr + len).map(|it| it as u64 / PAGE);
    segments.iter().flat_map(of).collect()
}

/// Has a chain at head 1 served. It returns its length and the pages that it marked.
pub fn marked(
    program: &Program,
    front: &mut FrontEnd,
    log: &OwnedFd,
    chain: &[(usize, usize, bool)],
) -> (u32, BTreeSet<u64>) {
    front.put_segments(1, chain);
    front.publish(0, 1);
    front.kick(0);
    let (head, written) = front.take_used(0);
    assert_eq!(head, 1);
    program.rest();
    (written, taken(log))
}

/// Puts the header of such a chain.
pub fn put_header(front: &FrontEnd, kind: u32, sector: u64) {
    front.write(
        HEADERS,
        &[&kind.to_le_bytes()[..], &[0; 4], &sector.to_le_bytes()].concat(),
    );
}

/// A chain with that header, data that are written, and its status.
pub fn chain_of(data: &[(usize, usize)], status: usize) -> Vec<(usize, usize, bool)> {
    let data = data.iter().map(|&(addr, len)| (addr, len, true));
    [(HEADERS, 16, false)]
        .into_iter()
        .chain(data)
        .chain([(status, 1, true)])
        .collect()
}
