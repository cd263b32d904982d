//! Messages on the region of what is in flight: with and without padding, for split and packed rings, and each refusal.

mod front_end;

use front_end::*;
use vm_memory_proved::vhost_user::{Backend, Inflight, Offer, Refusal, Request, MAX_MESSAGE};

const OFFER: Offer = Offer {
    features: PROTOCOL_FEATURES | VERSION_1 | RING_PACKED,
    protocol_features: REPLY_ACK | INFLIGHT_SHMFD,
    queues: 2,
    max_queue_size: 1024,
    writable_from: 0,
    writable_len: 0,
};

// The payload of 24 bytes, as compilers pad it.
fn padded(size: u64, offset: u64, rings: u16, descriptors: u16) -> Vec<u8> {
    [inflight(size, offset, rings, descriptors), vec![0; 4]].concat()
}

// A message that asks for a reply, what comes of it, and the reply.
fn expect(backend: &mut Backend, request: u32, payload: &[u8], outcome: Result<Request, Refusal>, answer: &[u8]) {
    let bytes = message(request, NEED_REPLY, payload);
    let descriptors = usize::from(request == SET_INFLIGHT_FD);
    assert_eq!(backend.handle(&bytes, descriptors), outcome);
    let mut room = [0; MAX_MESSAGE];
    let got = match outcome {
        Ok(_) => backend.reply(&bytes, &mut room),
        Err(_) => backend.refuse(&bytes, &mut room),
    };
    assert_eq!(got, answer);
}

fn region(mmap_size: u64, mmap_offset: u64, num_queues: u16, queue_size: u16) -> Inflight {
    Inflight {
        mmap_size,
        mmap_offset,
        num_queues,
        queue_size,
    }
}

// A connection that can share a region.
fn connected() -> Backend {
    let mut backend = Backend::new(&OFFER, &[]).unwrap();
    let bits = OFFER.protocol_features;
    let bytes = message(SET_PROTOCOL_FEATURES, 0, &longs(&[bits]));
    assert_eq!(backend.handle(&bytes, 0), Ok(Request::SetProtocolFeatures(bits)));
    backend
}

// The same, with packed rings.
fn packed() -> Backend {
    let mut backend = connected();
    let bytes = message(SET_FEATURES, 0, &longs(&[OFFER.features]));
    assert_eq!(backend.handle(&bytes, 0), Ok(Request::SetFeatures(OFFER.features)));
    backend
}

#[test]
fn a_region_for_split_rings_is_asked_for_and_shared() {
    let done = acknowledged(SET_INFLIGHT_FD, 0);
    let mut backend = connected();
    // 16 bytes and 16 for each of 128 descriptors are 2,064, and rounded up by 64 2,112.
    let asked = Ok(Request::GetInflightFd(region(0, 0, 2, 128)));
    let answer = reply(GET_INFLIGHT_FD, &padded(2 * 2112, 0, 2, 128));
    expect(&mut backend, GET_INFLIGHT_FD, &padded(0, 0, 2, 128), asked, &answer);
    // Without padding. Size and offset are the back end's to say.
    let asked = Ok(Request::GetInflightFd(region(7, 9, 1, 1024)));
    let answer = reply(GET_INFLIGHT_FD, &inflight(16448, 0, 1, 1024));
    expect(&mut backend, GET_INFLIGHT_FD, &inflight(7, 9, 1, 1024), asked, &answer);
    let shared = Ok(Request::SetInflightFd(region(8192, 4096, 2, 128)));
    expect(
        &mut backend,
        SET_INFLIGHT_FD,
        &inflight(8192, 4096, 2, 128),
        shared,
        &done,
    );
}

#[test]
fn a_region_for_packed_rings_is_asked_for_and_shared() {
    let mut backend = packed();
    // 32 bytes and 32 for each of 128 descriptors are 4,128, and rounded up by 64 4,160.
    let asked = Ok(Request::GetInflightFd(region(0, 0, 2, 128)));
    let answer = reply(GET_INFLIGHT_FD, &padded(2 * 4160, 0, 2, 128));
    expect(&mut backend, GET_INFLIGHT_FD, &padded(0, 0, 2, 128), asked, &answer);
    // The last place of a file is 2^64 - 2.
    let last = u64::MAX - 8320;
    let shared = Ok(Request::SetInflightFd(region(8320, last, 2, 128)));
    let done = acknowledged(SET_INFLIGHT_FD, 0);
    expect(
        &mut backend,
        SET_INFLIGHT_FD,
        &padded(8320, last, 2, 128),
        shared,
        &done,
    );
}

#[test]
fn each_fault_of_a_region_is_refused_by_its_name() {
    let mut backend = packed();
    let failed = acknowledged(SET_INFLIGHT_FD, 1);
    for (rings, descriptors, refusal) in [
        (0, 128, Refusal::Index),
        (3, 128, Refusal::Index),
        (2, 0, Refusal::QueueSize),
        (2, 1025, Refusal::QueueSize),
    ] {
        let payload = padded(1 << 20, 0, rings, descriptors);
        expect(&mut backend, GET_INFLIGHT_FD, &payload, Err(refusal), &[]);
        expect(&mut backend, SET_INFLIGHT_FD, &payload, Err(refusal), &failed);
    }
    // A byte too few, and one that passes the last place.
    for payload in [padded(8319, 0, 2, 128), padded(8320, u64::MAX - 8319, 2, 128)] {
        expect(
            &mut backend,
            SET_INFLIGHT_FD,
            &payload,
            Err(Refusal::RegionRange),
            &failed,
        );
    }
    let payload = padded(8320, 0, 2, 128);
    for count in [19, 21, 23, 25] {
        let payload = [&payload[..], &[0]].concat()[..count].to_vec();
        expect(
            &mut backend,
            SET_INFLIGHT_FD,
            &payload,
            Err(Refusal::PayloadSize),
            &failed,
        );
        expect(&mut backend, GET_INFLIGHT_FD, &payload, Err(Refusal::PayloadSize), &[]);
    }
    for (request, count) in [(SET_INFLIGHT_FD, 0), (SET_INFLIGHT_FD, 2), (GET_INFLIGHT_FD, 1)] {
        let bytes = message(request, NEED_REPLY, &payload);
        assert_eq!(backend.handle(&bytes, count), Err(Refusal::Descriptors));
    }
}

#[test]
fn a_region_belongs_to_a_feature() {
    let mut backend = Backend::new(&OFFER, &[]).unwrap();
    for request in [GET_INFLIGHT_FD, SET_INFLIGHT_FD] {
        let payload = padded(8320, 0, 2, 128);
        expect(&mut backend, request, &payload, Err(Refusal::NotNegotiated), &[]);
    }
}
