//! Changed messages of a vhost-user front end, and streams of them, beside a slow reading of the protocol.

mod front_end;
mod ring;

use front_end::*;
use ring::Numbers;
use std::fs;
use vm_memory_proved::vhost_user::{wanted, Backend, Offer, Refusal, Request, MAX_MESSAGE};

// Of each connection a part is offered.
const FEATURES: u64 = FLUSH | LOG_ALL | INDIRECT_DESC | EVENT_IDX | PROTOCOL_FEATURES | VERSION_1 | ACCESS_PLATFORM;
const PROTOCOL: u64 = MQ | LOG_SHMFD | REPLY_ACK | BACKEND_REQ | CONFIG | INFLIGHT_SHMFD;

// How many bytes of configuration there are.
const CONFIGURATION: usize = 36;

// Where the front end has its memory.
const USER: u64 = 0x7f00_0000_0000;

// As many messages as are made.
const MESSAGES: usize = 1_000_000;

const REQUESTS: [u32; 24] = [
    GET_FEATURES,
    SET_FEATURES,
    SET_OWNER,
    RESET_OWNER,
    SET_MEM_TABLE,
    SET_LOG_BASE,
    SET_LOG_FD,
    SET_VRING_NUM,
    SET_VRING_ADDR,
    SET_VRING_BASE,
    GET_VRING_BASE,
    SET_VRING_KICK,
    SET_VRING_CALL,
    SET_VRING_ERR,
    GET_PROTOCOL_FEATURES,
    SET_PROTOCOL_FEATURES,
    GET_QUEUE_NUM,
    SET_VRING_ENABLE,
    SET_BACKEND_REQ_FD,
    IOTLB_MSG,
    GET_CONFIG,
    SET_CONFIG,
    GET_INFLIGHT_FD,
    SET_INFLIGHT_FD,
];

fn one_of<T: Copy>(numbers: &mut Numbers, all: &[T]) -> T {
    all[numbers.below(all.len() as u64) as usize]
}

// Some of these bits, mostly most of them.
fn bits_of(numbers: &mut Numbers, bits: u64) -> u64 {
    match numbers.below(4) {
        0 => bits & numbers.any(),
        1 => bits & (numbers.any() | numbers.any() | numbers.any()),
        _ => bits,
    }
}

// An address, mostly where memory is.
fn address(numbers: &mut Numbers, step: u64) -> u64 {
    match numbers.below(60) {
        0 => numbers.any(),
        1 => u64::MAX - numbers.below(0x4000),
        2 => USER + numbers.below(0x2_0000),
        _ => USER + step * numbers.below(0x1_0000 / step),
    }
}

// The payload of a request that may be right, and how many descriptors come with it.
fn payload(numbers: &mut Numbers, request: u32, offer: &Offer) -> (Vec<u8>, usize) {
    let ring = match numbers.below(30) {
        0 => numbers.below(300) as u32,
        1..=5 => offer.queues - 1,
        _ => 0,
    };
    match request {
        SET_FEATURES => (longs(&[bits_of(numbers, offer.features)]), 0),
        SET_PROTOCOL_FEATURES => (longs(&[bits_of(numbers, offer.protocol_features)]), 0),
        SET_MEM_TABLE => {
            let count = numbers.below(9) as usize;
            let mut regions = Vec::new();
            for place in 0..count as u64 {
                // Regions of 64 KiB one after the other, some of which share an address or are none.
                let guest = 0x1_0000 * place - if place > 0 && numbers.one_in(40) { 1 } else { 0 };
                let size = one_of(numbers, &[0x1_0000; 30]) - numbers.below(20) / 19 * 0x1_0000;
                let user = USER + 0x1_0000 * place;
                let offset = if numbers.one_in(60) { numbers.any() } else { guest };
                regions.push([guest, size, user, offset]);
            }
            (table(&regions), count)
        }
        SET_LOG_BASE => (longs(&[numbers.any(), numbers.any()]), 1),
        SET_LOG_FD | SET_BACKEND_REQ_FD => (Vec::new(), 1),
        SET_VRING_NUM => (
            words(&[ring, one_of(numbers, &[1, 2, 16, 64, 128, 200, 256, 1024, 1025, 0])]),
            0,
        ),
        SET_VRING_BASE => (words(&[ring, one_of(numbers, &[0, 1, 0xffff, 0x1_0000, u32::MAX])]), 0),
        GET_VRING_BASE => (words(&[ring, 0]), 0),
        SET_VRING_ENABLE => (words(&[ring, one_of(numbers, &[1, 1, 1, 1, 1, 1, 1, 1, 0, 2])]), 0),
        SET_VRING_ADDR => {
            let parts = [16, 4, 2, 1].map(|step| address(numbers, step));
            (
                addresses(ring, one_of(numbers, &[0, 0, 0, 0, 0, 0, 1, 1, 1, 2]), parts),
                0,
            )
        }
        SET_VRING_KICK | SET_VRING_CALL | SET_VRING_ERR => {
            let none = one_of(numbers, &[0, 0, NO_DESCRIPTOR]);
            (longs(&[u64::from(ring & 255) | none]), usize::from(none == 0))
        }
        IOTLB_MSG => {
            let size = one_of(numbers, &[0x1000, 0x1000, 0x1000, 0, u64::MAX]);
            let (permissions, kind) = (
                one_of(numbers, &[1, 2, 3, 3, 0, 4]),
                one_of(numbers, &[2, 2, 3, 3, 1, 4, 0]),
            );
            (iotlb(address(numbers, 0x1000), size, USER, permissions, kind), 0)
        }
        GET_CONFIG | SET_CONFIG => {
            let (offset, flags) = (numbers.below(40) as u32, one_of(numbers, &[0, 0, 0, 1, 2]));
            let bytes: Vec<u8> = (0..numbers.below(36)).map(|_| numbers.any() as u8).collect();
            (config(offset, flags, &bytes), 0)
        }
        GET_INFLIGHT_FD | SET_INFLIGHT_FD => {
            let (rings, size) = (
                one_of(numbers, &[1, 1, 1, 2, 0]),
                one_of(numbers, &[16, 128, 1024, 0, 1025]),
            );
            let len = one_of(numbers, &[320, 576, 2112, 4160, 8320, 16448, 65600, u64::MAX]);
            let offset = one_of(numbers, &[0, 0, 0, 4096, u64::MAX - 320]);
            let mut bytes = inflight(len - one_of(numbers, &[0, 0, 0, 1]), offset, rings, size);
            bytes.resize(one_of(numbers, &[20, 24, 24, 24, 22]), numbers.any() as u8);
            (bytes, usize::from(request == SET_INFLIGHT_FD))
        }
        _ => (Vec::new(), 0),
    }
}

// A message, changed or not, and how many descriptors come with it.
fn any_message(numbers: &mut Numbers, request: u32, offer: &Offer) -> (Vec<u8>, usize) {
    let (payload, mut descriptors) = payload(numbers, request, offer);
    let mut bytes = message(request, one_of(numbers, &[0, NEED_REPLY]), &payload);
    if numbers.one_in(6) {
        match numbers.below(6) {
            0 => descriptors = numbers.below(9) as usize,
            1 => bytes.truncate(numbers.below(bytes.len() as u64 + 1) as usize),
            2 => (0..numbers.below(40)).for_each(|_| bytes.push(numbers.any() as u8)),
            _ => {
                let place = numbers.below(bytes.len() as u64) as usize;
                bytes[place] ^= 1 << numbers.below(8);
            }
        }
    }
    (bytes, descriptors)
}

// How often what came, so that the test can tell that all of it did.
#[derive(Default)]
struct Seen {
    messages: usize,
    done: usize,
    running: usize,
    refusals: Vec<Refusal>,
}

impl Seen {
    fn refused(&mut self, refusal: Refusal) {
        if !self.refusals.contains(&refusal) {
            self.refusals.push(refusal);
        }
    }
}

// Whether the library says what the slow reading does: it refuses a message just if a rule is broken, and names one.
fn same<T: PartialEq + std::fmt::Debug>(got: Result<T, Refusal>, slow: Result<T, Vec<Refusal>>, seen: &mut Seen) {
    match (&got, &slow) {
        (Ok(got), Ok(slow)) => assert_eq!(got, slow),
        (Err(got), Err(slow)) if slow.contains(got) => seen.refused(*got),
        _ => panic!("{got:?}, not {slow:?}"),
    }
}

// Has both take a message, and compares all that can be asked afterwards.
fn take_both(numbers: &mut Numbers, both: (&mut Backend, &mut Slow), bytes: &[u8], count: usize, seen: &mut Seen) {
    let (backend, slow) = both;
    seen.messages += 1;
    let broken = slow.broken(bytes, count);
    let got = backend.handle(bytes, count);
    let asked = if broken.is_empty() {
        Ok(slow.take(bytes, count))
    } else {
        Err(broken)
    };
    let stops = match asked {
        Ok(Request::GetVringBase { index }) => Some(index),
        _ if numbers.one_in(50) => Some(numbers.below(3) as u32),
        _ => None,
    };
    let is_done = asked.is_ok();
    same(got, asked, seen);
    seen.done += usize::from(is_done);
    if let Some(index) = stops {
        let base = numbers.below(1 << 16) as u32;
        assert_eq!(backend.stop(index, base), slow.stop(index, base));
    }
    let mut room = [0; MAX_MESSAGE];
    // What a front end asks for may also fail in the program.
    let is_done = is_done && !numbers.one_in(20);
    let reply = if is_done {
        backend.reply(bytes, &mut room)
    } else {
        backend.refuse(bytes, &mut room)
    };
    assert_eq!(reply, slow.reply(bytes, is_done));
    assert_eq!(
        (backend.features(), backend.protocol_features()),
        (slow.features, slow.protocol_features)
    );
    for index in 0..3 {
        let running = backend.running(index);
        seen.running += usize::from(running.is_ok());
        same(running, slow.running(index), seen);
    }
    if numbers.one_in(4) {
        assert_eq!(backend.regions(), slow.regions);
        assert_eq!(
            (backend.config(), backend.is_owned()),
            (slow.config.clone(), slow.is_owned)
        );
    }
}

// Feeds a stream in pieces of the length that is wanted, as a program does, until a message's end is not known.
fn feed_both(numbers: &mut Numbers, both: (&mut Backend, &mut Slow), stream: &[u8], counts: &[usize], seen: &mut Seen) {
    let (backend, slow) = both;
    let (mut begin, mut end) = (0, 0);
    let mut counts = counts.iter();
    loop {
        let got = wanted(&stream[begin..end]);
        same(got, front_end::wanted(&stream[begin..end]), seen);
        let Ok(wanted) = got else {
            return;
        };
        if wanted.bytes == 0 {
            let count = counts.next().copied().unwrap_or(0);
            take_both(numbers, (backend, slow), &stream[begin..end], count, seen);
            begin = end;
        } else if end == stream.len() {
            return;
        } else {
            end += 1 + numbers.below(wanted.bytes.min(stream.len() - end) as u64) as usize;
        }
    }
}

// The requests of a connection: as a front end makes them, with some others between them, or any.
fn requests(numbers: &mut Numbers) -> Vec<u32> {
    let mut all = Vec::new();
    if !numbers.one_in(5) {
        all.extend([
            SET_PROTOCOL_FEATURES,
            SET_FEATURES,
            SET_MEM_TABLE,
            SET_VRING_NUM,
            SET_VRING_BASE,
        ]);
        all.extend([SET_VRING_ADDR, SET_VRING_CALL, SET_VRING_KICK, SET_VRING_ENABLE]);
    }
    for _ in 0..30 {
        let place = numbers.below(all.len() as u64 + 1) as usize;
        all.insert(place, one_of(numbers, &REQUESTS));
    }
    all
}

// The pages of memory of this process.
fn resident() -> usize {
    let words = fs::read_to_string("/proc/self/statm").unwrap();
    words.split(' ').nth(1).unwrap().parse().unwrap()
}

#[test]
fn changed_messages_are_what_a_slow_reading_says() {
    let numbers = &mut Numbers(0x9e37_79b9_7f4a_7c15);
    let mut seen = Seen::default();
    let (mut early, mut next) = (0, MESSAGES / 10);
    while seen.messages < MESSAGES {
        let offer = Offer {
            features: bits_of(numbers, FEATURES | RING_PACKED),
            protocol_features: bits_of(numbers, PROTOCOL),
            queues: 1 + numbers.below(2) as u32,
            max_queue_size: 1024,
            writable_from: 32,
            writable_len: numbers.below(4) as u32,
        };
        let configuration: Vec<u8> = (0..CONFIGURATION).map(|_| numbers.any() as u8).collect();
        let (mut backend, mut slow) = (
            Backend::new(&offer, &configuration).unwrap(),
            Slow::new(&offer, &configuration),
        );
        let messages: Vec<_> = requests(numbers)
            .into_iter()
            .map(|request| any_message(numbers, request, &offer))
            .collect();
        if numbers.one_in(4) {
            let stream: Vec<u8> = messages.iter().flat_map(|(bytes, _)| bytes.clone()).collect();
            let counts: Vec<usize> = messages.iter().map(|(_, count)| *count).collect();
            feed_both(numbers, (&mut backend, &mut slow), &stream, &counts, &mut seen);
        } else {
            for (bytes, count) in &messages {
                take_both(numbers, (&mut backend, &mut slow), bytes, *count, &mut seen);
            }
        }
        if seen.messages >= next && early == 0 {
            (early, next) = (resident(), MESSAGES);
        }
    }
    let grown = resident().saturating_sub(early);
    assert!(grown < 256, "{grown} pages more of memory");
    // Enough of them are right that rings run, and each refusal of a message or a ring comes.
    assert!(seen.done > MESSAGES / 4, "{} messages were done", seen.done);
    assert!(seen.running > MESSAGES / 25, "{} times a ring ran", seen.running);
    let all = [
        Refusal::Header,
        Refusal::Version,
        Refusal::Direction,
        Refusal::Request,
        Refusal::PayloadSize,
        Refusal::Descriptors,
        Refusal::NotNegotiated,
        Refusal::Features,
        Refusal::Index,
        Refusal::QueueSize,
        Refusal::Base,
        Refusal::Flags,
        Refusal::Alignment,
        Refusal::Started,
        Refusal::RegionRange,
        Refusal::RegionOverlap,
        Refusal::ConfigRange,
        Refusal::ConfigReadOnly,
        Refusal::IotlbKind,
        Refusal::IotlbEmptyRange,
        Refusal::IotlbRange,
        Refusal::IotlbPermissions,
        Refusal::Stopped,
        Refusal::Disabled,
        Refusal::NoSize,
        Refusal::NoAddress,
        Refusal::UserAddress,
    ];
    let missing: Vec<_> = all.iter().filter(|it| !seen.refusals.contains(it)).collect();
    assert!(missing.is_empty(), "{missing:?} did not come");
    println!(
        "{} messages, {} done, {} times a ring ran",
        seen.messages, seen.done, seen.running
    );
}
