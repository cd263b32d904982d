//! A back end's side of the vhost-user protocol: what QEMU sends, and each refusal.

mod front_end;

use front_end::*;
use std::fs;
use std::path::Path;
use vm_memory_proved::vhost_user::{
    access_fail, answered, miss, Backend, ConfigSpace, LogPages, Notifier, Offer, Refusal, Region, Request, Vring,
    ANSWER_LEN, MAX_CONFIG, MAX_MESSAGE,
};
use vm_memory_proved::Permissions;

// What a device offers whose disk has a write cache that a driver may turn off: the byte 32 of its configuration.
const OFFER: Offer = Offer {
    features: FLUSH | LOG_ALL | INDIRECT_DESC | EVENT_IDX | PROTOCOL_FEATURES | VERSION_1 | ACCESS_PLATFORM,
    protocol_features: MQ | LOG_SHMFD | REPLY_ACK | BACKEND_REQ | CONFIG,
    queues: 2,
    max_queue_size: 1024,
    writable_from: 32,
    writable_len: 1,
};

// The features that QEMU accepts without an IOMMU.
const ACCEPTED: u64 = FLUSH | INDIRECT_DESC | EVENT_IDX | PROTOCOL_FEATURES | VERSION_1;

// Where QEMU has the guest's memory.
const USER: u64 = 0x7f00_0000_0000;

// A disk of 2,048 sectors with two queues.
fn configuration() -> [u8; 36] {
    let mut bytes = [0; 36];
    bytes[1] = 8;
    (bytes[32], bytes[34]) = (1, 2);
    bytes
}

fn backend() -> Backend {
    Backend::new(&OFFER, &configuration()).unwrap()
}

// Handles a message. A ring that is stopped goes on at 5.
fn outcome(backend: &mut Backend, bytes: &[u8], descriptors: usize) -> (Result<Request, Refusal>, Vec<u8>) {
    let handled = backend.handle(bytes, descriptors);
    let mut room = [0; MAX_MESSAGE];
    let reply = match handled {
        Ok(Request::GetVringBase { index }) => {
            backend.stop(index, 5).unwrap();
            backend.reply(bytes, &mut room)
        }
        Ok(_) => backend.reply(bytes, &mut room),
        Err(_) => backend.refuse(bytes, &mut room),
    };
    (handled, reply.to_vec())
}

// A message, how many descriptors come with it, what it asks for, and the reply.
type Row = (Vec<u8>, usize, Result<Request, Refusal>, Vec<u8>);

fn expect(backend: &mut Backend, rows: Vec<Row>) {
    for (place, (bytes, descriptors, request, reply)) in rows.into_iter().enumerate() {
        let got = outcome(backend, &bytes, descriptors);
        assert_eq!(got, (request, reply), "row {place}, {bytes:02x?}");
    }
}

// A message that asks for a reply.
fn asking(request: u32, payload: &[u8]) -> Vec<u8> {
    message(request, NEED_REPLY, payload)
}

// Two regions of 2 GiB each, the second above 4 GiB, in one file: as QEMU has the memory of a q35 of 4 GiB.
const REGIONS: [[u64; 4]; 2] = [
    [0, 0x8000_0000, USER, 0],
    [0x1_0000_0000, 0x8000_0000, USER + 0x8000_0000, 0x8000_0000],
];

// Its ring of 128 descriptors: the used ring lies in the second region.
const PLACES: [u64; 4] = [USER + 0x1000, USER + 0x8000_2000, USER + 0x1800, 0x1_0000_2000];

// As QEMU sets a device up. The replies without an acknowledgement are those of the protocol's table.
fn boot() -> Vec<Row> {
    let done = |request| acknowledged(request, 0);
    let none = Vec::new;
    vec![
        (
            message(GET_FEATURES, 0, &[]),
            0,
            Ok(Request::GetFeatures),
            reply(GET_FEATURES, &longs(&[OFFER.features])),
        ),
        (
            message(GET_PROTOCOL_FEATURES, 0, &[]),
            0,
            Ok(Request::GetProtocolFeatures),
            reply(GET_PROTOCOL_FEATURES, &longs(&[0x22b])),
        ),
        // It belongs to MQ, which nobody accepted yet.
        (message(GET_QUEUE_NUM, 0, &[]), 0, Err(Refusal::NotNegotiated), none()),
        // Bit 4 was not offered.
        (
            message(SET_PROTOCOL_FEATURES, 0, &longs(&[1 << 4])),
            0,
            Err(Refusal::Features),
            none(),
        ),
        (
            message(SET_PROTOCOL_FEATURES, 0, &longs(&[0x22b])),
            0,
            Ok(Request::SetProtocolFeatures(0x22b)),
            none(),
        ),
        (
            message(GET_QUEUE_NUM, 0, &[]),
            0,
            Ok(Request::GetQueueNum),
            reply(GET_QUEUE_NUM, &longs(&[2])),
        ),
        // From here on messages may ask for an acknowledgement.
        (
            asking(SET_BACKEND_REQ_FD, &[]),
            1,
            Ok(Request::SetBackendReqFd),
            done(SET_BACKEND_REQ_FD),
        ),
        (message(SET_OWNER, 0, &[]), 0, Ok(Request::SetOwner), none()),
        (
            asking(SET_VRING_CALL, &longs(&[0])),
            1,
            Ok(Request::SetVringCall {
                index: 0,
                descriptor: true,
            }),
            done(SET_VRING_CALL),
        ),
        (
            message(GET_CONFIG, 0, &config(0, 0, &[0; 36])),
            0,
            Ok(Request::GetConfig(ConfigSpace {
                offset: 0,
                size: 36,
                is_migration: false,
            })),
            reply(GET_CONFIG, &config(0, 0, &configuration())),
        ),
        // Bit 5 was not offered.
        (
            asking(SET_FEATURES, &longs(&[ACCEPTED | 1 << 5])),
            0,
            Err(Refusal::Features),
            acknowledged(SET_FEATURES, 1),
        ),
        // It belongs to PROTOCOL_FEATURES, which nobody accepted yet.
        (
            asking(SET_VRING_ENABLE, &words(&[0, 1])),
            0,
            Err(Refusal::NotNegotiated),
            acknowledged(SET_VRING_ENABLE, 1),
        ),
        (
            asking(SET_FEATURES, &longs(&[ACCEPTED])),
            0,
            Ok(Request::SetFeatures(ACCEPTED)),
            done(SET_FEATURES),
        ),
        (
            asking(SET_MEM_TABLE, &table(&REGIONS)),
            2,
            Ok(Request::SetMemTable),
            done(SET_MEM_TABLE),
        ),
        (
            asking(SET_VRING_NUM, &words(&[0, 128])),
            0,
            Ok(Request::SetVringNum { index: 0, num: 128 }),
            done(SET_VRING_NUM),
        ),
        (
            message(SET_VRING_BASE, 0, &words(&[0, 0])),
            0,
            Ok(Request::SetVringBase { index: 0, base: 0 }),
            none(),
        ),
        (
            asking(SET_VRING_ADDR, &addresses(0, 0, PLACES)),
            0,
            Ok(Request::SetVringAddr { index: 0 }),
            done(SET_VRING_ADDR),
        ),
        (
            message(SET_VRING_KICK, 0, &longs(&[0])),
            1,
            Ok(Request::SetVringKick {
                index: 0,
                descriptor: true,
            }),
            none(),
        ),
    ]
}

// The ring that QEMU set up, with guest addresses.
fn booted_vring(log: Option<u64>) -> Vring {
    Vring {
        size: 128,
        base: 0,
        descriptor: 0x1000,
        available: 0x1800,
        used: 0x1_0000_2000,
        // Flags, index, 128 entries and the index of an event.
        used_len: 1030,
        log,
        kick: Notifier::Descriptor,
        call: Notifier::Descriptor,
    }
}

// A back end whose ring 0 runs.
fn booted() -> Backend {
    let mut backend = backend();
    expect(&mut backend, boot());
    let enable = message(SET_VRING_ENABLE, 0, &words(&[0, 1]));
    let enabled = Request::SetVringEnable { index: 0, enable: true };
    expect(&mut backend, vec![(enable, 0, Ok(enabled), Vec::new())]);
    backend
}

#[test]
fn each_page_that_is_written_has_a_bit_in_the_log() {
    let mut backend = booted();
    let pages = |first, count| Ok(LogPages { first, count });
    // A log of 4 bytes has bits for 32 pages. LOG_ALL is not accepted yet.
    let log = message(SET_LOG_BASE, 0, &longs(&[4, 0]));
    assert_eq!(backend.handle(&log, 1), Ok(Request::SetLogBase { size: 4, offset: 0 }));
    assert_eq!(backend.logged(0x1000, 1), pages(0, 0));
    let bits = message(SET_FEATURES, 0, &longs(&[ACCEPTED | LOG_ALL]));
    assert_eq!(backend.handle(&bits, 0), Ok(Request::SetFeatures(ACCEPTED | LOG_ALL)));
    for (address, len, expected) in [
        (0x1000, 1, pages(1, 1)),
        (0x1fff, 1, pages(1, 1)),
        (0x1fff, 2, pages(1, 2)),
        (0x1000, 0x1000, pages(1, 1)),
        (0xfff, 0x1002, pages(0, 3)),
        (0, 0x2_0000, pages(0, 32)),
        (0x1_ffff, 1, pages(31, 1)),
        (0x1_ffff, 0, pages(0, 0)),
        (u64::MAX, 0, pages(0, 0)),
        (0x1_ffff, 2, Err(Refusal::Log)),
        (0x2_0000, 1, Err(Refusal::Log)),
        (u64::MAX, 1, Err(Refusal::Log)),
        (u64::MAX, 2, Err(Refusal::Log)),
        (1, u64::MAX, Err(Refusal::Log)),
    ] {
        assert_eq!(backend.logged(address, len), expected, "{len} bytes at {address:#x}");
    }
    let bits = message(SET_FEATURES, 0, &longs(&[ACCEPTED]));
    assert_eq!(backend.handle(&bits, 0), Ok(Request::SetFeatures(ACCEPTED)));
    assert_eq!(backend.logged(0x2_0000, 1), pages(0, 0));
}

#[test]
fn the_back_end_asks_on_its_own_channel() {
    let mut room = [0; MAX_MESSAGE];
    let asked = |flags: u32, access: u8, kind: u8| {
        let payload = [&longs(&[0xffff_f000, 0, 0])[..], &[access, kind, 0, 0, 0, 0, 0, 0]].concat();
        [words(&[1, flags, 32]), payload].concat()
    };
    for access in [Permissions::Read, Permissions::Write, Permissions::ReadWrite] {
        // A MISS asks for a reply.
        assert_eq!(miss(0xffff_f000, access, &mut room), asked(9, access as u8, 1));
        assert_eq!(access_fail(0xffff_f000, access, &mut room), asked(1, access as u8, 4));
    }
    assert!(miss(0, Permissions::No, &mut room).is_empty());
    assert!(access_fail(0, Permissions::No, &mut room).is_empty());
    let reply = |header: [u32; 3], value: u64| [words(&header), longs(&[value])].concat();
    for (bytes, expected) in [
        (reply([1, 5, 8], 0), Ok(0)),
        (reply([1, 5, 8], u64::MAX), Ok(u64::MAX)),
        (reply([2, 5, 8], 7), Ok(7)),
        (reply([1, 6, 8], 0), Err(Refusal::Version)),
        (reply([1, 1, 8], 0), Err(Refusal::Direction)),
        (reply([3, 5, 8], 0), Err(Refusal::Request)),
        (reply([1, 5, 9], 0), Err(Refusal::PayloadSize)),
        (reply([1, 5, 8], 0)[..19].to_vec(), Err(Refusal::PayloadSize)),
        (reply([1, 5, 8], 0)[..11].to_vec(), Err(Refusal::Header)),
    ] {
        assert_eq!(answered(&bytes), expected, "{bytes:02x?}");
    }
    assert_eq!(ANSWER_LEN, reply([1, 5, 8], 0).len());
}

#[test]
fn a_device_is_set_up_and_stopped_as_qemu_does_it() {
    let mut backend = backend();
    assert!(!backend.is_owned());
    expect(&mut backend, boot());
    let standing = |backend: &Backend| [0, 1, 2].map(|index| backend.running(index));
    assert_eq!(
        standing(&backend),
        [Err(Refusal::Disabled), Err(Refusal::Stopped), Err(Refusal::Index)]
    );
    assert_eq!((backend.features(), backend.protocol_features()), (ACCEPTED, 0x22b));
    assert!(backend.is_owned() && backend.queues() == 2);
    let region = |[guest_address, size, user_address, mmap_offset]: [u64; 4]| Region {
        guest_address,
        size,
        user_address,
        mmap_offset,
    };
    assert_eq!(backend.regions(), REGIONS.map(region));
    let enabled = Request::SetVringEnable { index: 0, enable: true };
    // A migration begins while the ring runs: only that writes are marked may change then.
    expect(
        &mut backend,
        vec![
            (
                message(SET_VRING_ENABLE, 0, &words(&[0, 1])),
                0,
                Ok(enabled),
                Vec::new(),
            ),
            (
                message(SET_LOG_BASE, 0, &longs(&[0x4_0000, 0])),
                1,
                Ok(Request::SetLogBase {
                    size: 0x4_0000,
                    offset: 0,
                }),
                reply(SET_LOG_BASE, &[]),
            ),
        ],
    );
    assert_eq!(backend.running(0), Ok(booted_vring(None)));
    let bits = ACCEPTED | LOG_ALL;
    expect(
        &mut backend,
        vec![
            (
                asking(SET_FEATURES, &longs(&[bits])),
                0,
                Ok(Request::SetFeatures(bits)),
                acknowledged(SET_FEATURES, 0),
            ),
            (
                asking(SET_VRING_ADDR, &addresses(0, 1, PLACES)),
                0,
                Ok(Request::SetVringAddr { index: 0 }),
                acknowledged(SET_VRING_ADDR, 0),
            ),
            (
                asking(SET_LOG_FD, &[]),
                1,
                Ok(Request::SetLogFd),
                acknowledged(SET_LOG_FD, 0),
            ),
        ],
    );
    assert_eq!(backend.running(0), Ok(booted_vring(Some(PLACES[3]))));
    let space = |offset, size, is_migration| ConfigSpace {
        offset,
        size,
        is_migration,
    };
    expect(
        &mut backend,
        vec![
            // The driver turns the write cache off.
            (
                asking(SET_CONFIG, &config(32, 0, &[0])),
                0,
                Ok(Request::SetConfig(space(32, 1, false))),
                acknowledged(SET_CONFIG, 0),
            ),
            (
                message(GET_CONFIG, 0, &config(30, 0, &[9; 6])),
                0,
                Ok(Request::GetConfig(space(30, 6, false))),
                reply(GET_CONFIG, &config(30, 0, &[0, 0, 0, 0, 2, 0])),
            ),
            // A migration writes any of it.
            (
                message(SET_CONFIG, 0, &config(0, 1, &[1, 2, 3])),
                0,
                Ok(Request::SetConfig(space(0, 3, true))),
                Vec::new(),
            ),
            (message(RESET_OWNER, 0, &[]), 0, Ok(Request::ResetOwner), Vec::new()),
            (
                message(SET_VRING_ERR, 0, &longs(&[NO_DESCRIPTOR])),
                0,
                Ok(Request::SetVringErr {
                    index: 0,
                    descriptor: false,
                }),
                Vec::new(),
            ),
            // The index at which the ring goes on comes from the device, whatever the message says.
            (
                message(GET_VRING_BASE, 0, &words(&[0, 77])),
                0,
                Ok(Request::GetVringBase { index: 0 }),
                reply(GET_VRING_BASE, &words(&[0, 5])),
            ),
        ],
    );
    assert_eq!(
        standing(&backend),
        [Err(Refusal::Stopped), Err(Refusal::Stopped), Err(Refusal::Index)]
    );
    let mut bytes = configuration();
    bytes[..3].copy_from_slice(&[1, 2, 3]);
    bytes[32] = 0;
    assert_eq!(backend.config(), bytes);
    assert!(backend.is_owned());
}

#[test]
fn a_device_behind_an_iommu_has_io_addresses() {
    let mut backend = backend();
    let bits = PROTOCOL_FEATURES | VERSION_1 | ACCESS_PLATFORM;
    // Linux' I/O addresses go downwards from 4 GiB on.
    let places = [0xffff_f000, 0xffff_e000, 0xffff_d000, 0];
    let table_message = |payload: &[u8], what: Result<Request, Refusal>| {
        let number = u64::from(what.is_err());
        (asking(IOTLB_MSG, payload), 0, what, acknowledged(IOTLB_MSG, number))
    };
    let none = Vec::new;
    expect(
        &mut backend,
        vec![
            (
                message(SET_PROTOCOL_FEATURES, 0, &longs(&[0x22b])),
                0,
                Ok(Request::SetProtocolFeatures(0x22b)),
                none(),
            ),
            // It belongs to ACCESS_PLATFORM.
            table_message(&iotlb(0xffff_f000, 0x1000, USER, 3, 2), Err(Refusal::NotNegotiated)),
            (
                message(SET_FEATURES, 0, &longs(&[bits])),
                0,
                Ok(Request::SetFeatures(bits)),
                none(),
            ),
            table_message(&iotlb(0xffff_f000, 0x1000, USER, 3, 2), Ok(Request::IotlbMsg)),
            // An INVALIDATE of all addresses above the interrupts, as QEMU sends it.
            table_message(
                &iotlb(0xfef0_0000, 0xffff_ffff_0110_0000, 0, 0, 3),
                Ok(Request::IotlbMsg),
            ),
            // A MISS and an ACCESS_FAIL are the back end's.
            table_message(&iotlb(0x1000, 0, 0, 1, 1), Err(Refusal::IotlbKind)),
            table_message(&iotlb(0x1000, 0, 0, 1, 4), Err(Refusal::IotlbKind)),
            table_message(&iotlb(0x1000, 0x1000, 0, 1, 0), Err(Refusal::IotlbKind)),
            table_message(&iotlb(0x1000, 0, 0, 1, 2), Err(Refusal::IotlbEmptyRange)),
            table_message(&iotlb(0x1000, u64::MAX - 0xffe, 0, 1, 2), Err(Refusal::IotlbRange)),
            table_message(&iotlb(0x1000, 0x1000, 0, 0, 2), Err(Refusal::IotlbPermissions)),
            table_message(&iotlb(0x1000, 0x1000, 0, 4, 2), Err(Refusal::IotlbPermissions)),
            (
                message(SET_VRING_NUM, 0, &words(&[1, 1024])),
                0,
                Ok(Request::SetVringNum { index: 1, num: 1024 }),
                none(),
            ),
            (
                message(SET_VRING_BASE, 0, &words(&[1, 0xffff])),
                0,
                Ok(Request::SetVringBase { index: 1, base: 0xffff }),
                none(),
            ),
            (
                message(SET_VRING_ADDR, 0, &addresses(1, 0, places)),
                0,
                Ok(Request::SetVringAddr { index: 1 }),
                none(),
            ),
            (
                message(SET_VRING_KICK, 0, &longs(&[1 | NO_DESCRIPTOR])),
                0,
                Ok(Request::SetVringKick {
                    index: 1,
                    descriptor: false,
                }),
                none(),
            ),
            (
                message(SET_VRING_ENABLE, 0, &words(&[1, 1])),
                0,
                Ok(Request::SetVringEnable { index: 1, enable: true }),
                none(),
            ),
        ],
    );
    let vring = Vring {
        size: 1024,
        base: 0xffff,
        descriptor: places[0],
        used: places[1],
        used_len: 8196,
        available: places[2],
        log: None,
        kick: Notifier::Polled,
        call: Notifier::Unset,
    };
    assert_eq!(backend.running(1), Ok(vring));
}

// Messages with one fault each, while ring 0 runs. What is said is the fault's name, and nothing changes.
#[test]
fn each_fault_is_refused_by_its_name() {
    let mut backend = booted();
    let acked: Vec<(Vec<u8>, usize, Refusal)> = vec![
        // Other features than that writes are logged, while a ring runs.
        (
            asking(SET_FEATURES, &longs(&[ACCEPTED & !EVENT_IDX])),
            0,
            Refusal::Started,
        ),
        (asking(SET_FEATURES, &longs(&[u64::MAX])), 0, Refusal::Features),
        (asking(SET_PROTOCOL_FEATURES, &longs(&[1 << 8])), 0, Refusal::Features),
        // A ring that runs is moved; flags past bit 0; parts that are not aligned; a ring that is not there.
        (
            asking(
                SET_VRING_ADDR,
                &addresses(0, 0, [USER + 0x3000, PLACES[1], PLACES[2], 0]),
            ),
            0,
            Refusal::Started,
        ),
        (
            asking(SET_VRING_ADDR, &addresses(1, 2, [0x1000, 0x2000, 0x3000, 0])),
            0,
            Refusal::Flags,
        ),
        (
            asking(SET_VRING_ADDR, &addresses(1, 0, [0x1008, 0x2000, 0x3000, 0])),
            0,
            Refusal::Alignment,
        ),
        (
            asking(SET_VRING_ADDR, &addresses(1, 0, [0x1000, 0x2002, 0x3000, 0])),
            0,
            Refusal::Alignment,
        ),
        (
            asking(SET_VRING_ADDR, &addresses(1, 0, [0x1000, 0x2000, 0x3001, 0])),
            0,
            Refusal::Alignment,
        ),
        (
            asking(SET_VRING_ADDR, &addresses(2, 0, [0x1000, 0x2000, 0x3000, 0])),
            0,
            Refusal::Index,
        ),
        (asking(SET_VRING_NUM, &words(&[0, 64])), 0, Refusal::Started),
        (asking(SET_VRING_NUM, &words(&[1, 0])), 0, Refusal::QueueSize),
        (asking(SET_VRING_NUM, &words(&[1, 1025])), 0, Refusal::QueueSize),
        (asking(SET_VRING_NUM, &words(&[256, 64])), 0, Refusal::Index),
        (asking(SET_VRING_BASE, &words(&[0, 1])), 0, Refusal::Started),
        (asking(SET_VRING_BASE, &words(&[1, 0x1_0000])), 0, Refusal::Base),
        // A descriptor is said to come and does not, the other way round, and two come.
        (asking(SET_VRING_KICK, &longs(&[0])), 0, Refusal::Descriptors),
        (
            asking(SET_VRING_KICK, &longs(&[NO_DESCRIPTOR])),
            1,
            Refusal::Descriptors,
        ),
        (asking(SET_VRING_ERR, &longs(&[0])), 2, Refusal::Descriptors),
        (asking(SET_VRING_KICK, &longs(&[2])), 1, Refusal::Index),
        (asking(SET_VRING_CALL, &longs(&[255])), 1, Refusal::Index),
        (asking(SET_VRING_ENABLE, &words(&[0, 2])), 0, Refusal::Flags),
        (asking(SET_VRING_ENABLE, &words(&[2, 0])), 0, Refusal::Index),
        (asking(SET_MEM_TABLE, &table(&REGIONS)), 1, Refusal::Descriptors),
        // Regions that share the address 0x7fffffff, in both orders.
        (
            asking(
                SET_MEM_TABLE,
                &table(&[REGIONS[0], [0x7fff_ffff, 0x1000, USER << 1, 0]]),
            ),
            2,
            Refusal::RegionOverlap,
        ),
        (
            asking(
                SET_MEM_TABLE,
                &table(&[[0x7fff_ffff, 0x1000, USER << 1, 0], REGIONS[0]]),
            ),
            2,
            Refusal::RegionOverlap,
        ),
        // Regions of no bytes, and past the last address of the guest, of the front end and of a file.
        (
            asking(SET_MEM_TABLE, &table(&[[0, 0, USER, 0]])),
            1,
            Refusal::RegionRange,
        ),
        (
            asking(SET_MEM_TABLE, &table(&[[u64::MAX - 0xfff, 0x1000, 0, 0]])),
            1,
            Refusal::RegionRange,
        ),
        (
            asking(SET_MEM_TABLE, &table(&[[0, 0x1000, u64::MAX - 0xfff, 0]])),
            1,
            Refusal::RegionRange,
        ),
        (
            asking(SET_MEM_TABLE, &table(&[[0, 0x1000, 0, u64::MAX - 0xfff]])),
            1,
            Refusal::RegionRange,
        ),
        // It counts two regions and has one, and it has nine.
        (
            asking(SET_MEM_TABLE, &[words(&[2, 0]), longs(&REGIONS[0])].concat()),
            1,
            Refusal::PayloadSize,
        ),
        (asking(SET_MEM_TABLE, &table(&[[0; 4]; 9])), 8, Refusal::PayloadSize),
        (
            asking(IOTLB_MSG, &iotlb(0x1000, 0x1000, USER, 3, 2)),
            0,
            Refusal::NotNegotiated,
        ),
        (asking(SET_CONFIG, &config(0, 0, &[0; 8])), 0, Refusal::ConfigReadOnly),
        (asking(SET_CONFIG, &config(32, 0, &[0; 2])), 0, Refusal::ConfigReadOnly),
        (asking(SET_CONFIG, &config(32, 1, &[0; 5])), 0, Refusal::ConfigRange),
        (asking(19, &[0; 8]), 0, Refusal::Request),
        (asking(0, &[]), 0, Refusal::Request),
        (asking(u32::MAX, &[]), 0, Refusal::Request),
        (asking(SET_OWNER, &[0]), 0, Refusal::PayloadSize),
        // The payload is shorter and longer than the header says.
        (
            asking(SET_VRING_NUM, &words(&[1, 2]))[..19].to_vec(),
            0,
            Refusal::PayloadSize,
        ),
        (
            [asking(SET_VRING_NUM, &words(&[1, 2])), vec![0]].concat(),
            0,
            Refusal::PayloadSize,
        ),
    ];
    for (bytes, descriptors, refusal) in &acked {
        let request = u32::from_le_bytes(bytes[..4].try_into().unwrap());
        let row = (bytes.clone(), *descriptors, Err(*refusal), acknowledged(request, 1));
        expect(&mut backend, vec![row]);
    }
    let none = Vec::new;
    let no_config = || reply(GET_CONFIG, &[]);
    let others = vec![
        // No acknowledgement is due: of these the reply would be another one, or nobody asks.
        (words(&[GET_FEATURES, 2, 0]), 0, Err(Refusal::Version), none()),
        (words(&[GET_FEATURES, 1 | REPLY, 0]), 0, Err(Refusal::Direction), none()),
        (asking(GET_FEATURES, &[0; 8]), 0, Err(Refusal::PayloadSize), none()),
        (asking(GET_FEATURES, &[]), 1, Err(Refusal::Descriptors), none()),
        (asking(GET_VRING_BASE, &words(&[2, 0])), 0, Err(Refusal::Index), none()),
        (
            asking(GET_VRING_BASE, &words(&[0, 0, 0])),
            0,
            Err(Refusal::PayloadSize),
            none(),
        ),
        (
            message(SET_VRING_NUM, 0, &words(&[7, 7])),
            0,
            Err(Refusal::Index),
            none(),
        ),
        (
            message(SET_OWNER, 0, &[])[..11].to_vec(),
            0,
            Err(Refusal::Header),
            none(),
        ),
        (none(), 3, Err(Refusal::Header), none()),
        // A configuration that is not there is answered by no payload.
        (
            message(GET_CONFIG, 0, &config(0, 0, &[0; 37])),
            0,
            Err(Refusal::ConfigRange),
            no_config(),
        ),
        (
            message(GET_CONFIG, 0, &config(36, 0, &[0])),
            0,
            Err(Refusal::ConfigRange),
            no_config(),
        ),
        (
            message(GET_CONFIG, 0, &config(u32::MAX, 0, &[0])),
            0,
            Err(Refusal::ConfigRange),
            no_config(),
        ),
        (
            message(GET_CONFIG, 0, &config(0, 2, &[0; 36])),
            0,
            Err(Refusal::Flags),
            no_config(),
        ),
        (
            message(GET_CONFIG, 0, &config(0, 0, &[0; 36])[..47]),
            0,
            Err(Refusal::PayloadSize),
            no_config(),
        ),
    ];
    expect(&mut backend, others);
    assert_eq!(backend.running(0), Ok(booted_vring(None)));
    assert_eq!((backend.features(), backend.protocol_features()), (ACCEPTED, 0x22b));
    assert_eq!(backend.config(), configuration());
    assert_eq!(backend.stop(0, 1), Err(Refusal::Started));
    assert_eq!(backend.stop(2, 1), Err(Refusal::Index));
    assert_eq!(backend.stop(1, 1), Ok(()));
}

// Each reason for which a ring is not served, one after the other.
#[test]
fn a_ring_runs_after_all_was_said() {
    let mut backend = backend();
    let mut take = |request: u32, payload: &[u8], descriptors: usize| {
        backend.handle(&message(request, 0, payload), descriptors).unwrap();
        backend.running(0)
    };
    assert_eq!(take(SET_FEATURES, &longs(&[ACCEPTED]), 0), Err(Refusal::Stopped));
    assert_eq!(take(SET_VRING_KICK, &longs(&[0]), 1), Err(Refusal::Disabled));
    assert_eq!(take(SET_VRING_ENABLE, &words(&[0, 1]), 0), Err(Refusal::NoSize));
    // The size is set while the ring is stopped.
    assert_eq!(take(GET_VRING_BASE, &words(&[0, 0]), 0), Err(Refusal::Stopped));
    assert_eq!(take(SET_VRING_NUM, &words(&[0, 128]), 0), Err(Refusal::Stopped));
    assert_eq!(take(SET_VRING_KICK, &longs(&[0]), 1), Err(Refusal::NoAddress));
    assert_eq!(
        take(SET_VRING_ADDR, &addresses(0, 0, PLACES), 0),
        Err(Refusal::UserAddress)
    );
    assert_eq!(take(SET_VRING_CALL, &longs(&[0]), 1), Err(Refusal::UserAddress));
    // The used ring lies in the second region alone.
    assert_eq!(take(SET_MEM_TABLE, &table(&REGIONS[..1]), 1), Err(Refusal::UserAddress));
    assert_eq!(take(SET_MEM_TABLE, &table(&REGIONS), 2), Ok(booted_vring(None)));
    // A region that ends in front of the used ring's last byte: 4 + 8 * 128 + 2 bytes with event indices.
    let until = |end: u64| table(&[REGIONS[0], [0x1_0000_0000, end, USER + 0x8000_0000, 0]]);
    assert_eq!(take(SET_MEM_TABLE, &until(0x2000 + 1029), 2), Err(Refusal::UserAddress));
    assert_eq!(take(SET_MEM_TABLE, &until(0x2000 + 1030), 2), Ok(booted_vring(None)));
    assert_eq!(take(SET_VRING_ENABLE, &words(&[0, 0]), 0), Err(Refusal::Disabled));
}

#[test]
fn an_offer_has_bounds() {
    let make = |offer: Offer, len: usize| Backend::new(&offer, &vec![0; len]).err();
    assert_eq!(make(OFFER, 0), None);
    assert_eq!(make(OFFER, MAX_CONFIG), None);
    assert_eq!(make(OFFER, MAX_CONFIG + 1), Some(Refusal::Offer));
    for (queues, max_queue_size, refusal) in [
        (0, 1, Some(Refusal::Offer)),
        (1, 1, None),
        (256, 32768, None),
        (257, 1, Some(Refusal::Offer)),
        (u32::MAX, 1, Some(Refusal::Offer)),
        (1, 0, Some(Refusal::Offer)),
        (1, 32769, Some(Refusal::Offer)),
    ] {
        let offer = Offer {
            queues,
            max_queue_size,
            ..OFFER
        };
        assert_eq!(make(offer, 1), refusal, "{offer:?}");
    }
    // These protocol features are known, and no other.
    for bit in 0..64 {
        let offer = Offer {
            protocol_features: 1 << bit,
            ..OFFER
        };
        let is_known = [0, 1, 3, 5, 9, 12].contains(&bit);
        assert_eq!(make(offer, 1), (!is_known).then_some(Refusal::Offer), "{bit}");
    }
}

// The texts of the header for C are those of this crate.
#[test]
fn the_header_has_the_texts_of_this_crate() {
    let header = fs::read_to_string(Path::new(env!("CARGO_MANIFEST_DIR")).join("../c/vm_memory.h")).unwrap();
    let lines = header
        .lines()
        .filter_map(|line| line.trim().strip_prefix("case VMM_VHOST_")?.split_once(": return \""));
    let texts: Vec<_> = lines
        .map(|(name, text)| (name, text.strip_suffix("\";").unwrap()))
        .collect();
    use Refusal::*;
    let named = [
        ("OFFER", Offer),
        ("HEADER", Header),
        ("VERSION", Version),
        ("DIRECTION", Direction),
        ("REQUEST", Request),
        ("PAYLOAD_SIZE", PayloadSize),
        ("DESCRIPTORS", Descriptors),
        ("NOT_NEGOTIATED", NotNegotiated),
        ("FEATURES", Features),
        ("INDEX", Index),
        ("QUEUE_SIZE", QueueSize),
        ("BASE", Base),
        ("FLAGS", Flags),
        ("ALIGNMENT", Alignment),
        ("STARTED", Started),
        ("REGION_RANGE", RegionRange),
        ("REGION_OVERLAP", RegionOverlap),
        ("CONFIG_RANGE", ConfigRange),
        ("CONFIG_READ_ONLY", ConfigReadOnly),
        ("STOPPED", Stopped),
        ("DISABLED", Disabled),
        ("NO_SIZE", NoSize),
        ("NO_ADDRESS", NoAddress),
        ("USER_ADDRESS", UserAddress),
        ("LOG", Log),
    ];
    let wanted = named.map(|(name, refusal)| (name, refusal.to_string()));
    assert_eq!(texts.len(), wanted.len());
    for ((name, text), (wanted_name, wanted_text)) in texts.into_iter().zip(&wanted) {
        assert_eq!((name, text), (*wanted_name, wanted_text.as_str()));
    }
    assert_eq!(Memory.to_string(), "out of memory");
}
