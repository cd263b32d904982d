//! Requests of a block device: what each asks for, headers, lengths and addresses of a hostile driver, and calls that
//! mean nothing.

mod disk;
mod messages;
mod ring;
mod slow;

use disk::*;
use slow::{addresses, Segment};
use vm_memory_proved::block::{DeviceLimits, Request};
use vm_memory_proved::queue::{DescriptorChain, QueueError};
use vm_memory_proved::raw::{code, kind, request, Answer, Call};
use vm_memory_proved::Machine;

// A request with a number of bytes after the header and a number of writable ones, in one segment each, with the header
// byte by byte and the data in three, and in pieces of any length, some of them without bytes.
fn shapes(given: u64, room: u64) -> Vec<Vec<Segment>> {
    let (readable, writable) = (read(HEADER, 16 + given), written(ROOM, room));
    let mut by_bytes = cut(read(HEADER, 16), &[1]);
    by_bytes.extend(cut(read(DATA, given), &[given / 3 + 1]));
    by_bytes.extend(cut(written(ROOM, room.saturating_sub(1)), &[room / 3 + 1]));
    by_bytes.push(written(ROOM + room.saturating_sub(1), room.min(1)));
    let mut any = cut(readable, &[5, 0, 13, 400]);
    any.extend(cut(writable, &[0, 1, 900, 7]));
    vec![vec![readable, writable], by_bytes, any]
}

// Serves a request in each shape, by direct descriptors, by an indirect table, and by both, and returns what it asks
// for, its status, if there is a byte for that, and the length of its used entry. These are the same each time.
fn serves(
    guest: &mut Guest<'_>,
    head: &[u8],
    given: u64,
    room: u64,
    limits: DeviceLimits,
) -> (Request, Option<u8>, u32) {
    let mut disks = [Disk::new(8), Disk::new(8)];
    let mut answers = Vec::new();
    for segments in shapes(given, room) {
        for direct in [segments.len(), 0, segments.len() / 2] {
            guest.set(HEADER, head);
            guest.set(ROOM + room.saturating_sub(1), &[0xee]);
            let (request, len) = guest.serve(&segments, direct, &mut disks, limits);
            let status = guest.image.byte(ROOM + room.saturating_sub(1));
            answers.push((request, status.filter(|_| room != 0), len));
        }
    }
    answers.dedup();
    assert_eq!(answers.len(), 1, "{answers:?}");
    answers[0]
}

fn with_guest(test: impl FnOnce(&mut Guest<'_>)) {
    let machine = Machine::new().unwrap();
    test(&mut Guest::new(&machine, Way::Plain));
}

#[test]
fn reads_are_of_whole_sectors_on_the_disk() {
    with_guest(|guest| {
        for read_only in [false, true] {
            let limits = DeviceLimits {
                read_only,
                ..limits_of(8)
            };
            let mut ask = |sector, len: u64| serves(guest, &header(IN, sector), 0, len + 1, limits);
            for (sector, len) in [(0, 512), (7, 512), (0, 4096), (4, 2048), (6, 1024), (3, 0), (8, 0)] {
                assert_eq!(ask(sector, len), (to_read(sector, len), Some(0), len as u32 + 1));
            }
            // No whole sectors.
            for len in [1, 20, 511, 513, 1023, 4095] {
                assert_eq!(ask(0, len), (IOERR, Some(1), 0));
            }
            // At the end of the disk and past it, also by numbers that no 64 bits hold as bytes.
            for (sector, len) in [
                (8, 512),
                (7, 1024),
                (1, 4096),
                (9, 512),
                (9, 0),
                (u64::MAX, 512),
                (u64::MAX, 0),
            ] {
                assert_eq!(ask(sector, len), (IOERR, Some(1), u32::from(len == 0)));
            }
            for sector in [1 << 55, (1 << 55) + 1, (1 << 55) - 1, 1 << 63, 1 << 32, 0x1_0000, 0x100] {
                assert_eq!(ask(sector, 512), (IOERR, Some(1), 0));
            }
        }
    });
}

// What a request does not use may be there: data after the header of a read, room before the status of a write.
#[test]
fn writes_are_of_whole_sectors_on_the_disk() {
    with_guest(|guest| {
        let mut ask = |sector, len, room: u64, limits| serves(guest, &header(OUT, sector), len, room + 1, limits);
        for (sector, len) in [(0, 512), (7, 512), (0, 1024), (6, 1024), (3, 0), (8, 0)] {
            let done = to_write(sector, len, false);
            assert_eq!(ask(sector, len, 0, limits_of(8)), (done, Some(0), 1));
            assert_eq!(ask(sector, len, 5, limits_of(8)), (done, Some(0), 0));
            // Of a driver that did not accept FLUSH they are stable.
            for acked in [0, !ACCEPTS_FLUSH, 1 << 8, 1 << 10] {
                let done = to_write(sector, len, len != 0);
                let limits = DeviceLimits { acked, ..limits_of(8) };
                assert_eq!(ask(sector, len, 0, limits), (done, Some(0), 1));
            }
            let only_read = DeviceLimits {
                read_only: true,
                ..limits_of(8)
            };
            assert_eq!(ask(sector, len, 0, only_read), (IOERR, Some(1), 1));
        }
        for len in [1, 15, 16, 511, 513, 1023] {
            assert_eq!(ask(0, len, 0, limits_of(8)), (IOERR, Some(1), 1));
        }
        for (sector, len) in [
            (8, 512),
            (7, 1024),
            (9, 0),
            (1 << 55, 512),
            ((1 << 55) - 1, 1024),
            (u64::MAX, 512),
        ] {
            assert_eq!(ask(sector, len, 0, limits_of(8)), (IOERR, Some(1), 1));
        }
        let request = serves(guest, &header(IN, 2), 77, 513, limits_of(8)).0;
        assert_eq!(request, to_read(2, 512));
    });
}

#[test]
fn a_write_is_stable_or_waits_for_a_flush() {
    with_guest(|guest| {
        let segments = [read(HEADER, 16), read(DATA, 512), written(ROOM, 1)];
        for acked in [0, ACCEPTS_FLUSH, !ACCEPTS_FLUSH] {
            let (mut disks, limits) = ([Disk::new(8), Disk::new(8)], DeviceLimits { acked, ..limits_of(8) });
            guest.set(HEADER, &header(OUT, 3));
            guest.set(DATA, &[0x5a; 512]);
            guest.serve(&segments, 3, &mut disks, limits);
            assert_eq!(disks[0].bytes[3 * 512..4 * 512], [0x5a; 512]);
            assert_eq!(disks[0].stable == disks[0].bytes, acked != ACCEPTS_FLUSH);
            guest.set(HEADER, &header(FLUSH, 0));
            guest.serve(&segments, 3, &mut disks, limits);
            assert!(disks[0].stable == disks[0].bytes);
        }
    });
}

#[test]
fn flushes_and_names() {
    with_guest(|guest| {
        for (sector, given, room, read_only) in [(0, 0, 1, false), (9, 5, 1, true), (u64::MAX, 512, 513, false)] {
            let (len, limits) = (
                u32::from(room == 1),
                DeviceLimits {
                    read_only,
                    ..limits_of(8)
                },
            );
            let asked = serves(guest, &header(FLUSH, sector), given, room, limits);
            assert_eq!(asked, (Request::Flush, Some(0), len));
            for room in [0_u32, 1, 19, 20, 21, 600] {
                let asked = serves(guest, &header(GET_ID, sector), given, u64::from(room) + 1, limits);
                let len = room.min(20) as usize;
                // With more room, there is a gap before the status.
                let used = if room <= 20 { room + 1 } else { 20 };
                assert_eq!(asked, (Request::GetId { len }, Some(0), used));
                let name: Vec<_> = (0..len as u64).map(|i| guest.image.byte(ROOM + i).unwrap()).collect();
                assert_eq!(name, NAME[..len]);
            }
        }
    });
}

// Each kind that was not offered, and each that has the byte of a known one somewhere else.
#[test]
fn other_kinds_are_not_known() {
    with_guest(|guest| {
        let far = [IN, OUT, FLUSH, GET_ID]
            .into_iter()
            .flat_map(|kind| (8..32).map(move |bit| kind | 1 << bit));
        let near = (0..256).filter(|kind| ![IN, OUT, FLUSH, GET_ID].contains(kind));
        for kind in near.chain(far).chain([u32::MAX, u32::MAX - 1]) {
            for (given, room) in [(0, 0), (512, 512)] {
                let asked = serves(guest, &header(kind, 0), given, room + 1, limits_of(8));
                assert_eq!(asked, (UNSUPP, Some(2), u32::from(room == 0)), "{kind:#x}");
            }
        }
    });
}

// The 16 bytes have to be there. A request without a byte for its status is not served, whatever else it is.
#[test]
fn short_headers_and_chains_without_a_status() {
    with_guest(|guest| {
        let mut disks = [Disk::new(8), Disk::new(8)];
        for (kind, len) in [IN, OUT, FLUSH, GET_ID, 2]
            .into_iter()
            .flat_map(|kind| (0..19).map(move |len| (kind, len)))
        {
            for lens in [&[19][..], &[1], &[0, 7]] {
                guest.set(HEADER, &header(kind, 0));
                let mut serve = |rest: &[Segment]| {
                    let segments = [&cut(read(HEADER, len), lens)[..], rest].concat();
                    guest.serve(&segments, segments.len(), &mut disks, limits_of(8))
                };
                for none in [&[][..], &[written(ROOM, 0)], &[written(u64::MAX, 0), written(0, 0)]] {
                    assert_eq!(serve(none), (Request::Unserved, 0));
                }
                if len < 16 {
                    assert_eq!(serve(&[written(ROOM, 513)]), (IOERR, 0));
                    assert_eq!(guest.image.byte(ROOM + 512), Some(1));
                }
            }
        }
        assert!(disks[0] == Disk::new(8));
    });
}

// The greatest and the least of disks. Only what they are asked for is known: none of them has all of its bytes here.
#[test]
fn disks_of_any_number_of_sectors() {
    with_guest(|guest| {
        let most = u64::MAX;
        for (sectors, sector, room, fits) in [
            (0, 0, 0, true),
            (0, 0, 512, false),
            (0, 1, 0, false),
            (1, 0, 512, true),
            (most, most - 1, 512, true),
            (most, most, 0, true),
            (most, most, 512, false),
            (most, most - 1, 1024, false),
            (1 << 55, (1 << 55) - 1, 512, true),
            (1 << 55, 1 << 55, 512, false),
            ((1 << 55) + 1, 1 << 55, 512, true),
        ] {
            guest.set(HEADER, &header(IN, sector));
            let segments = [read(HEADER, 16), written(ROOM, room + 1)];
            guest.publish(&segments, 2);
            let chain = guest.queue.pop_descriptor_chain(&guest.memory).unwrap().unwrap();
            let wanted = if fits { to_read(sector, room) } else { IOERR };
            assert_eq!(chain.begin_request(&guest.memory, limits_of(sectors)).unwrap(), wanted);
            assert_eq!(asked(&guest.image, &segments, limits_of(sectors)), wanted);
            guest.queue.forget(0).unwrap();
        }
    });
}

// ---- limits

// What a chain asks for, if the driver keeps these limits.
fn asks_within(guest: &mut Guest<'_>, segments: &[Segment], most: [Option<u32>; 2]) -> Request {
    let mut disks = [Disk::new(8), Disk::new(8)];
    let limits = DeviceLimits {
        seg_max: most[0],
        size_max: most[1],
        ..limits_of(8)
    };
    guest.serve(segments, segments.len(), &mut disks, limits).0
}

// SEG_MAX counts all but two segments, and SIZE_MAX the bytes of each, whatever is in it. A limit of 0 is none.
#[test]
fn chains_that_break_a_limit_are_refused() {
    with_guest(|guest| {
        let done = to_write(1, 1024, false);
        let data = [read(DATA, 512), read(DATA + 512, 512)];
        guest.set(HEADER, &header(OUT, 1));
        let segments = [&[read(HEADER, 16)], &data[..], &[written(ROOM, 1)]].concat();
        for (most, asked) in [
            ([None, None], done),
            ([Some(2), Some(512)], done),
            ([Some(u32::MAX), Some(u32::MAX)], done),
            ([Some(0), Some(0)], done),
            ([Some(1), None], IOERR),
            ([None, Some(511)], IOERR),
            ([Some(1), Some(512)], IOERR),
            ([Some(2), Some(16)], IOERR),
        ] {
            assert_eq!(asks_within(guest, &segments, most), asked, "{most:?}");
        }
        // A header in two segments leaves one fewer for data. Without a byte for the status nothing is served.
        let header = [read(HEADER, 8), read(HEADER + 8, 8)];
        let segments = [&header[..], &data, &[written(ROOM, 1)]].concat();
        assert_eq!(asks_within(guest, &segments, [Some(3), None]), done);
        assert_eq!(asks_within(guest, &segments, [Some(2), None]), IOERR);
        assert_eq!(
            asks_within(guest, &segments[..4], [Some(1), Some(1)]),
            Request::Unserved
        );
    });
}

// The segments of the header and of the status count.
#[test]
fn every_segment_has_at_most_so_many_bytes() {
    with_guest(|guest| {
        guest.set(HEADER, &header(FLUSH, 0));
        let segments = [read(HEADER, 16), written(ROOM, 1)];
        assert_eq!(asks_within(guest, &segments, [None, Some(16)]), Request::Flush);
        assert_eq!(asks_within(guest, &segments, [None, Some(15)]), IOERR);
        guest.set(HEADER, &header(IN, 2));
        let segments = [read(HEADER, 16), written(ROOM, 513)];
        assert_eq!(asks_within(guest, &segments, [None, Some(513)]), to_read(2, 512));
        assert_eq!(asks_within(guest, &segments, [None, Some(512)]), IOERR);
    });
}

// ---- bytes without memory

// Serves a request of these segments, the header of which lies in the first ones, for a disk of eight sectors. Returns
// what it asks for, the length of its used entry, and whether the disk stayed.
fn serves_at(guest: &mut Guest<'_>, segments: &[Segment], head: [u8; 16]) -> (Request, u32, bool) {
    for (addr, byte) in addresses(segments, false, 0, 16).into_iter().zip(head) {
        guest.set(addr, &[byte]);
    }
    let mut disks = [Disk::new(8), Disk::new(8)];
    let (request, len) = guest.serve(segments, segments.len(), &mut disks, limits_of(8));
    (request, len, disks[0] == Disk::new(8))
}

#[test]
fn headers_without_memory_are_refused() {
    with_guest(|guest| {
        for kind in [IN, OUT, FLUSH, GET_ID, 2] {
            for addr in [END - 15, END - 1, END, 0xff8, 0x5000, LAST - 14, u64::MAX - 16] {
                let segments = [read(addr, 16), written(ROOM, 1)];
                guest.set(ROOM, &[0xee]);
                assert_eq!(serves_at(guest, &segments, header(kind, 0)), (IOERR, 1, true));
                assert_eq!(guest.image.byte(ROOM), Some(1));
            }
            // The last byte, in a segment of its own, or one in the middle.
            for place in [15, 7, 0] {
                let (before, after) = (read(HEADER, place), read(HEADER, 15 - place));
                let segments = [before, read(0x5000, 1), after, written(ROOM, 1)];
                assert_eq!(serves_at(guest, &segments, header(kind, 0)), (IOERR, 1, true));
            }
        }
        // Up to the last byte of memory, and with no bytes where there is none.
        let segments = [read(END - 16, 16), read(0x5000, 0), written(ROOM, 1)];
        assert_eq!(serves_at(guest, &segments, header(FLUSH, 0)), (Request::Flush, 1, true));
    });
}

#[test]
fn data_without_memory_fail_in_the_device() {
    with_guest(|guest| {
        // Of a write nothing reaches the disk, and of a read all that comes before it reaches the guest.
        let write = to_write(0, 512, false);
        for data in [read(END - 511, 512), read(0x5000, 512), read(END - 1, 512)] {
            let segments = [read(HEADER, 16), data, written(ROOM, 1)];
            assert_eq!(serves_at(guest, &segments, header(OUT, 0)), (write, 1, true));
            assert_eq!(guest.image.byte(ROOM), Some(1));
        }
        let (done, len) = (to_read(0, 512), 512);
        for (addr, moved) in [(END - 512, 512), (END - 511, 511), (END - 1, 1), (END, 0), (0x5000, 0)] {
            let segments = [read(HEADER, 16), written(addr, len), written(ROOM, 1)];
            let used = if moved == 512 { 513 } else { moved };
            assert_eq!(serves_at(guest, &segments, header(IN, 0)), (done, used, true));
            assert_eq!(guest.image.byte(ROOM), Some(u8::from(moved < 512)));
        }
    });
}

// The request is done all the same, and its used entry counts the bytes before the status.
#[test]
fn statuses_without_memory_are_not_written() {
    with_guest(|guest| {
        for (addr, is_there) in [
            (LAST, true),
            (LAST + 1, false),
            (0x5000, false),
            (0xfff, false),
            (u64::MAX - 1, false),
        ] {
            let segments = [read(HEADER, 16), written(DATA, 512), written(addr, 1)];
            let done = to_read(1, 512);
            assert_eq!(
                serves_at(guest, &segments, header(IN, 1)),
                (done, 512 + u32::from(is_there), true)
            );
            assert_eq!(guest.image.byte(DATA), Some(Disk::new(8).bytes[512]));
            let segments = [read(HEADER, 16), read(DATA, 512), written(addr, 1)];
            let done = to_write(1, 512, false);
            guest.set(DATA, &[0xc3; 512]);
            assert_eq!(
                serves_at(guest, &segments, header(OUT, 1)),
                (done, u32::from(is_there), false)
            );
            let segments = [read(HEADER, 16), written(addr, 1)];
            assert_eq!(
                serves_at(guest, &segments, header(IN, 9)),
                (IOERR, u32::from(is_there), true)
            );
        }
    });
}

// ---- the second step by itself

// Any status goes to the last byte, and no other byte changes. The length is what was moved, at most the room before
// the status, and one more if the status is the next byte.
#[test]
fn lengths_count_bytes_without_a_gap() {
    with_guest(|guest| {
        for room in 1..40_u64 {
            for lens in [&[40][..], &[1], &[3, 0, 2]] {
                let segments = [vec![read(HEADER, 16)], cut(written(ROOM, room), lens)].concat();
                guest.publish(&segments, 1);
                let chain = guest.queue.pop_descriptor_chain(&guest.memory).unwrap().unwrap();
                for moved in (0..43).chain([1 << 32, usize::MAX]) {
                    for status in [0, 1, 2, 0xff] {
                        let before = moved.min(room as usize - 1) as u64;
                        let len = if before + 1 == room { room } else { before };
                        for _ in 0..2 {
                            let finished = chain.finish_request(&guest.memory, status, moved);
                            assert_eq!(u64::from(finished.unwrap()), len);
                        }
                        guest.image.set(ROOM + room - 1, status);
                        guest.compare();
                    }
                }
                guest.queue.add_used(&guest.memory, 0, 0).unwrap();
                guest.driver.take();
            }
        }
    });
}

// The first step marks no page, and the second that of the status.
#[test]
fn only_the_status_makes_a_page_dirty() {
    with_guest(|guest| {
        let dirty = |guest: &Guest<'_>| [0, 1].map(|i| guest.machine.harvest_block(guest.blocks[i]).unwrap());
        guest.set(HEADER, &header(IN, 0));
        guest.publish(&[read(HEADER, 16), written(ROOM, 513)], 2);
        dirty(guest);
        let chain = guest.queue.pop_descriptor_chain(&guest.memory).unwrap().unwrap();
        chain.begin_request(&guest.memory, limits_of(8)).unwrap();
        assert_eq!(dirty(guest), [vec![], vec![]]);
        chain.finish_request(&guest.memory, 0, 512).unwrap();
        assert_eq!(dirty(guest), [vec![], vec![512 / 16]]);
        guest.publish(&[read(HEADER, 16), written(0x5000, 513)], 2);
        guest.queue.forget(0).unwrap();
        let chain = guest.queue.pop_descriptor_chain(&guest.memory).unwrap().unwrap();
        chain.finish_request(&guest.memory, 0, 512).unwrap();
        assert_eq!(dirty(guest), [vec![], vec![]]);
    });
}

// ---- calls of plain numbers

#[test]
fn plain_calls_answer_by_numbers() {
    with_guest(|guest| {
        let rows = [
            (header(IN, 3), 0, 513, 3, ACCEPTS_FLUSH, (512, request::READ, 3)),
            (header(OUT, 3), 512, 1, 3, ACCEPTS_FLUSH, (512, request::WRITE, 3)),
            (header(OUT, 3), 512, 1, 3, 0, (512, request::WRITE_STABLE, 3)),
            (header(OUT, 3), 512, 1, 1, 0, (1, request::REFUSED, 0)),
            (header(IN, 3), 512, 1, 1, 0, (0, request::READ, 3)),
            (header(FLUSH, 3), 512, 1, 1, 0, (0, request::FLUSH, 0)),
            (header(GET_ID, 3), 512, 600, 1, 0, (20, request::GET_ID, 0)),
            (header(13, 3), 512, 1, 3, 0, (2, request::REFUSED, 0)),
            (header(IN, 3), 512, 0, 3, 0, (0, request::UNSERVED, 0)),
        ];
        for (head, given, room, access, value, (count, asked, address)) in rows {
            guest.set(HEADER, &head);
            guest.publish(&[read(HEADER, 16 + given), written(ROOM, room)], 2);
            let _chain = guest.queue.pop_descriptor_chain(&guest.memory).unwrap().unwrap();
            let call = Call {
                kind: kind::BEGIN_REQUEST,
                second: guest.memory.id().number(),
                target: 8,
                access,
                value,
                ..Call::default()
            };
            let (code, value) = (code::DONE, asked);
            let wanted = Answer {
                code,
                count,
                value,
                address,
            };
            assert_eq!(guest.machine.call(&call, &[], &mut []), wanted, "{call:?}");
            guest.queue.forget(0).unwrap();
        }
    });
}

// A chain in flight that asks for the first sector.
fn one_in_flight<'a>(guest: &mut Guest<'a>) -> DescriptorChain<'a> {
    guest.set(HEADER, &header(IN, 0));
    guest.publish(&[read(HEADER, 16), written(ROOM, 513)], 2);
    guest.queue.pop_descriptor_chain(&guest.memory).unwrap().unwrap()
}

#[test]
fn calls_that_mean_nothing_change_nothing() {
    with_guest(|guest| {
        let chain = one_in_flight(guest);
        let call = |kind, third, access, value| Call {
            kind,
            second: guest.memory.id().number(),
            third,
            access,
            value,
            ..Call::default()
        };
        let (begin, finish) = (kind::BEGIN_REQUEST, kind::FINISH_REQUEST);
        let mut rows = Vec::new();
        rows.extend([0, 2, 4, 5, 7, u32::MAX].map(|access| (call(begin, 0, access, 0), code::BAD_CALL)));
        rows.extend([256, 257, 1 << 32, u64::MAX].map(|value| (call(finish, 0, 0, value), code::BAD_CALL)));
        for head in [1, 63, 64, 0x1_0000, 1 << 32, usize::MAX] {
            rows.extend([call(begin, head, 3, 0), call(finish, head, 0, 0)].map(|call| (call, code::NOT_IN_FLIGHT)));
        }
        for (call, code) in rows {
            let answer = guest.machine.call(&call, &[], &mut []);
            let (count, value, address) = (0, 0, 0);
            assert_eq!(
                answer,
                Answer {
                    code,
                    count,
                    value,
                    address
                },
                "{call:?}"
            );
        }
        guest.compare();
        assert_eq!(
            chain.begin_request(&guest.memory, limits_of(8)).unwrap(),
            to_read(0, 512)
        );
    });
}

#[test]
fn a_request_that_was_returned_is_over() {
    with_guest(|guest| {
        let chain = one_in_flight(guest);
        guest.queue.add_used(&guest.memory, 0, 0).unwrap();
        let begun = chain.begin_request(&guest.memory, limits_of(8));
        assert!(matches!(begun, Err(QueueError::NotInFlight)));
        let finished = chain.finish_request(&guest.memory, 7, 0);
        assert!(matches!(finished, Err(QueueError::NotInFlight)));
        guest.compare();
    });
}
