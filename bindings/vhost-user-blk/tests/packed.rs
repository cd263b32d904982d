//! The program beside a front end whose rings are packed.

mod front_end;

use front_end::log::SHIFT;
use front_end::packed::{Driver, AVAIL, INDIRECT, NEXT, PACKED, USED, WRITTEN};
use front_end::*;
use std::collections::BTreeSet;
use std::fs::File;
use std::os::fd::OwnedFd;
use std::os::unix::fs::FileExt;
use std::sync::atomic::Ordering::SeqCst;
use std::thread::sleep;
use std::time::{Duration, Instant};

const LEN: usize = 1 << 20;

fn sectors(from: u64, len: usize) -> Vec<u8> {
    image_of(LEN)[512 * from as usize..][..len].to_vec()
}

#[test]
fn requests_go_round_the_ring() {
    // Sizes that are no powers of two, and one that has room for one request alone.
    for size in [3, 7, 64, 100, 1000] {
        for event_idx in [0, EVENT_IDX] {
            let name = format!("packed_{size}_{event_idx}");
            let program = Program::start(&name, LEN, &[]);
            let mut driver = Driver::start(&program, PACKED | event_idx, size);
            for turn in 0..50_u64 {
                // An id is what the driver likes, below the greatest size.
                let id = (turn * 37 % 1024) as u16;
                assert_eq!(driver.request(id, 0, turn, 1024), (0, 1025));
                assert_eq!(driver.data(1024), sectors(turn, 1024));
            }
            let (data, _) = driver.front.places(0, 0);
            driver.front.write(data, &[0xab; 512]);
            assert_eq!(driver.request(1, 1, 9, 512), (0, 1));
            assert_eq!(bytes_at(&program.image, 9 * 512, 512), [0xab; 512]);
            assert_eq!(driver.request(2, 4, 0, 0), (0, 1));
            assert_eq!(driver.request(3, 8, 0, 20), (0, 21));
            assert_eq!(driver.data(20), b"disk.img\0\0\0\0\0\0\0\0\0\0\0\0");
            // 53 requests of three slots.
            let slots = 53 * 3;
            let wrap = slots / u32::from(size) % 2 == 0;
            let place = (slots % u32::from(size)) | (u32::from(wrap) << 15);
            assert_eq!(driver.front.stop_ring(0), place | place << 16);
        }
    }
}

#[test]
fn many_requests_come_back_in_order() {
    let program = Program::start("packed_many", LEN, &["--aio", "none"]);
    let mut driver = Driver::start(&program, PACKED, 50);
    for round in 0..20_u64 {
        for place in 0..16 {
            let chain = driver.chain(place, 0, 16 * round + u64::from(place), 512);
            driver.publish(100 + place, &chain);
        }
        driver.kick();
        for place in 0..16 {
            assert_eq!(driver.take(), (100 + place, 513));
            let (data, status) = driver.front.places(0, 3 * place);
            assert_eq!(driver.front.read(status, 1), [0]);
            assert_eq!(
                driver.front.read(data, 512),
                sectors(16 * round + u64::from(place), 512)
            );
        }
    }
}

#[test]
fn indirect_tables_take_one_slot() {
    let program = Program::start("packed_indirect", LEN, &[]);
    let mut driver = Driver::start(&program, PACKED, 5);
    for turn in 0..23_u64 {
        let table = 7 << 20;
        // No flag of a table's descriptors but WRITE means anything.
        let rows = driver.chain(0, 0, turn, 512).into_iter().map(|(addr, len, flags)| {
            let flags = flags | AVAIL | INDIRECT;
            [&driver.entry(addr, len)[..], &[0xff; 2], &flags.to_le_bytes()].concat()
        });
        let rows: Vec<_> = rows.collect();
        driver.front.write(table, &rows.concat());
        driver.publish(turn as u16, &[(table, 48, INDIRECT)]);
        driver.kick();
        assert_eq!(driver.take(), (turn as u16, 513));
        assert_eq!(driver.data(512), sectors(turn, 512));
    }
    // 23 slots of 5: four rounds and three slots.
    assert_eq!(driver.front.stop_ring(0), 0x8003_8003);
}

#[test]
fn a_ring_goes_on_where_it_stopped() {
    let program = Program::start("packed_stopped", LEN, &[]);
    let mut driver = Driver::start(&program, PACKED, 10);
    for turn in 0..7 {
        driver.request(turn, 0, 1, 512);
        let base = driver.front.stop_ring(0);
        assert_eq!(base, driver.base());
        // What is made available now is served after the ring is started again, and no notification is needed.
        let chain = driver.chain(0, 0, 9, 512);
        driver.publish(77, &chain);
        driver.kick();
        sleep(Duration::from_millis(20));
        assert!(!driver.is_back());
        take(&driver.front.rings[0].kick);
        driver.front.restart_at(0, base);
        assert_eq!(driver.take(), (77, 513));
        assert_eq!(driver.data(512), sectors(9, 512));
    }
}

#[test]
fn a_long_request_ends_before_its_ring_stops() {
    let program = Program::start_on_a_hole("packed_ends", 4 << 30, &[]);
    let mut driver = Driver::start(&program, PACKED, 1000);
    let mut chain = driver.chain(0, 0, 2, 4 << 20);
    chain.splice(1..2, [(8 << 20, 4 << 20, WRITTEN); 64]);
    driver.publish(2, &chain);
    driver.kick();
    program.wait_for_work();
    let base = driver.front.stop_ring(0);
    assert!(driver.is_back());
    assert_eq!(driver.take(), (2, (256 << 20) + 1));
    assert_eq!(base, driver.base());
}

#[test]
fn the_kind_is_chosen_anew() {
    // Firmware takes split rings, then Linux takes packed ones, and then split ones again.
    let program = Program::start("packed_chosen", LEN, &[]);
    let mut front = program.connect();
    front.negotiate(USUAL);
    front.set_memory();
    for round in 0..3 {
        assert!(front.is_done(SET_FEATURES, &USUAL.to_le_bytes(), &[]));
        front.rings.clear();
        front.start_ring(16, 0);
        assert_eq!(front.read_disk(0, round, 512), sectors(round, 512));
        assert_eq!(front.stop_ring(0), 1);
        front.rings.clear();
        assert!(front.is_done(SET_FEATURES, &PACKED.to_le_bytes(), &[]));
        let mut driver = Driver::new(front, 9);
        for id in 0..5 {
            assert_eq!(driver.request(id, 0, round, 512), (0, 513));
            assert_eq!(driver.data(512), sectors(round, 512));
        }
        // 15 slots of 9.
        assert_eq!(driver.front.stop_ring(0), 0x0006_0006);
        front = driver.front;
    }
}

#[test]
fn another_memory_changes_nothing() {
    let program = Program::start("packed_memory", LEN, &[]);
    let mut driver = Driver::start(&program, PACKED, 10);
    let half = RAM as u64 / 2;
    for turn in 0..9 {
        driver.request(turn, 0, 2, 512);
        let ram = again(&driver.front.ram);
        let table = FrontEnd::table(&[(half, half, half), (0, half, 0)]);
        assert!(driver.front.is_done(SET_MEM_TABLE, &table, &[&ram, &ram]));
        driver.request(turn, 0, 2, 512);
        // With no memory at all the ring waits.
        assert!(driver.front.is_done(SET_MEM_TABLE, &FrontEnd::table(&[]), &[]));
        let chain = driver.chain(0, 0, 7, 512);
        driver.publish(8, &chain);
        driver.kick();
        sleep(Duration::from_millis(10));
        assert!(!driver.is_back());
        driver.front.set_memory();
        assert_eq!(driver.take(), (8, 513));
    }
    assert!(driver.front.is_done(SET_MEM_TABLE, &FrontEnd::table(&[]), &[]));
    let base = driver.base();
    assert_eq!(driver.front.stop_ring(0), base);
}

#[test]
fn the_driver_is_interrupted_as_it_asked() {
    let program = Program::start("packed_events", LEN, &[]);
    let mut driver = Driver::start(&program, PACKED | EVENT_IDX, 8);
    // A ring that starts interrupts once.
    driver.request(0, 0, 1, 512);
    program.rest();
    take(&driver.front.rings[0].call);
    // The device asks for the next slot, by its offset.
    assert_eq!(driver.asked(), (0x8003, 2));
    let ask = |driver: &mut Driver| {
        let chain = driver.chain(0, 0, 1, 512);
        driver.publish(1, &chain);
        driver.kick();
        let begun = Instant::now();
        while !driver.is_back() {
            assert!(begun.elapsed() < LONG);
        }
        program.rest();
        let is_told = can_read(&driver.front.rings[0].call, Duration::ZERO);
        driver.take();
        take(&driver.front.rings[0].call);
        is_told
    };
    // No interrupt; one for each; and one for a slot of the next round: slots 6 to 8 and then 1 to 3 are used.
    driver.set_event(0, 1);
    assert!(!ask(&mut driver));
    assert_eq!(driver.asked(), (0x8006, 2));
    driver.set_event(3, 2);
    assert!(!ask(&mut driver));
    assert_eq!(driver.asked(), (0x0001, 2));
    assert!(ask(&mut driver));
    driver.set_event(0, 0);
    assert!(ask(&mut driver));
    assert_eq!(driver.asked(), (0x0007, 2));
}

#[test]
fn without_event_indices_flags_say_it() {
    let program = Program::start("packed_flags", LEN, &[]);
    let mut driver = Driver::start(&program, PACKED, 8);
    driver.request(0, 0, 1, 512);
    program.rest();
    take(&driver.front.rings[0].call);
    for (id, flags) in [0, 1, 1, 0].into_iter().enumerate() {
        driver.set_event(0, flags);
        let chain = driver.chain(0, 0, 1, 512);
        driver.publish(id as u16, &chain);
        driver.kick();
        let begun = Instant::now();
        while !driver.is_back() {
            assert!(begun.elapsed() < LONG);
        }
        program.rest();
        assert_eq!(take(&driver.front.rings[0].call) > 0, flags == 0);
        driver.take();
        // The device asks to be notified of each chain.
        assert_eq!(driver.asked().1, 0);
    }
}

#[test]
fn a_driver_that_breaks_a_rule_is_told() {
    let program = Program::start("packed_broken", LEN, &["--queues", "8"]);
    // Bases: a slot outside of the ring, and more slots out than it has.
    for base in [0x8000_8008, 0x8009_8000, 0x8004_0005] {
        let mut front = program.connect();
        front.negotiate(PACKED);
        front.set_memory();
        front.start_packed_ring(8, base);
        assert!(can_read(&front.rings[0].err, LONG), "{base:#x}");
    }
    let mut driver = Driver::start(&program, PACKED, 4);
    driver.request(1, 0, 1, 512);
    // A chain of more descriptors than the ring has, and an id that is not below the greatest size.
    let (ring, ..) = driver.front.parts(0);
    for slot in 0..4 {
        let wrap = slot == 3;
        let flags = NEXT | if wrap { AVAIL } else { USED };
        driver.front.word(ring + 16 * slot + 14).store(flags, SeqCst);
    }
    driver.kick();
    assert!(can_read(&driver.front.rings[0].err, LONG));
    let base = driver.front.stop_ring(0);
    assert_eq!(base, driver.base());
    take(&driver.front.rings[0].err);
    driver.front.restart_at(0, base);
    let chain = driver.chain(0, 0, 1, 512);
    driver.publish(1024, &chain);
    driver.kick();
    assert!(can_read(&driver.front.rings[0].err, LONG));
}

#[test]
fn requests_go_through_the_table() {
    for (name, words) in [("packed_iotlb_8", IOMMU_8), ("packed_iotlb", IOMMU)] {
        for event_idx in [0, EVENT_IDX] {
            let program = Program::start(&format!("{name}_{event_idx}"), LEN, words);
            let mut driver = Driver::start(&program, PACKED | ACCESS_PLATFORM | event_idx, 11);
            for turn in 0..20_u64 {
                let page = SHIFT + driver.front.places(0, 0).0 as u64;
                for at in 0..3 {
                    let to = (8 << 20) + PAGE * ((7 * turn + 5 * at) % 64);
                    driver.front.remap(page + PAGE * at, Some((to, READ | WRITE)));
                }
                assert_eq!(
                    driver.request(turn as u16, 0, turn, 3 * PAGE as u32),
                    (0, 3 * PAGE as u32 + 1)
                );
                for at in 0..3 {
                    let to = (8 << 20) + PAGE * ((7 * turn + 5 * at) % 64);
                    let wanted = sectors(turn + 8 * at, PAGE as usize);
                    assert_eq!(driver.front.read(to as usize, PAGE as usize), wanted);
                }
            }
        }
    }
}

#[test]
fn a_ring_that_waits_can_be_stopped() {
    use std::io::Write;
    let program = Program::start("packed_waits", LEN, IOMMU_8);
    let mut driver = Driver::start(&program, PACKED | ACCESS_PLATFORM, 5);
    for turn in 0..7 {
        driver.request(turn, 0, 1, 512);
        driver.settle(&program);
        let data = driver.front.places(0, 0).0 as u64;
        driver.front.remap(SHIFT + data, Some((data, READ | WRITE)));
        let chain = driver.chain(0, 0, 2, 512);
        driver.publish(9, &chain);
        driver.kick();
        let begun = Instant::now();
        let miss = loop {
            assert!(begun.elapsed() < LONG, "no miss comes");
            if let Some(message) = driver.front.asked() {
                break u64::from_le_bytes(message[12..20].try_into().unwrap());
            }
            sleep(Duration::from_millis(1));
        };
        assert_eq!(miss, SHIFT + data);
        // The request is the next one still: nothing is out.
        let used = u32::from(driver.used.bits());
        assert_eq!(driver.front.stop_ring(0), used | used << 16);
        let reply = [&[1, 5, 8].map(u32::to_le_bytes).concat()[..], &[0; 8]].concat();
        driver.front.io().channel.write_all(&reply).unwrap();
        take(&driver.front.rings[0].kick);
        assert!(!driver.is_back());
        driver.front.restart_at(0, used | used << 16);
        assert_eq!(driver.take(), (9, 513));
        assert_eq!(driver.data(512), sectors(2, 512));
    }
}

#[test]
fn a_notification_while_it_waits_is_not_lost() {
    let program = Program::start("packed_notified", LEN, IOMMU);
    let mut driver = Driver::start(&program, PACKED | ACCESS_PLATFORM, 8);
    // The first interrupt needs no look at the driver's area, so that this is not mapped yet.
    driver.request(0, 0, 1, 512);
    driver.settle(&program);
    for id in 1..3 {
        let chain = driver.chain(0, 0, 1, 512);
        driver.publish(id, &chain);
        driver.kick();
        program.rest();
    }
    // The first of both is back, and the turn waits for that mapping.
    assert!(driver.is_back());
    assert_eq!(driver.take(), (1, 513));
    assert_eq!(driver.take(), (2, 513));
}

// The pages that are marked in a log, which are cleared.
fn taken(log: &OwnedFd) -> BTreeSet<u64> {
    let mut bytes = [0; RAM / PAGE as usize / 8];
    let file = File::from(again(log));
    file.read_exact_at(&mut bytes, 0).unwrap();
    file.write_all_at(&[0; RAM / PAGE as usize / 8], 0).unwrap();
    let is_set = |page: &u64| bytes[(page / 8) as usize] >> (page % 8) & 1 == 1;
    (0..RAM as u64 / PAGE).filter(is_set).collect()
}

// Of the larger ring a quarter was never asked for.
#[test]
fn the_pages_that_are_written_are_marked() {
    for (table, words, size, before) in [
        (0, &[][..], 64, 1),
        (0, IOMMU, 64, 1),
        (ACCESS_PLATFORM, IOMMU, 64, 1),
        (0, &[], 1024, 200),
        (ACCESS_PLATFORM, IOMMU, 1024, 200),
    ] {
        let program = Program::start(&format!("packed_log_{table}_{size}"), LEN, words);
        let features = PACKED | table;
        let mut driver = Driver::start(&program, features, size);
        for _ in 0..before {
            driver.request(0, 0, 1, 512);
        }
        driver.settle(&program);
        let len = RAM as u64 / PAGE / 8;
        let log = memfd(len as usize);
        let front = &mut driver.front;
        front.send(SET_LOG_BASE, 0, &longs(&[len, 0]), &[&log]);
        assert!(front.reply(SET_LOG_BASE).is_empty());
        assert!(front.is_done(SET_FEATURES, &(features | LOG_ALL).to_le_bytes(), &[]));
        let addresses = front.addresses(0, true);
        assert!(front.is_done(SET_VRING_ADDR, &addresses, &[]));
        program.rest();
        taken(&log);
        driver.request(0, 0, 2, 512);
        driver.settle(&program);
        let (ring, _, device) = driver.front.parts(0);
        let (data, status) = driver.front.places(0, 0);
        // The request before it took three slots as well.
        let slot = ring + 16 * (3 * before % size as usize);
        let must = BTreeSet::from([slot, device, data, status].map(|it| it as u64 / PAGE));
        let may = (ring as u64..ring as u64 + 16 * u64::from(size)).map(|it| it / PAGE);
        let taken = taken(&log);
        assert!(taken.is_superset(&must), "{taken:?}, not {must:?}");
        assert!(taken.is_subset(&must.iter().copied().chain(may).collect()), "{taken:?}");
    }
}
