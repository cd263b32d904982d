//! The log of dirty pages with --iommu: what the program marks there.

mod front_end;

use front_end::log::*;
use front_end::*;
use std::collections::BTreeSet;

const LEN: usize = 1 << 20;
const MIB: usize = 1 << 20;

#[test]
fn marks_are_of_what_was_reached() {
    let features = USUAL | ACCESS_PLATFORM;
    let program = Program::start("log_reached", LEN, IOMMU);
    let mut front = started(&program, features);
    front.read_disk(0, 1, 512);
    let log = begin(&mut front, features, LOG_LEN);
    // The page of the data leads elsewhere, and is taken back at once.
    let (data, status) = front.places(0, 0);
    let other = 10 << 20;
    front.remap(SHIFT + data as u64, Some((other, WRITE)));
    program.rest();
    taken(&log);
    assert_eq!(front.request(0, 0, 5, 512), (0, 513));
    front.remap(SHIFT + data as u64, None);
    let used = front.used_ring(0);
    assert_eq!(taken(&log), pages(&[other, status as u64, used]));
}

// Behind a table each page of I/O addresses leads to another one of guest memory.
#[test]
fn marks_are_of_what_segments_reached() {
    for (name, words) in [("log_segments", IOMMU), ("log_segments_8", IOMMU_8)] {
        let features = USUAL | ACCESS_PLATFORM;
        let program = Program::start(name, LEN, words);
        let mut front = started(&program, features);
        let log = begin(&mut front, features, LOG_LEN);
        let to = |page: usize| 12 * MIB + 4096 * (page * 37 % 256);
        for page in 0..256 {
            let from = SHIFT + (8 * MIB + 4096 * page) as u64;
            front.io().pages.insert(from, (to(page) as u64, READ | WRITE));
        }
        let used = pages(&[front.used_ring(0)]);
        put_header(&front, 0, 3);
        for data in [
            &[(8 * MIB + 4000, 200), (8 * MIB + 9 * 4096 + 5, 824)][..],
            &[
                (8 * MIB + 100, 5000),
                (8 * MIB + 300_009, 300_000),
                (8 * MIB + 700_000, 55_960),
            ],
        ] {
            let (status, count) = (8 * MIB + 255 * 4096 + 7, data.iter().map(|it| it.1).sum::<usize>());
            program.rest();
            taken(&log);
            let (written, found) = marked(&program, &mut front, &log, &chain_of(data, status));
            assert_eq!(written as usize, count + 1);
            let reached = |page: u64| to(page as usize - 2048) as u64 / PAGE;
            let segments = &pages_of(data) | &pages_of(&[(status, 1)]);
            let wanted: BTreeSet<u64> = segments.into_iter().map(reached).collect();
            assert_eq!(found, &wanted | &used);
        }
    }
}

// A request that waits for a mapping wrote nothing yet, and so nothing is marked when its ring stops.
#[test]
fn nothing_is_written_before_a_request_has_its_mappings() {
    let features = USUAL | ACCESS_PLATFORM;
    let program = Program::start("log_waits", LEN, IOMMU);
    let mut front = started(&program, features);
    let log = begin(&mut front, features, LOG_LEN);
    front.read_disk(0, 1, 512);
    program.rest();
    taken(&log);
    let missing = SHIFT + 8 * MIB as u64 + 70 * PAGE;
    let pages_there: Vec<_> = (0..80).map(|page| (8 * MIB + 4096 * page, 4096)).collect();
    front.put_long(1, 0, 0, &pages_there);
    front.publish(0, 1);
    front.kick(0);
    front.hold(missing);
    for page in 0..70 {
        front.remap(SHIFT + 8 * MIB as u64 + page * PAGE, None);
    }
    assert_eq!(front.stop_ring(0), 1);
    let found = taken(&log);
    assert!(found.is_empty(), "{found:?}");
    assert!(front.read(8 * MIB, 70 * 4096) == vec![0; 70 * 4096]);
}

// Writes are logged from a time on at which a request waits for a mapping: all of it is marked.
#[test]
fn marks_begin_while_a_request_waits() {
    let features = USUAL | ACCESS_PLATFORM;
    let program = Program::start("log_begins", LEN, IOMMU);
    let mut front = started(&program, features);
    let missing = SHIFT + 9 * MIB as u64;
    let data = [(8 * MIB, 1024), (9 * MIB, 4096)];
    let status = front.put_long(1, 0, 7, &data);
    front.publish(0, 1);
    front.kick(0);
    front.hold(missing);
    let log = begin(&mut front, features, LOG_LEN);
    front.answer(missing);
    assert_eq!(front.take_used(0), (1, 5121));
    program.rest();
    assert_eq!(
        taken(&log),
        &pages_of(&[data[0], data[1], (status, 1)]) | &pages(&[front.used_ring(0)])
    );
    let bytes = [front.read(8 * MIB, 1024), front.read(9 * MIB, 4096)].concat();
    assert!(bytes == image_of(LEN)[7 * 512..7 * 512 + 5120]);
}
