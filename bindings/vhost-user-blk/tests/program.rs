//! The program beside a front end that keeps the protocol, and one whose memory goes away.

mod front_end;

use front_end::*;
use std::fs::{self, File};
use std::os::unix::net::UnixStream;
use std::path::Path;
use std::thread::sleep;
use std::time::{Duration, Instant};

const LEN: usize = 1 << 20;
const SECTORS: u64 = (LEN / 512) as u64;

fn started(program: &Program, features: u64) -> FrontEnd {
    let mut front = program.connect();
    front.negotiate(features);
    front.set_memory();
    front.start_ring(64, 0);
    front
}

#[test]
fn requests_reach_the_image() {
    // A driver may refuse ACCESS_PLATFORM.
    for (name, words) in [("requests", &[][..]), ("requests_refused", IOMMU)] {
        // The last 100 bytes are no part of the disk.
        reach_the_image(&Program::start(name, LEN + 100, words));
    }
}

fn reach_the_image(program: &Program) {
    let mut front = started(program, USUAL);
    assert_eq!(front.read_disk(0, 7, 1024), image_of(LEN)[7 * 512..9 * 512]);
    front.write_disk(0, SECTORS - 1, &[0xab; 512]);
    assert_eq!(front.read_disk(0, SECTORS - 1, 512), [0xab; 512]);
    assert_eq!(bytes_at(&program.image, LEN as u64 - 512, 512), [0xab; 512]);
    // A flush; the name, as long as there is room for it; what the device does not know.
    assert_eq!(front.request(0, 4, 0, 0), (0, 1));
    assert_eq!(front.request(0, 8, 0, 20), (0, 21));
    let name = front.read(front.places(0, 0).0, 20);
    assert_eq!(name, b"disk.img\0\0\0\0\0\0\0\0\0\0\0\0");
    assert_eq!(front.request(0, 8, 0, 4), (0, 5));
    assert_eq!(front.request(0, 11, 0, 16).0, 2);
    // Past the end, and no whole sector. The image stays.
    assert_eq!(front.request(0, 0, SECTORS, 512).0, 1);
    assert_eq!(front.request(0, 1, SECTORS - 1, 1024).0, 1);
    assert_eq!(front.request(0, 1, 0, 511).0, 1);
    assert_eq!(front.request(0, 0, u64::MAX, 512).0, 1);
    let mut wanted = image_of(LEN + 100);
    wanted[LEN - 512..LEN].fill(0xab);
    assert_eq!(fs::read(&program.image).unwrap(), wanted);
}

// An image of 2 TiB, most of which is a hole: sectors around 2^31, 2^32 and 2^40 bytes, and the last one.
#[test]
fn a_large_image_is_written_in_place() {
    let folder = Path::new(env!("CARGO_TARGET_TMPDIR")).join("large");
    let _ = fs::remove_dir_all(&folder);
    fs::create_dir_all(&folder).unwrap();
    File::create(folder.join("disk.img")).unwrap().set_len(1 << 41).unwrap();
    let program = Program::start_again(&folder, &[]);
    let mut front = started(&program, USUAL);
    let places = [31, 32, 40, 41].map(|bits| (1_u64 << bits) / 512);
    let sectors: Vec<u64> = places.iter().flat_map(|place| [place - 1, *place]).collect();
    for (i, &sector) in sectors[..7].iter().enumerate() {
        front.write_disk(0, sector, &[i as u8 + 1; 512]);
    }
    for (i, &sector) in sectors[..7].iter().enumerate() {
        assert_eq!(front.read_disk(0, sector, 512), [i as u8 + 1; 512]);
        assert_eq!(bytes_at(&program.image, 512 * sector, 512), [i as u8 + 1; 512]);
    }
    assert_eq!(front.request(0, 1, sectors[7], 512).0, 1);
    assert_eq!(front.read_disk(0, 0, 512), [0; 512]);
    assert_eq!(fs::metadata(&program.image).unwrap().len(), 1 << 41);
}

#[test]
fn the_configuration_tells_the_disk() {
    let three = ["--queues", "3"];
    let with_iommu = [&three, IOMMU].concat();
    for (name, words, features) in [
        ("configuration", &three[..], 0x5_7400_1246),
        ("configuration_iommu", &with_iommu, 0x7_7400_1246),
    ] {
        let program = Program::start(name, LEN, words);
        let mut front = program.connect();
        assert_eq!(front.ask_u64(GET_FEATURES), features);
        expect_configuration(front);
    }
}

fn expect_configuration(mut front: FrontEnd) {
    assert_eq!(front.ask_u64(GET_PROTOCOL_FEATURES), 0x122b);
    front.negotiate(USUAL | 1 << 12);
    assert_eq!(front.ask_u64(GET_QUEUE_NUM), 3);
    let mut asked = [0, 60, 0].map(u32::to_le_bytes).concat();
    asked.extend([0; 60]);
    let config = front.ask(GET_CONFIG, &asked);
    assert_eq!(config[..12], asked[..12]);
    let config = &config[12..];
    assert_eq!(config.len(), 60);
    assert_eq!(config[..8], SECTORS.to_le_bytes());
    assert_eq!(config[8..12], (4_u32 << 20).to_le_bytes());
    assert_eq!(config[12..16], 126_u32.to_le_bytes());
    assert_eq!(config[20..24], 512_u32.to_le_bytes());
    assert_eq!(config[34..36], 3_u16.to_le_bytes());
}

#[test]
fn a_disk_that_is_only_read_stays() {
    let program = Program::start("read_only", LEN, &["--read-only"]);
    let mut front = started(&program, USUAL | 1 << 5);
    assert_eq!(front.request(0, 1, 0, 512).0, 1);
    assert_eq!(front.read_disk(0, 3, 512), image_of(LEN)[3 * 512..4 * 512]);
    assert_eq!(front.request(0, 4, 0, 0), (0, 1));
    assert_eq!(fs::read(&program.image).unwrap(), image_of(LEN));
}

#[test]
fn without_a_cache_no_flush_is_offered() {
    let program = Program::start("write_through", LEN, &["--write-through"]);
    let mut front = program.connect();
    assert_eq!(front.ask_u64(GET_FEATURES) & FLUSH, 0);
    front.negotiate(USUAL & !FLUSH);
    front.set_memory();
    front.start_ring(64, 0);
    front.write_disk(0, 5, &[7; 1024]);
    assert_eq!(bytes_at(&program.image, 5 * 512, 1024), [7; 1024]);
}

#[test]
fn long_requests_are_whole() {
    // A request of one piece more than a mebibyte, in segments that do not end with pieces.
    let program = Program::start("long", 4 << 20, &[]);
    let mut front = started(&program, USUAL);
    let (from, len) = (8 << 20, (1 << 20) + 512);
    front.put_request(0, 0, 0, 3, 512);
    let (_, status) = front.places(0, 0);
    let table = 7 << 20;
    let entry = |addr: usize, len: usize, flags: u16, next: u16| {
        [
            &(addr as u64).to_le_bytes()[..],
            &(len as u32).to_le_bytes(),
            &flags.to_le_bytes(),
            &next.to_le_bytes(),
        ]
        .concat()
    };
    let header = front.places(0, 0).0 - 0x1000;
    let list = [
        entry(header, 16, 1, 1),
        entry(from, 131_073, 3, 2),
        entry(from + 131_073, len - 131_073, 3, 3),
        entry(status, 1, 2, 0),
    ];
    front.write(table, &list.concat());
    front.write((1 << 20) + 0x3f0, &entry(table, 64, 4, 0));
    front.publish(0, 63);
    front.kick(0);
    assert_eq!(front.take_used(0), (63, len as u32 + 1));
    assert_eq!(front.read(status, 1), [0]);
    assert_eq!(front.read(from, len), image_of(4 << 20)[3 * 512..3 * 512 + len]);
}

// Each segment of the data begins in one region and ends in the next one: one call of the system takes 1,024 pieces.
#[test]
fn a_request_has_more_pieces_than_a_call_takes() {
    let program = Program::start("pieces", LEN, &[]);
    let mut front = started(&program, USUAL);
    let (ram, half) = (again(&front.ram), RAM as u64 / 2);
    let table = FrontEnd::table(&[(0, half, 0), (half, half, half)]);
    assert!(front.is_done(SET_MEM_TABLE, &table, &[&ram, &ram]));
    let from = half as usize - 200;
    let bytes: Vec<u8> = (0..512).map(|at| (at * 31) as u8).collect();
    front.write(from, &bytes);
    let mut wanted = image_of(LEN);
    for (kind, sector) in [(1, 7), (0, 1029)] {
        let status = front.put_long(0, kind, sector, &[(from, 512); 1018]);
        front.publish(0, 0);
        front.kick(0);
        let written = if kind == 1 { 1 } else { 1018 * 512 + 1 };
        assert_eq!(front.take_used(0), (0, written));
        assert_eq!(front.read(status, 1), [0]);
        wanted[7 * 512..1025 * 512].copy_from_slice(&bytes.repeat(1018));
        assert!(fs::read(&program.image).unwrap() == wanted);
    }
    // Of a read the last sector stays.
    assert_eq!(front.read(from, 512), wanted[2046 * 512..2047 * 512]);
}

#[test]
fn a_name_fills_segments() {
    let program = Program::start("name", LEN, &[]);
    let mut front = started(&program, USUAL);
    let (first, second) = (9 << 20, 10 << 20);
    front.put_long(0, 8, 0, &[(first, 3), (second, 17)]);
    front.publish(0, 0);
    front.kick(0);
    assert_eq!(front.take_used(0), (0, 21));
    assert_eq!(front.read(first, 4), b"dis\0");
    assert_eq!(front.read(second, 18), b"k.img\0\0\0\0\0\0\0\0\0\0\0\0\0");
}

#[test]
fn a_ring_goes_on_where_it_stopped() {
    let program = Program::start("stopped", LEN, &[]);
    let mut front = started(&program, USUAL);
    for _ in 0..5 {
        front.read_disk(0, 1, 512);
    }
    assert_eq!(front.stop_ring(0), 5);
    // What is published now is served after the ring is started again, and no notification is needed.
    front.put_request(0, 0, 0, 9, 512);
    front.publish(0, 0);
    front.kick(0);
    sleep(Duration::from_millis(100));
    assert_eq!(front.used_idx(0), 5);
    take(&front.rings[0].kick);
    front.restart_ring(0, 5);
    assert_eq!(front.take_used(0), (0, 513));
    assert_eq!(front.read(front.places(0, 0).0, 512), image_of(LEN)[9 * 512..10 * 512]);
    assert_eq!(front.stop_ring(0), 6);
    // Near the end of the indices, in a ring of another size.
    front.rings.clear();
    front.start_ring(16, 0xfffe);
    for _ in 0..5 {
        front.read_disk(0, 2, 512);
    }
    assert_eq!(front.stop_ring(0), 3);
}

#[test]
fn a_ring_that_is_disabled_waits() {
    let program = Program::start("disabled", LEN, &[]);
    let mut front = started(&program, USUAL);
    front.read_disk(0, 1, 512);
    assert!(front.is_done(SET_VRING_ENABLE, &two(0, 0), &[]));
    front.put_request(0, 0, 0, 2, 512);
    front.publish(0, 0);
    front.kick(0);
    sleep(Duration::from_millis(100));
    assert_eq!(front.used_idx(0), 1);
    assert!(front.is_done(SET_VRING_ENABLE, &two(0, 1), &[]));
    assert_eq!(front.take_used(0), (0, 513));
    assert_eq!(front.stop_ring(0), 2);
}

#[test]
fn the_driver_is_interrupted_as_it_asked() {
    let program = Program::start("event_indices", LEN, &[]);
    let mut front = started(&program, USUAL | EVENT_IDX);
    // A ring that starts interrupts once, and the first entry is the one that the driver asks for.
    front.read_disk(0, 1, 512);
    program.rest();
    take(&front.rings[0].call);
    // It asks for the fourth entry from here, and is not interrupted before.
    front.set_used_event(0, 4);
    for done in 1..=5_u16 {
        front.put_request(0, 0, 0, 1, 512);
        front.publish(0, 0);
        // The device asked for this one.
        assert_eq!(front.avail_event(0), done);
        front.kick(0);
        let begun = Instant::now();
        while front.used_idx(0) != done + 1 || front.avail_event(0) != done + 1 {
            assert!(begun.elapsed() < LONG);
        }
        front.rings[0].next_used = done + 1;
        // What it had to say it has said once it rests.
        program.rest();
        assert_eq!(can_read(&front.rings[0].call, Duration::ZERO), done >= 4);
    }
    assert_eq!(take(&front.rings[0].call), 1);
}

#[test]
fn the_same_memory_changes_nothing() {
    // What is under way at once has a mapping of its own.
    for (name, words, mappings) in [
        ("same_memory", &[][..], 2),
        ("same_memory_threads", &["--aio", "threads"], 2),
        ("same_memory_none", &["--aio", "none"], 1),
    ] {
        expect_no_change(&Program::start(name, LEN, words), mappings);
    }
}

fn expect_no_change(program: &Program, mappings: u64) {
    let mut front = started(program, USUAL);
    let (descriptors, shared) = (program.descriptors(), program.shared());
    assert_eq!(shared, mappings * RAM as u64);
    for _ in 0..50 {
        front.set_memory();
        front.read_disk(0, 4, 512);
    }
    assert_eq!((program.descriptors(), program.shared()), (descriptors, shared));
    // Another table: the same file in two parts. The ring goes on.
    let ram = again(&front.ram);
    let half = RAM as u64 / 2;
    for _ in 0..50 {
        let table = FrontEnd::table(&[(half, half, half), (0, half, 0)]);
        assert!(front.is_done(SET_MEM_TABLE, &table, &[&ram, &ram]));
        assert_eq!(front.read_disk(0, 5, 512), image_of(LEN)[5 * 512..6 * 512]);
        front.set_memory();
        assert_eq!(front.read_disk(0, 6, 512), image_of(LEN)[6 * 512..7 * 512]);
    }
    assert_eq!((program.descriptors(), program.shared()), (descriptors, shared));
    // With no memory at all the ring waits.
    assert!(front.is_done(SET_MEM_TABLE, &FrontEnd::table(&[]), &[]));
    front.put_request(0, 0, 0, 7, 512);
    front.publish(0, 0);
    front.kick(0);
    sleep(Duration::from_millis(50));
    assert_eq!(front.used_idx(0), 150);
    front.set_memory();
    assert_eq!(front.take_used(0), (0, 513));
    assert!(front.is_done(SET_MEM_TABLE, &FrontEnd::table(&[]), &[]));
    assert_eq!(front.stop_ring(0), 151);
}

#[test]
fn regions_that_share_bytes_are_refused() {
    let mut program = Program::start("shared_bytes", LEN, &[]);
    let half = RAM as u64 / 2;
    // Twice the same bytes, a part of a page, and more than the file has.
    for regions in [
        &[(0, half, 0), (half, half, half - 4096)][..],
        &[(0, 4097, 0)],
        &[(0, 4096, 512)],
        &[(0, 4096, RAM as u64)],
    ] {
        let mut front = program.connect();
        front.negotiate(USUAL);
        let ram = again(&front.ram);
        let files: Vec<_> = regions.iter().map(|_| &ram).collect();
        assert!(
            !front.is_done(SET_MEM_TABLE, &FrontEnd::table(regions), &files),
            "{regions:?}"
        );
        assert!(front.is_let_go());
    }
    assert!(program.lives());
    started(&program, USUAL).read_disk(0, 1, 512);
}

#[test]
fn memory_that_goes_away_ends_the_connection() {
    let mut program = Program::start("lost_memory", LEN, &[]);
    for kind in [0, 1] {
        let mut front = started(&program, USUAL);
        front.read_disk(0, 1, 512);
        // The ring stays, and the data go.
        front.put_request(0, 0, kind, 8, 512);
        let data = front.places(0, 0).0;
        let table = 7 << 20;
        let entry = |addr: usize, len: u32, flags: u16, next: u16| {
            [
                &(addr as u64).to_le_bytes()[..],
                &len.to_le_bytes(),
                &flags.to_le_bytes(),
                &next.to_le_bytes(),
            ]
            .concat()
        };
        let list = [
            entry(data - 0x1000, 16, 1, 1),
            entry(12 << 20, 512, if kind == 0 { 3 } else { 1 }, 2),
            entry(data - 0x800, 1, 2, 0),
        ];
        front.write(table, &list.concat());
        front.write((1 << 20) + 0x3f0, &entry(table, 48, 4, 0));
        File::from(again(&front.ram)).set_len(10 << 20).unwrap();
        front.publish(0, 63);
        front.kick(0);
        assert!(front.is_let_go());
        // It was not finished.
        assert_eq!(front.used_idx(0), 1);
    }
    // All of it goes.
    let mut front = started(&program, USUAL);
    front.read_disk(0, 1, 512);
    File::from(again(&front.ram)).set_len(0).unwrap();
    front.kick(0);
    assert!(front.is_let_go());
    assert!(program.lives());
    assert_eq!(fs::read(&program.image).unwrap(), image_of(LEN));
    assert_eq!(
        started(&program, USUAL).read_disk(0, 2, 512),
        image_of(LEN)[2 * 512..3 * 512]
    );
}

#[test]
fn a_driver_that_breaks_a_rule_is_told() {
    let program = Program::start("broken", LEN, &["--queues", "3"]);
    let mut front = started(&program, USUAL);
    front.start_ring(16, 0);
    front.read_disk(0, 1, 512);
    program.rest();
    take(&front.rings[0].call);
    // A head past the ring. The driver is interrupted for the request before it.
    front.put_request(0, 0, 0, 2, 512);
    front.publish(0, 0);
    front.publish(0, 64);
    front.kick(0);
    assert!(can_read(&front.rings[0].err, LONG));
    assert!(can_read(&front.rings[0].call, LONG));
    assert_eq!(front.take_used(0), (0, 513));
    // The other ring goes on, and this one once it is started again.
    assert_eq!(front.read_disk(1, 3, 512), image_of(LEN)[3 * 512..4 * 512]);
    assert_eq!(front.stop_ring(0), 2);
    front.rings[0].next_avail = 2;
    front
        .word((1 << 20) + 0x4002)
        .store(2, std::sync::atomic::Ordering::SeqCst);
    front.restart_ring(0, 2);
    assert_eq!(front.read_disk(0, 4, 512), image_of(LEN)[4 * 512..5 * 512]);
    // The size of a split ring is a power of two.
    front.start_ring(3, 0);
    assert!(can_read(&front.rings[2].err, LONG));
}

#[test]
fn a_ring_without_a_descriptor_is_looked_at() {
    let program = Program::start("polled", LEN, &[]);
    let mut front = started(&program, USUAL);
    assert!(front.is_done(SET_VRING_KICK, &0x100_u64.to_le_bytes(), &[]));
    for sector in 0..5 {
        front.put_request(0, 0, 0, sector, 512);
        front.publish(0, 0);
        assert_eq!(front.take_used(0), (0, 513));
    }
}

#[test]
fn a_message_may_come_in_pieces() {
    let program = Program::start("pieces", LEN, &[]);
    let mut front = program.connect();
    front.negotiate(USUAL);
    let ram = again(&front.ram);
    let bytes = message(SET_MEM_TABLE, NEED_REPLY, &FrontEnd::table(&[(0, RAM as u64, 0)]));
    for cut in 1..bytes.len() {
        use std::os::fd::AsRawFd;
        // The descriptor comes with the first bytes.
        assert!(send(&front.socket, &bytes[..cut], &[ram.as_raw_fd()]));
        sleep(Duration::from_millis(1));
        assert!(send(&front.socket, &bytes[cut..], &[]));
        assert_eq!(front.reply(SET_MEM_TABLE), [0; 8]);
    }
    front.start_ring(8, 0);
    front.read_disk(0, 1, 512);
}

#[test]
fn what_breaks_the_protocol_ends_the_connection() {
    let mut program = Program::start("protocol", LEN, &[]);
    let descriptors = program.descriptors();
    let ram = memfd(4096);
    // Messages, with how many descriptors: a version that is not 1, a reply, numbers that no request has or that was
    // not offered, payloads and descriptors that do not fit.
    for (request, flags, payload, count) in [
        (GET_FEATURES, 2, vec![], 0),
        (GET_FEATURES, REPLY, vec![], 0),
        (0, 0, vec![], 0),
        (u32::MAX, 0, vec![], 0),
        (GET_FEATURES, 0, vec![0; 8], 0),
        (SET_FEATURES, 0, u64::MAX.to_le_bytes().to_vec(), 0),
        (SET_LOG_BASE, 0, vec![0; 16], 1),
        (SET_MEM_TABLE, 0, FrontEnd::table(&[(0, 4096, 0)]), 0),
        (SET_MEM_TABLE, 0, FrontEnd::table(&[(0, 4096, 0)]), 2),
        (SET_MEM_TABLE, 0, FrontEnd::table(&[(0, 4096, 0)]), 12),
        (SET_VRING_NUM, 0, two(1, 4), 0),
        (SET_VRING_NUM, 0, two(0, 4), 1),
        (SET_VRING_NUM, 0, two(0, 2048), 0),
        (SET_VRING_ENABLE, 0, two(0, 1), 0),
        (21, 0, vec![], 1),
        (28, 0, vec![], 0),
    ] {
        use std::os::fd::AsRawFd;
        let mut front = program.connect();
        let all = vec![ram.as_raw_fd(); count];
        send(&front.socket, &message(request, flags, &payload), &all);
        assert!(front.is_let_go(), "{request} {flags} {payload:?} {count}");
    }
    assert!(program.lives());
    started(&program, USUAL).read_disk(0, 1, 512);
    assert_eq!(program.descriptors(), descriptors);
}

#[test]
fn a_message_that_is_refused_is_answered() {
    let program = Program::start("refused", LEN, &[]);
    let mut front = program.connect();
    front.negotiate(USUAL);
    assert!(!front.is_done(SET_VRING_NUM, &two(7, 4), &[]));
    assert!(front.is_let_go());
}

#[test]
fn front_ends_come_one_after_another() {
    let program = Program::start("reconnects", LEN, &["--stats", "1"]);
    for round in 0..20 {
        let mut front = started(&program, USUAL);
        front.write_disk(0, round, &[round as u8; 512]);
    }
    let mut wanted = image_of(LEN);
    for round in 0..20 {
        wanted[512 * round..512 * (round + 1)].fill(round as u8);
    }
    // A second one waits until the first has gone.
    let first = started(&program, USUAL);
    let second = UnixStream::connect(program.folder.join("s")).unwrap();
    send(&second, &message(GET_FEATURES, 0, &[]), &[]);
    assert!(!can_read(&second, Duration::from_millis(100)));
    drop(first);
    assert!(can_read(&second, LONG));
    assert_eq!(fs::read(&program.image).unwrap(), wanted);
}

#[test]
fn a_signal_ends_it() {
    for signal in [libc::SIGTERM, libc::SIGINT] {
        let program = Program::start(&format!("signal{signal}"), LEN, &[]);
        let mut front = started(&program, USUAL);
        front.write_disk(0, 1, &[9; 512]);
        let (folder, image) = (program.folder.clone(), program.image.clone());
        assert!(program.end(signal).success());
        assert!(front.is_let_go());
        assert!(!folder.join("s").exists());
        assert_eq!(bytes_at(&image, 512, 512), [9; 512]);
    }
    // With no front end, too. One that was killed leaves its socket, and the next one takes its place.
    let program = Program::start("signals", LEN, &[]);
    let folder = program.folder.clone();
    assert!(!program.end(libc::SIGKILL).success());
    assert!(folder.join("s").exists());
    let program = Program::start_again(&folder, &[]);
    started(&program, USUAL).read_disk(0, 1, 512);
    sleep(Duration::from_millis(50));
    assert!(program.end(libc::SIGTERM).success());
}
