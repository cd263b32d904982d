//! The program is killed while requests are under way, and another one goes on by the region that the front end kept.

mod front_end;

use front_end::inflight::{read_of, set_up, started, started_packed, SIZE};
use front_end::log::{begin, taken, LOG_LEN};
use front_end::packed::{Driver, Place, FRESH, PACKED};
use front_end::*;
use std::collections::BTreeMap;
use std::fs::File;
use std::os::fd::{AsRawFd, FromRawFd, OwnedFd};
use std::os::unix::fs::FileExt;
use std::os::unix::net::UnixStream;
use std::process::Command;
use std::thread::sleep;
use std::time::{Duration, Instant};

const LEN: usize = 1 << 20;
const UNSUPPORTED: u32 = 11;

// Requests are served one after another, or many at once by threads.
const ONE: &[&str] = &["--aio", "none"];
const IOMMU_ONE: &[&str] = &["--iommu", "--aio", "none"];
const THREADS: &[&str] = &["--aio", "threads"];

// Another program goes on, and nobody notifies it.
fn go_on(front: &mut FrontEnd, program: &Program, features: u64, region: &Region, base: u32) {
    front.connect_again(program);
    front.negotiate(features);
    set_up(front, features, Some(region));
    for index in 0..front.rings.len() {
        take(&front.rings[index].kick);
        front.restart_at(index, base);
    }
}

fn kill(program: Program) {
    program.end(libc::SIGKILL);
}

#[test]
fn a_region_is_made_for_a_front_end() {
    for (name, features) in [("inflight_made", USUAL), ("inflight_made_packed", PACKED)] {
        expect_regions(name, features);
    }
}

fn expect_regions(name: &str, features: u64) {
    let program = Program::start(name, LEN, &["--queues", "3"]);
    let mut front = program.connect();
    front.negotiate(features);
    let descriptors = program.descriptors();
    for (rings, size) in [(1, 1), (1, 64), (3, 128), (3, 1024)] {
        let region = front.new_region(rings, size);
        assert_eq!((region.size, region.offset), (u64::from(rings) * region.part_len(), 0));
        let file = File::from(again(&region.file));
        assert_eq!(file.metadata().unwrap().len(), region.size);
        assert_eq!(region.read(0, region.size as usize), vec![0; region.size as usize]);
        // It cannot shrink while it is mapped.
        assert!(file.set_len(0).is_err());
    }
    // The front end has the only descriptor of each.
    assert_eq!(program.descriptors(), descriptors);
    // A later region takes the place of the one before.
    let regions = [0; 3].map(|_| front.new_region(1, 64));
    let page = 4096;
    for region in &regions {
        assert!(front.give_region(region));
        assert_eq!(program.shared(), page);
    }
    assert_eq!(program.descriptors(), descriptors);
}

// The request that comes back first is not the one that was popped first.
#[test]
fn a_request_is_served_again_after_a_kill() {
    for (name, words, features) in [
        ("inflight_killed", ONE, USUAL),
        ("inflight_killed_event_idx", ONE, USUAL | EVENT_IDX),
        ("inflight_killed_iommu", IOMMU_ONE, USUAL | ACCESS_PLATFORM),
        ("inflight_killed_uring", &[], USUAL | EVENT_IDX),
        ("inflight_killed_threads", THREADS, USUAL),
    ] {
        for base in [0, 0xffff] {
            expect_served_again(name, words, features, base);
        }
    }
}

fn expect_served_again(name: &str, words: &[&str], features: u64, base: u16) {
    let program = Program::start_on_a_hole(name, 4 << 30, words);
    let folder = program.folder.clone();
    let (mut front, region) = started(&program, features, base);
    front.put_long(0, 0, 0, &[(8 << 20, 4 << 20); 512]);
    front.publish(0, 0);
    front.put_long(1, UNSUPPORTED, 0, &[(9 << 20, 16)]);
    front.publish(0, 1);
    front.kick(0);
    assert_eq!(front.take_used(0).0, 1);
    program.wait_for_work();
    kill(program);
    assert_eq!(front.used_idx(0), base.wrapping_add(1));
    assert_eq!(region.in_flight(0), [0]);
    // What comes meanwhile, on the head that came back, too.
    for (head, sector) in [(1, 5), (2, 7)] {
        front.put_long(head, 0, sector, &[(10 << 20, 512)]);
        front.publish(0, head);
    }
    let program = Program::start_again(&folder, words);
    let used = front.used_idx(0);
    go_on(&mut front, &program, features, &region, used.into());
    let mut heads = [0; 3].map(|_| front.take_used(0).0);
    let is_in_order = words.ends_with(&ONE[1..]);
    if !is_in_order {
        // The long one comes last.
        assert_eq!(heads[2], 0);
        heads.sort();
    }
    assert_eq!(heads, [0, 1, 2]);
    program.rest();
    assert_eq!(front.used_idx(0), base.wrapping_add(4));
    assert_eq!(region.in_flight(0), []);
    let head = region.head(0);
    assert_eq!((head.version, head.descriptors), (1, SIZE));
    assert_eq!(head.last_batch_head, if is_in_order { 2 } else { 0 });
    assert_eq!(head.used_idx, base.wrapping_add(4));
}

// The refused request that comes back first is returned over the descriptor of the one that is under way. The base that
// the front end sends is stale.
#[test]
fn a_packed_request_is_served_again_after_a_kill() {
    for (name, words, features) in [
        ("inflight_packed", ONE, PACKED),
        ("inflight_packed_event_idx", ONE, PACKED | EVENT_IDX),
        ("inflight_packed_iommu", IOMMU_ONE, PACKED | ACCESS_PLATFORM),
        ("inflight_packed_uring", &[], PACKED | EVENT_IDX),
        ("inflight_packed_threads", THREADS, PACKED),
    ] {
        for (slot, wrap) in [(0, true), (SIZE - 1, false), (SIZE - 2, true)] {
            expect_packed_served_again(name, words, features, Place { slot, wrap });
        }
    }
}

fn expect_packed_served_again(name: &str, words: &[&str], features: u64, first: Place) {
    let program = Program::start_on_a_hole(name, 4 << 30, words);
    let folder = program.folder.clone();
    let (mut driver, region) = started_packed(&program, features, first);
    driver.publish_long(0, 0, 0, &[(8 << 20, 4 << 20); 512]);
    driver.publish_long(1, UNSUPPORTED, 0, &[(9 << 20, 16)]);
    driver.kick();
    assert_eq!(driver.take(), (1, 0));
    program.wait_for_work();
    kill(program);
    assert!(!driver.is_back());
    assert_eq!(region.in_flight(0), [0]);
    let head = region.packed_head(0);
    assert_eq!([head.used, head.old_used], [first.moved(SIZE, 1).bits(); 2]);
    // What comes meanwhile, with the id that came back, too.
    for (id, sector) in [(1, 5), (2, 7)] {
        driver.publish_long(id, 0, sector, &[(10 << 20, 512)]);
    }
    let program = Program::start_again(&folder, words);
    go_on(&mut driver.front, &program, features, &region, FRESH);
    let lens = [(0, (2 << 30) + 1), (1, 513), (2, 513)];
    let mut came = [0; 3].map(|_| driver.take());
    if !words.ends_with(&ONE[1..]) {
        // The long one comes last.
        assert_eq!(came[2].0, 0);
        came.sort();
    }
    assert_eq!(came, lens);
    program.rest();
    region.expect_settled(0, first.moved(SIZE, 4));
}

// The driver of a split ring or of a packed one.
enum Side {
    Split(FrontEnd),
    Packed(Driver),
}

impl Side {
    fn front(&mut self) -> &mut FrontEnd {
        match self {
            Side::Split(front) => front,
            Side::Packed(driver) => &mut driver.front,
        }
    }

    // Makes a request available.
    fn publish(&mut self, head: u16, kind: u32, sector: u64, len: u32, in_table: bool) {
        match self {
            Side::Split(front) => {
                front.put_request(0, head, kind, sector, len);
                front.publish(0, head);
            }
            Side::Packed(driver) => {
                let chain = driver.chain(head / 3, kind, sector, len);
                if in_table {
                    driver.publish_table(head, &chain);
                } else {
                    driver.publish(head, &chain);
                }
            }
        }
    }

    fn is_back(&self) -> bool {
        match self {
            Side::Split(front) => front.used_idx(0) != front.rings[0].next_used,
            Side::Packed(driver) => driver.is_back(),
        }
    }

    fn take(&mut self) -> (u16, u32) {
        match self {
            Side::Split(front) => {
                let (head, len) = front.take_used(0);
                (head as u16, len)
            }
            Side::Packed(driver) => driver.take(),
        }
    }

    // Where the ring goes on is in the region, and of a split ring in the ring.
    fn any_base(&self, numbers: &mut Numbers) -> u32 {
        match self {
            Side::Split(front) => {
                let bases = [front.used_idx(0), front.rings[0].next_used, 0xfff0];
                numbers.of(&bases).into()
            }
            Side::Packed(driver) => numbers.of(&[FRESH, driver.used.base(), driver.avail.base()]),
        }
    }
}

// Each request that is published comes back once, and those that are served one after another in their order.
struct Load {
    side: Side,
    features: u64,
    region: Region,
    numbers: Numbers,
    free: Vec<u16>,
    // By the heads that are out: when it was published, the sectors that are read, or none if it is refused.
    out: BTreeMap<u16, (u64, Option<(u64, u32)>)>,
    published: u64,
    served: u64,
    is_in_order: bool,
}

impl Load {
    fn new(program: &Program, features: u64, is_in_order: bool) -> Load {
        let (side, region) = if features & RING_PACKED == 0 {
            let (front, region) = started(program, features, 0xfff0);
            (Side::Split(front), region)
        } else {
            let first = Place { slot: 60, wrap: false };
            let (driver, region) = started_packed(program, features, first);
            (Side::Packed(driver), region)
        };
        Load {
            side,
            features,
            region,
            numbers: Numbers(7),
            free: (0..20).map(|place| 3 * place).collect(),
            out: BTreeMap::new(),
            published: 0,
            served: 0,
            is_in_order,
        }
    }

    // Works with a program, and ends with requests that may be under way.
    fn work(&mut self) {
        for _ in 0..=self.numbers.below(20) {
            let count = 1 + self.numbers.below(20);
            self.publish(count);
            self.side.front().kick(0);
            self.take();
        }
        self.publish(20);
        self.side.front().kick(0);
        let moment = Duration::from_micros(self.numbers.below(300));
        let since = Instant::now();
        while since.elapsed() < moment {}
    }

    fn publish(&mut self, count: u64) {
        for _ in 0..count {
            if self.free.is_empty() {
                return;
            }
            let place = self.numbers.below(self.free.len() as u64) as usize;
            let head = self.free.swap_remove(place);
            let (sector, len) = (self.numbers.below(1000), 512 * (1 + self.numbers.below(16)) as u32);
            let is_served = !self.numbers.one_in(4);
            let kind = if is_served { 0 } else { UNSUPPORTED };
            self.published += 1;
            self.out
                .insert(head, (self.published, is_served.then_some((sector, len))));
            let in_table = self.numbers.one_in(2);
            self.side.publish(head, kind, sector, len, in_table);
        }
    }

    fn take(&mut self) {
        let (head, len) = self.side.take();
        let asked = self.out.remove(&head);
        let (number, asked) = asked.unwrap_or_else(|| panic!("head {head} comes back, which is not out"));
        let front = self.side.front();
        let (data, status) = front.places(0, head);
        let status = front.read(status, 1)[0];
        if let Some((sector, wanted)) = asked {
            let is_next = number > self.served || !self.is_in_order;
            assert!(is_next, "{number} comes back after {}", self.served);
            self.served = number;
            assert_eq!((status, len), (0, wanted + 1));
            assert_eq!(front.read(data, wanted as usize), read_of(sector, wanted as usize));
        } else {
            // The data before the status are not written.
            assert_eq!((status, len), (2, 0));
        }
        self.free.push(head);
    }

    fn take_all(&mut self) {
        while self.side.is_back() {
            self.take();
        }
    }
}

#[test]
fn each_request_comes_back_once_over_many_kills() {
    for (name, words) in [
        ("inflight_load", ONE),
        ("inflight_load_uring", &[]),
        ("inflight_load_threads", THREADS),
    ] {
        kill_under_load(name, USUAL, words);
    }
}

#[test]
fn each_packed_request_comes_back_once_over_many_kills() {
    for (name, words) in [
        ("inflight_load_packed", ONE),
        ("inflight_load_packed_uring", &[]),
        ("inflight_load_packed_threads", THREADS),
    ] {
        kill_under_load(name, PACKED, words);
    }
}

fn kill_under_load(name: &str, features: u64, words: &[&str]) {
    let mut program = Program::start(name, LEN, words);
    let folder = program.folder.clone();
    let mut load = Load::new(&program, features, words == ONE);
    let (begun, mut caught) = (Instant::now(), 0);
    while caught < 10 && begun.elapsed() < LONG {
        load.work();
        kill(program);
        caught += u32::from(!load.region.in_flight(0).is_empty());
        let more = load.numbers.below(3);
        if load.numbers.one_in(2) {
            load.take_all();
            load.publish(more);
        }
        program = Program::start_again(&folder, words);
        let base = load.side.any_base(&mut load.numbers);
        go_on(load.side.front(), &program, load.features, &load.region, base);
    }
    println!("{caught} kills among requests, {} requests", load.published);
    assert!(caught > 0, "no request was under way when the program was killed");
    while !load.out.is_empty() {
        load.take();
    }
    program.rest();
    load.take_all();
    assert_eq!(load.region.in_flight(0), []);
    if let Side::Packed(driver) = &load.side {
        load.region.expect_settled(0, driver.used);
    }
}

// The region of another ring lies after that of the first, and the file has other bytes beside it.
#[test]
fn a_region_lies_where_the_front_end_says() {
    let program = Program::start("inflight_place", LEN, &["--queues", "2"]);
    for offset in [0, 3 * 4096, 64, 4096 + 192] {
        for features in [USUAL, PACKED] {
            expect_region_at(&program, features, offset);
        }
    }
}

// Where a packed ring begins in place of the index 7.
const SEVENTH: Place = Place { slot: 7, wrap: false };

// A new ring of this number serves two requests.
fn serve_two(mut front: FrontEnd, index: usize) -> FrontEnd {
    if front.is_packed {
        let mut driver = Driver::at(front, SIZE, SEVENTH);
        for sector in [3, 4] {
            assert_eq!(driver.request(5, 0, sector, 512), (0, 513));
            assert_eq!(driver.data(512), read_of(sector, 512));
        }
        return driver.front;
    }
    front.start_ring(SIZE, 7);
    for sector in [3, 4] {
        assert_eq!(front.read_disk(index, sector, 512), read_of(sector, 512));
    }
    front
}

fn expect_region_at(program: &Program, features: u64, offset: u64) {
    let mut front = program.connect();
    front.negotiate(features | BLK_MQ);
    let mut region = front.new_region(2, SIZE);
    let len = 1 << 16;
    region.file = memfd(len);
    File::from(again(&region.file))
        .write_all_at(&[0xa5; 1 << 16], 0)
        .unwrap();
    region.offset = offset;
    region.write(0, &vec![0; region.size as usize]);
    set_up(&mut front, features, Some(&region));
    for index in 0..2 {
        front = serve_two(front, index);
    }
    program.rest();
    for ring in 0..2 {
        assert_eq!(region.in_flight(ring), []);
        if region.is_packed {
            // Each request took three slots.
            region.expect_settled(ring, SEVENTH.moved(SIZE, 6));
        } else {
            assert_eq!(region.head(ring).version, 1);
            assert_eq!(region.head(ring).used_idx, 9);
        }
    }
    let mut bytes = vec![0; len];
    File::from(again(&region.file)).read_exact_at(&mut bytes, 0).unwrap();
    let is_beside = |at: &usize| !(offset..offset + region.size).contains(&(*at as u64));
    assert!((0..len).filter(is_beside).all(|at| bytes[at] == 0xa5));
}

// The crash may lie between a store to the ring and its mark. The used ring has three pages, and a packed ring four,
// and what is served now lies in the first one.
#[test]
fn what_a_killed_program_stored_is_marked_after_a_start() {
    for (name, features) in [("inflight_log", USUAL), ("inflight_log_packed", PACKED)] {
        expect_marked(name, features);
    }
}

fn expect_marked(name: &str, features: u64) {
    let program = Program::start(name, LEN, &[]);
    let folder = program.folder.clone();
    let mut front = program.connect();
    front.negotiate(features);
    let region = front.new_region(1, 1024);
    set_up(&mut front, features, Some(&region));
    let (base, place, count) = if region.is_packed {
        let mut driver = Driver::new(front, 1024);
        driver.request(0, 0, 1, 512);
        front = driver.front;
        (FRESH, front.parts(0).0 as u64, 4)
    } else {
        front.start_ring(1024, 0);
        front.read_disk(0, 1, 512);
        (1, front.used_ring(0), 3)
    };
    kill(program);
    let program = Program::start_again(&folder, &[]);
    front.connect_again(&program);
    front.negotiate(features);
    set_up(&mut front, features, Some(&region));
    let rings = std::mem::take(&mut front.rings);
    let log = begin(&mut front, features, LOG_LEN);
    front.rings = rings;
    let (number, kick) = (u64::to_le_bytes(0), again(&front.rings[0].kick));
    assert!(front.is_done(SET_VRING_NUM, &two(0, 1024), &[]));
    assert!(front.is_done(SET_VRING_BASE, &two(0, base), &[]));
    let logged = front.addresses(0, true);
    assert!(front.is_done(SET_VRING_ADDR, &logged, &[]));
    assert!(front.is_done(SET_VRING_KICK, &number, &[&kick]));
    assert!(front.is_done(SET_VRING_ENABLE, &two(0, 1), &[]));
    program.rest();
    let (page, taken) = (place / PAGE, taken(&log));
    assert!(
        (page..page + count).all(|it| taken.contains(&it)),
        "{taken:?}, not {page}"
    );
}

// Without a region, and with one for fewer rings, a ring is served as before.
#[test]
fn a_ring_without_a_region_is_served() {
    let program = Program::start("inflight_without", LEN, &["--queues", "2"]);
    let mut front = program.connect();
    front.negotiate(USUAL | BLK_MQ);
    let region = front.new_region(1, SIZE);
    set_up(&mut front, USUAL, Some(&region));
    for index in 0..2 {
        front.start_ring(SIZE, 0);
        assert_eq!(front.read_disk(index, 3, 512), read_of(3, 512));
    }
    // A packed ring, too, takes the base of the front end then.
    drop(front);
    let mut front = program.connect();
    front.negotiate(PACKED);
    front.set_memory();
    let mut driver = Driver::at(front, SIZE, Place { slot: 9, wrap: false });
    assert_eq!(driver.request(4, 0, 3, 512), (0, 513));
    let base = driver.front.stop_ring(0);
    assert_eq!(base, driver.base());
    driver.front.restart_at(0, base);
    assert_eq!(driver.request(4, 0, 4, 512), (0, 513));
    assert_eq!(driver.data(512), read_of(4, 512));
    // The feature has to be accepted.
    drop(driver);
    let mut front = program.connect();
    front.ask_u64(GET_FEATURES);
    let protocol = front.ask_u64(GET_PROTOCOL_FEATURES) & !INFLIGHT_SHMFD;
    front.send(SET_PROTOCOL_FEATURES, 0, &protocol.to_le_bytes(), &[]);
    front.send(SET_FEATURES, 0, &USUAL.to_le_bytes(), &[]);
    front.send(GET_INFLIGHT_FD, 0, &inflight(0, 0, 1, SIZE), &[]);
    assert!(front.is_let_go());
}

// ---- the lock

// A descriptor of the same open file as one of the program's, as the system has it while it reads or writes.
fn opening_of(program: &Program, number: i32) -> OwnedFd {
    // SAFETY: these take numbers.
    unsafe {
        let process = libc::syscall(libc::SYS_pidfd_open, program.pid(), 0) as i32;
        assert!(process >= 0);
        let process = OwnedFd::from_raw_fd(process);
        let file = libc::syscall(libc::SYS_pidfd_getfd, process.as_raw_fd(), number, 0) as i32;
        assert!(file >= 0, "{}", std::io::Error::last_os_error());
        OwnedFd::from_raw_fd(file)
    }
}

// The program's descriptors of its image.
fn descriptors_of_the_image(program: &Program) -> Vec<i32> {
    let all = std::fs::read_dir(format!("/proc/{}/fd", program.pid())).unwrap();
    let paths = all.map(|it| it.unwrap().path());
    let image = paths.filter(|path| std::fs::read_link(path).is_ok_and(|to| to == program.image));
    image
        .map(|path| path.file_name().unwrap().to_str().unwrap().parse().unwrap())
        .collect()
}

#[test]
fn a_successor_waits_for_what_a_killed_program_began() {
    let program = Program::start("inflight_lock", LEN, &[]);
    let folder = program.folder.clone();
    let (mut front, region) = started(&program, USUAL, 0);
    front.read_disk(0, 1, 512);
    // What reads and writes the image holds the lock, and there is no other.
    let numbers = descriptors_of_the_image(&program);
    assert_eq!(numbers.len(), 1);
    let opening = opening_of(&program, numbers[0]);
    kill(program);
    let (socket, said) = (folder.join("s"), folder.join("said"));
    let mut command = Command::new(env!("CARGO_BIN_EXE_vhost-user-blk"));
    command = Program::command(command, &folder, &[]);
    command.stderr(File::create(&said).unwrap());
    let begun = Instant::now();
    let starting = std::thread::spawn(move || {
        let program = Program::spawn(&folder, command);
        (program, Instant::now())
    });
    let text = || std::fs::read_to_string(&said).unwrap();
    while !text().contains("another program has locked it: waiting") {
        assert!(begun.elapsed() < LONG, "{}", text());
        sleep(Duration::from_millis(5));
    }
    sleep(Duration::from_secs(1));
    assert!(UnixStream::connect(&socket).is_err(), "it did not wait");
    let ended = Instant::now();
    drop(opening);
    let (program, listened) = starting.join().unwrap();
    assert!(listened > ended, "it did not wait");
    go_on(&mut front, &program, USUAL, &region, 1);
    assert_eq!(front.read_disk(0, 2, 512), read_of(2, 512));
}
