//! Tables of memory one after another: what stays of the files is not mapped again, what goes is unmapped, and a
//! request reaches what the last table says.

mod front_end;

use front_end::*;
use std::collections::BTreeMap;
use std::fs::{self, File};
use std::os::fd::OwnedFd;
use std::os::unix::fs::{FileExt, MetadataExt};

const LEN: usize = 1 << 20;
const GIB: u64 = 1 << 30;
// Where memory is plugged in.
const PLUGGED: u64 = 4 * GIB;

fn inode(file: &OwnedFd) -> u64 {
    File::from(again(file)).metadata().unwrap().ino()
}

// Where the program has mapped which file that lies in memory, by its number and the offset.
fn mapped(program: &Program) -> BTreeMap<(u64, u64), String> {
    let maps = fs::read_to_string(format!("/proc/{}/maps", program.pid())).unwrap();
    let of_files = maps.lines().filter(|line| line.contains("/memfd:"));
    let places = of_files.map(|line| {
        let words: Vec<_> = line.split_whitespace().collect();
        let offset = u64::from_str_radix(words[2], 16).unwrap();
        ((words[4].parse().unwrap(), offset), words[0].to_string())
    });
    places.collect()
}

// Reads sectors into plugged memory, and returns what its file has there.
fn read_into(front: &mut FrontEnd, file: &OwnedFd, offset: u64, addr: u64) -> Vec<u8> {
    let status = front.put_long(2, 0, 3, &[(addr as usize, 1024)]);
    front.publish(0, 2);
    front.kick(0);
    assert_eq!(front.take_used(0), (2, 1025));
    assert_eq!(front.read(status, 1), [0]);
    let mut bytes = vec![0; 1024];
    File::from(again(file)).read_exact_at(&mut bytes, offset).unwrap();
    bytes
}

#[test]
fn what_stays_of_a_table_stays_mapped() {
    let program = Program::start("tables", LEN, &[]);
    let mut front = program.connect();
    front.negotiate(USUAL);
    front.set_memory();
    front.start_ring(16, 0);
    let ram = again(&front.ram);
    let whole = (0, RAM as u64, 0);
    let wanted = image_of(LEN)[3 * 512..5 * 512].to_vec();
    let first = mapped(&program);
    assert_eq!(first.keys().collect::<Vec<_>>(), [&(inode(&ram), 0)]);
    let mut before = (0, 0, 0);
    for round in 0..300 {
        let (low, high) = (memfd(8 << 20), memfd(8 << 20));
        // A file at two places, with a hole between them that it has.
        let table = FrontEnd::table(&[
            whole,
            (PLUGGED, 1 << 20, 0),
            (PLUGGED + (2 << 20), 1 << 20, 2 << 20),
            (PLUGGED + GIB, 8 << 20, 0),
        ]);
        assert!(front.is_done(SET_MEM_TABLE, &table, &[&ram, &low, &low, &high]));
        assert_eq!(
            read_into(&mut front, &low, (3 << 20) - 1024, PLUGGED + (3 << 20) - 1024),
            wanted
        );
        assert_eq!(read_into(&mut front, &high, 5, PLUGGED + GIB + 5), wanted);
        let all = mapped(&program);
        let parts = [(inode(&low), 0), (inode(&low), 2 << 20), (inode(&high), 0)];
        assert_eq!((all.len(), &all[&(inode(&ram), 0)]), (4, &first[&(inode(&ram), 0)]));
        // One part goes, one moves to another address, and all else stays where it is.
        let table = FrontEnd::table(&[whole, (PLUGGED, 1 << 20, 2 << 20), (PLUGGED + GIB, 8 << 20, 0)]);
        assert!(front.is_done(SET_MEM_TABLE, &table, &[&ram, &low, &high]));
        let mut stays = all.clone();
        assert!(parts.iter().all(|part| all.contains_key(part)) && stays.remove(&parts[0]).is_some());
        assert_eq!(mapped(&program), stays);
        assert_eq!(read_into(&mut front, &low, (2 << 20) + 7, PLUGGED + 7), wanted);
        front.set_memory();
        assert_eq!(mapped(&program), first);
        // What is not there any more is not reached.
        front.put_long(2, 0, 3, &[(PLUGGED as usize, 1024)]);
        front.publish(0, 2);
        front.kick(0);
        assert_eq!(front.take_used(0).0, 2);
        assert_eq!(front.read_disk(0, 6, 512), image_of(LEN)[6 * 512..7 * 512]);
        let now = (program.descriptors(), program.memory().0, program.memory().1);
        if round == 20 {
            before = now;
        }
        if round > 20 {
            assert!(now.0 == before.0 && now.1 < before.1 + (1 << 20) && now.2 < before.2 + (1 << 20));
        }
    }
}

// By event indices the program asks to be notified of the next request.
fn expect_event(program: &Program, front: &FrontEnd) {
    program.rest();
    assert_eq!(front.avail_event(0), front.rings[0].next_avail);
}

// Each table differs from the one before by its file alone, by the offset, or by both.
#[test]
fn a_file_and_its_offset_are_compared() {
    let program = Program::start("other_files", LEN, &[]);
    let mut front = program.connect();
    front.negotiate(USUAL | EVENT_IDX);
    front.set_memory();
    front.start_ring(16, 0);
    let mut file = again(&front.ram);
    for (round, (is_other, offset)) in [(true, 0), (false, RAM), (true, RAM), (true, 0), (false, RAM)]
        .into_iter()
        .enumerate()
    {
        if is_other {
            file = memfd(2 * RAM);
        }
        let old = front.move_memory(&file, offset);
        let table = FrontEnd::table(&[(0, RAM as u64, offset as u64)]);
        assert!(front.is_done(SET_MEM_TABLE, &table, &[&file]));
        // What was there is another's now.
        let stale = vec![0x3c; RAM];
        old.write(0, &stale);
        let sector = 40 + round as u64;
        front.write_disk(0, sector, &[round as u8; 512]);
        assert_eq!(front.read_disk(0, sector, 512), [round as u8; 512]);
        assert!(old.is(&stale), "round {round}");
        expect_event(&program, &front);
    }
}

// Without memory no request is served, and with it those that came meanwhile are.
#[test]
fn an_empty_table_takes_the_memory() {
    let program = Program::start("no_memory", LEN, &[]);
    for features in [USUAL, USUAL | EVENT_IDX] {
        let mut front = program.connect();
        front.negotiate(features);
        front.set_memory();
        front.start_ring(16, 0);
        for round in 0..5 {
            front.read_disk(0, round, 512);
            assert!(front.is_done(SET_MEM_TABLE, &FrontEnd::table(&[]), &[]));
            assert!(mapped(&program).is_empty());
            front.put_request(0, 0, 0, round, 512);
            front.publish(0, 0);
            front.kick(0);
            front.ask_u64(GET_FEATURES);
            program.rest();
            assert_eq!(front.used_idx(0), front.rings[0].next_used);
            front.set_memory();
            assert_eq!(front.take_used(0), (0, 513));
            if features & EVENT_IDX != 0 {
                expect_event(&program, &front);
            }
        }
    }
}

// Of eight regions with a file each one loses its bytes, or its last page: one that an earlier table had, or a new one.
// A request that reaches there does not come back, and nothing of it is on the disk. The other files are as they were.
#[test]
fn each_region_may_go_away() {
    const SIZE: u64 = 1 << 20;
    let mut program = Program::start("lost_regions", LEN, &[]);
    let place = |region: usize| PLUGGED + region as u64 * GIB;
    for (region, kind) in (0..7).flat_map(|region| [(region, 0), (region, 1)]) {
        let mut front = program.connect();
        front.negotiate(USUAL);
        let files: Vec<OwnedFd> = (0..7).map(|_| memfd(SIZE as usize)).collect();
        let mut rows = vec![(0, RAM as u64, 0)];
        rows.extend((0..7).map(|at| (place(at), SIZE, 0)));
        let ram = again(&front.ram);
        let all: Vec<&OwnedFd> = [&ram].into_iter().chain(&files).collect();
        for count in [2 + region - kind, 8] {
            let table = FrontEnd::table(&rows[..count]);
            assert!(front.is_done(SET_MEM_TABLE, &table, &all[..count]));
        }
        front.start_ring(16, 0);
        for (at, file) in files.iter().enumerate() {
            read_into(&mut front, file, 0x2000, place(at) + 0x2000);
        }
        let before = front.used_idx(0);
        let (left, lost) = if (region + kind) % 2 == 0 {
            (0, 0x2000)
        } else {
            (SIZE - PAGE, SIZE - PAGE)
        };
        File::from(again(&files[region])).set_len(left).unwrap();
        front.put_long(2, kind as u32, 8, &[((place(region) + lost) as usize, 1024)]);
        front.publish(0, 2);
        front.kick(0);
        assert!(front.is_let_go(), "region {region}");
        assert_eq!(front.used_idx(0), before);
        assert!(program.lives());
    }
    assert!(fs::read(&program.image).unwrap() == image_of(LEN));
}

// What it takes to replace a table, of ten times the shortest: the machine may have other work.
#[test]
fn a_table_of_64_gib_is_taken_at_once() {
    let program = Program::start("large_tables", LEN, &[]);
    let mut front = program.connect();
    front.negotiate(USUAL);
    front.set_memory();
    front.start_ring(16, 0);
    let ram = again(&front.ram);
    let large = memfd(64 << 30);
    let resident = program.memory().0;
    let mut least = [u64::MAX; 3];
    for _ in 0..10 {
        let (more, whole) = (memfd(1 << 30), (0, RAM as u64, 0));
        let tables = [
            (FrontEnd::table(&[whole, (PLUGGED, 64 * GIB, 0)]), vec![&ram, &large]),
            (
                FrontEnd::table(&[whole, (PLUGGED, 64 * GIB, 0), (PLUGGED + 64 * GIB, GIB, 0)]),
                vec![&ram, &large, &more],
            ),
            (FrontEnd::table(&[whole]), vec![&ram]),
        ];
        for (place, (table, files)) in tables.iter().enumerate() {
            let begun = program.processor_time();
            assert!(front.is_done(SET_MEM_TABLE, table, files));
            least[place] = least[place].min(program.processor_time() - begun);
        }
        assert_eq!(front.read_disk(0, 6, 512), image_of(LEN)[6 * 512..7 * 512]);
    }
    println!(
        "64 GiB in {} ns, 1 GiB more in {} ns, and back in {} ns",
        least[0], least[1], least[2]
    );
    assert!(least.iter().all(|it| *it < 50_000_000), "{least:?}");
    assert!(program.memory().0 < resident + (10 << 20));
}
