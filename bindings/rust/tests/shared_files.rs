//! Blocks over each kind of file that a guest may have as its memory: a memfd, a file on tmpfs and on a disk, one with
//! holes, and huge pages, of which a block may have a part. It is the only test of its process, as it counts mappings.

mod guest;

use guest::Guest;
use std::env;
use std::ffi::{c_char, c_int, c_uint};
use std::fs::{self, File};
use std::os::fd::{AsFd, AsRawFd, FromRawFd, OwnedFd};
use std::os::unix::fs::FileExt;
use std::path::Path;
use std::process;
use vm_memory_proved::SharedBlockError;
use vm_memory_proved::{memfd, BlockId, GuestAddress, Machine, MachineError, MemoryId, SharedBlock};

const PAGE: usize = 0x1000;
const HUGE: usize = 2 << 20;
const BASE: u64 = 0x1_0000;

// Of the C library, as Linux on x86-64 has it.
unsafe extern "C" {
    fn memfd_create(name: *const c_char, flags: c_uint) -> c_int;
    fn fallocate(fd: c_int, mode: c_int, from: i64, len: i64) -> c_int;
}

// A file of so many huge pages in memory. `None` if there are none, and this process may not ask for them.
fn huge_file(pages: usize) -> Option<File> {
    const FREE: &str = "/sys/kernel/mm/hugepages/hugepages-2048kB/free_hugepages";
    const ALL: &str = "/sys/kernel/mm/hugepages/hugepages-2048kB/nr_hugepages";
    let number = |path: &str| fs::read_to_string(path).ok()?.trim().parse::<usize>().ok();
    if number(FREE)? < pages {
        fs::write(ALL, (number(ALL)? + pages).to_string()).ok()?;
    }
    if number(FREE)? < pages {
        return None;
    }
    // SAFETY: the declaration fits the function, and the name is a text. The flags are CLOEXEC, HUGETLB and 2 MiB.
    let fd = unsafe { memfd_create(c"huge".as_ptr(), 1 | 4 | 21 << 26) };
    if fd < 0 {
        return None;
    }
    // SAFETY: the system has just opened this descriptor, and nothing else has it.
    let file = File::from(unsafe { OwnedFd::from_raw_fd(fd) });
    // Another process may take them meanwhile: those of the file are its own from here on.
    // SAFETY: the declaration fits the function, which takes numbers.
    let has_all = unsafe { fallocate(file.as_raw_fd(), 0, 0, (pages * HUGE) as i64) } == 0;
    has_all.then_some(file)
}

fn mappings() -> usize {
    fs::read_to_string("/proc/self/maps").unwrap().lines().count()
}

fn plain(machine: &Machine, block: &SharedBlock) -> MemoryId {
    let region = machine.region(block.id(), GuestAddress(BASE)).unwrap();
    machine.plain(machine.layout(&[region]).unwrap()).unwrap()
}

// A block of a part of a file has just these bytes of it: what lies beside them stays, and what is written is in the
// file.
fn has_its_part(file: &File, from: usize, size: usize, whole: usize) {
    let all = Guest::of_file(file, whole);
    all.write(0, &vec![3; whole]);
    let machine = Machine::new().unwrap();
    let block = machine
        .shared_block(size, PAGE, Some((file.as_fd(), from as u64)))
        .unwrap();
    let (at, len) = block.mapping();
    assert!(at <= block.as_ptr() && block.as_ptr() as usize + size <= at as usize + len);
    assert!(len <= whole);
    let memory = machine.memory(plain(&machine, &block)).unwrap();
    let last = BASE + size as u64 - 2;
    all.write(from, b"guest");
    let mut bytes = [0; 5];
    memory.read_slice(&mut bytes, GuestAddress(BASE)).unwrap();
    assert_eq!(&bytes, b"guest");
    memory.write_slice(&[1, 2], GuestAddress(BASE)).unwrap();
    memory.write_slice(&[7, 8], GuestAddress(last)).unwrap();
    // Of this one byte has room.
    assert!(memory.write_slice(&[9, 9], GuestAddress(last + 1)).is_err());
    let mut pages = vec![0, size / PAGE - 1];
    pages.dedup();
    assert_eq!(machine.harvest_block(block.id()).unwrap(), pages);
    drop(machine);
    let now = all.read(0, whole);
    assert_eq!(now[from..from + 5], [1, 2, b'e', b's', b't']);
    assert_eq!(now[from + size - 2..from + size], [7, 9]);
    assert!(now[..from].iter().all(|&byte| byte == 3));
    assert!(now[from + size..].iter().all(|&byte| byte == 3));
}

// A file below a folder, which no name leads to any more.
fn file_in(folder: &Path) -> Option<File> {
    let path = folder.join(format!("vm_memory_{}", process::id()));
    let file = File::options()
        .read(true)
        .write(true)
        .create_new(true)
        .open(&path)
        .ok()?;
    fs::remove_file(&path).unwrap();
    Some(file)
}

fn files() {
    let disk = env::current_exe().unwrap().parent().unwrap().to_path_buf();
    for folder in [Path::new("/dev/shm"), &disk] {
        let Some(file) = file_in(folder) else {
            println!("left out, as there is no file in {}", folder.display());
            continue;
        };
        file.set_len(8 * PAGE as u64).unwrap();
        has_its_part(&file, PAGE, 3 * PAGE, 8 * PAGE);
    }
    has_its_part(
        &File::from(memfd(8 * PAGE as u64).unwrap()),
        5 * PAGE,
        3 * PAGE,
        8 * PAGE,
    );
}

// A hole is zero, and what is written there is in the file.
fn holes() {
    let file = File::from(memfd(1 << 30).unwrap());
    file.write_all_at(b"end", (1 << 30) - 3).unwrap();
    let machine = Machine::new().unwrap();
    let block = machine.shared_block(1 << 30, PAGE, Some((file.as_fd(), 0))).unwrap();
    let memory = machine.memory(plain(&machine, &block)).unwrap();
    let mut bytes = [1; 8];
    memory.read_slice(&mut bytes, GuestAddress(BASE + (1 << 29))).unwrap();
    assert_eq!(bytes, [0; 8]);
    memory
        .read_slice(&mut bytes, GuestAddress(BASE + (1 << 30) - 8))
        .unwrap();
    assert_eq!(&bytes, b"\0\0\0\0\0end");
    memory.write_slice(b"there", GuestAddress(BASE + (1 << 29))).unwrap();
    file.read_exact_at(&mut bytes, 1 << 29).unwrap();
    assert_eq!(&bytes, b"there\0\0\0");
}

// Parts of huge pages, which begin or end within one. They leave no mapping, also if they are refused.
fn huge_pages() {
    let Some(file) = huge_file(2) else {
        println!("huge pages are left out, as this system has none");
        return;
    };
    let parts = [
        (0, 2 * HUGE),
        (0, HUGE + PAGE),
        (HUGE - PAGE, HUGE + PAGE),
        (PAGE, PAGE),
        (HUGE - PAGE, 2 * PAGE),
        (2 * HUGE - PAGE, PAGE),
    ];
    for (from, size) in parts {
        has_its_part(&file, from, size, 2 * HUGE);
    }
    let make =
        |machine: &Machine, from: usize, size| machine.shared_block(size, PAGE, Some((file.as_fd(), from as u64)));
    let before = mappings();
    // Two machines at a time have the same pages.
    for round in 0..2_000 {
        let [first, second] = [(); 2].map(|()| Machine::new().unwrap());
        let (from, size) = parts[round % parts.len()];
        make(&first, from, size).unwrap();
        make(&second, from, size).unwrap();
        let refused = make(&second, HUGE, 2 * HUGE);
        assert!(matches!(refused, Err(SharedBlockError::FileShort)));
        let refused = second.shared_block(PAGE, 0, Some((file.as_fd(), 0)));
        assert!(matches!(refused, Err(SharedBlockError::Machine(_))));
    }
    assert_eq!(mappings(), before);
}

// A machine gives blocks back, shared ones and its own, and the next machine has the bytes at the same place, with all
// pages clean. Numbers stay, and none reaches a block that was given back.
fn given_back() {
    let file = File::from(memfd(4 * PAGE as u64).unwrap());
    let before = mappings();
    let mut machine = Machine::new().unwrap();
    let kept = machine
        .shared_block(2 * PAGE, PAGE, Some((file.as_fd(), PAGE as u64)))
        .unwrap();
    let own = machine.block(PAGE, PAGE).unwrap();
    let stays = machine.shared_block(PAGE, PAGE, None).unwrap();
    let memory = machine.memory(plain(&machine, &kept)).unwrap();
    memory.write_slice(b"kept", GuestAddress(BASE)).unwrap();
    for block in [kept.id(), own, stays.id()] {
        assert!(matches!(machine.give_back(block), Err(MachineError::InUse)));
    }
    assert!(matches!(machine.give_back(BlockId::new(3)), Err(MachineError::NoSuch)));
    assert_eq!(machine.dirty_block(kept.id()).unwrap(), [0]);

    machine.forget_regions();
    assert!(machine.memory(MemoryId::new(0)).is_none());
    let memory = machine.give_back(kept.id()).unwrap().unwrap();
    assert_eq!(memory.len(), 2 * PAGE);
    assert!(machine.give_back(own).unwrap().is_none());
    for block in [kept.id(), own] {
        assert!(matches!(machine.give_back(block), Err(MachineError::NoSuch)));
        assert!(matches!(
            machine.region(block, GuestAddress(0)),
            Err(MachineError::NoSuch)
        ));
        assert!(matches!(machine.dirty_block(block), Err(MachineError::NoSuch)));
        assert!(matches!(machine.harvest_block(block), Err(MachineError::NoSuch)));
        assert!(matches!(machine.mark_block(block, 0, 0), Err(MachineError::NoSuch)));
        assert!(matches!(
            machine.copy((block, 0, 0), (stays.id(), 0, 0)),
            Err(MachineError::NoSuch)
        ));
        assert!(matches!(
            machine.copy((stays.id(), 0, 0), (block, 0, 0)),
            Err(MachineError::NoSuch)
        ));
    }
    machine.copy((stays.id(), 0, 0), (stays.id(), 0, 0)).unwrap();
    assert_eq!(machine.block(PAGE, PAGE).unwrap().number(), 3);
    let last = machine.memory(plain(&machine, &stays)).unwrap();
    last.write_slice(b"last", GuestAddress(BASE)).unwrap();
    assert!(matches!(machine.give_back(stays.id()), Err(MachineError::InUse)));

    let next = Machine::new().unwrap();
    let again = next.shared_block_of(memory, PAGE).unwrap();
    assert_eq!(
        (again.id().number(), again.as_ptr(), again.len()),
        (0, kept.as_ptr(), 2 * PAGE)
    );
    assert!(next.dirty_block(again.id()).unwrap().is_empty());
    let memory = next.memory(plain(&next, &again)).unwrap();
    let mut bytes = [0; 4];
    memory.read_slice(&mut bytes, GuestAddress(BASE)).unwrap();
    assert_eq!(&bytes, b"kept");
    memory.write_slice(b"next", GuestAddress(BASE)).unwrap();
    drop((machine, next));
    file.read_exact_at(&mut bytes, PAGE as u64).unwrap();
    assert_eq!(&bytes, b"next");
    assert_eq!(mappings(), before);
}

// A machine that takes and gives back memory again and again keeps none of it.
fn again_and_again() {
    let file = File::from(memfd(4 * PAGE as u64).unwrap());
    let mut machine = Machine::new().unwrap();
    let before = mappings();
    for round in 0..1_000 {
        let block = machine.shared_block(4 * PAGE, PAGE, Some((file.as_fd(), 0))).unwrap();
        assert_eq!(block.id().number(), round);
        let memory = machine.memory(plain(&machine, &block)).unwrap();
        memory.write_slice(&[round as u8], GuestAddress(BASE)).unwrap();
        machine.forget_regions();
        machine.give_back(block.id()).unwrap();
        assert_eq!(mappings(), before);
    }
}

#[test]
fn a_guest_may_have_each_kind_of_file() {
    files();
    holes();
    huge_pages();
    given_back();
    again_and_again();
}
