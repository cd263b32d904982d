//! A front end whose memory lies on huge pages, with regions that begin and end within one: the program serves it, and
//! has as many mappings as before. Without huge pages it says that it was left out.

mod front_end;

use front_end::*;
use std::fs;
use std::os::fd::{AsRawFd, FromRawFd, OwnedFd};

const LEN: usize = 1 << 20;
const HUGE: u64 = 2 << 20;

// A file of two huge pages, if the system has them or gives them.
fn huge_file() -> Option<OwnedFd> {
    const FOLDER: &str = "/sys/kernel/mm/hugepages/hugepages-2048kB";
    let number = |name: &str| -> Option<u64> {
        let text = fs::read_to_string(format!("{FOLDER}/{name}")).ok()?;
        text.trim().parse().ok()
    };
    if number("free_hugepages")? < 2 {
        fs::write(
            format!("{FOLDER}/nr_hugepages"),
            (number("nr_hugepages")? + 2).to_string(),
        )
        .ok()?;
    }
    if number("free_hugepages")? < 2 {
        return None;
    }
    let flags = libc::MFD_CLOEXEC | libc::MFD_HUGETLB | libc::MFD_HUGE_2MB;
    // SAFETY: the name is a text that ends with 0.
    let fd = unsafe { libc::memfd_create(c"huge".as_ptr(), flags) };
    if fd < 0 {
        return None;
    }
    // SAFETY: the system has just opened it.
    let fd = unsafe { OwnedFd::from_raw_fd(fd) };
    // Another process may take them meanwhile: those of the file are its own from here on.
    // SAFETY: it takes numbers.
    let has_both = unsafe { libc::fallocate(fd.as_raw_fd(), 0, 0, 2 * HUGE as i64) } == 0;
    has_both.then_some(fd)
}

fn mappings(program: &Program) -> usize {
    fs::read_to_string(format!("/proc/{}/maps", program.pid()))
        .unwrap()
        .lines()
        .count()
}

#[test]
fn regions_lie_within_huge_pages() {
    let Some(file) = huge_file() else {
        println!("left out, as this system has no huge pages");
        return;
    };
    let program = Program::start("huge_pages", LEN, &[]);
    let regions = [
        (HUGE + 0x1000, 0),
        (0x1000, 0),
        (0x1000, HUGE - 0x1000),
        (0x2000, HUGE - 0x1000),
    ];
    let mut before = (0, 0);
    for round in 0..500 {
        for (size, offset) in regions {
            let mut front = program.connect();
            front.negotiate(USUAL);
            let table = FrontEnd::table(&[(0, size, offset)]);
            assert!(
                front.is_done(SET_MEM_TABLE, &table, &[&file]),
                "{size:#x} from {offset:#x}"
            );
        }
        if round == 10 {
            before = (mappings(&program), program.descriptors());
        }
    }
    let after = (mappings(&program), program.descriptors());
    // The heap has some that come and go.
    assert!(after.0 < before.0 + 10 && after.1 == before.1, "{before:?} {after:?}");
    let mut front = program.connect();
    front.negotiate(USUAL);
    front.set_memory();
    front.start_ring(16, 0);
    assert_eq!(front.read_disk(0, 2, 512), image_of(LEN)[2 * 512..3 * 512]);
}
