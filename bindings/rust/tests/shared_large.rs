//! A block of 64 GiB over a file without bytes: what it takes to make. It is the only test of its process, as it looks
//! at the memory and the time that the process has.

use std::ffi::{c_int, c_long};
use std::fs::{self, File};
use std::os::fd::AsFd;
use std::os::unix::fs::MetadataExt;
use std::time::Duration;
use vm_memory_proved::{memfd, GuestAddress, Machine};

const SIZE: usize = 64 << 30;
const PAGE: usize = 0x1000;

#[repr(C)]
#[derive(Default)]
struct Time {
    seconds: c_long,
    nanoseconds: c_long,
}

// Of the C library, as Linux on x86-64 has it.
unsafe extern "C" {
    fn clock_gettime(clock: c_int, time: *mut Time) -> c_int;
}

// How much time of a processor the process has taken.
fn taken() -> Duration {
    let mut time = Time::default();
    // SAFETY: the declaration fits the function, which writes the time there; 2 is the clock of the process.
    assert_eq!(unsafe { clock_gettime(2, &mut time) }, 0);
    Duration::new(time.seconds as u64, time.nanoseconds as u32)
}

// How much memory the process has, and how much its page tables have, in KiB.
fn memory() -> usize {
    let status = fs::read_to_string("/proc/self/status").unwrap();
    let kib = |name| {
        let line = status.lines().find_map(|line| line.strip_prefix(name)).unwrap();
        line.trim().trim_end_matches(" kB").parse::<usize>().unwrap()
    };
    kib("VmRSS:") + kib("VmPTE:")
}

// Of five times, the shortest: the machine may have other work.
#[test]
fn a_block_of_64_gib() {
    let mut made = Duration::MAX;
    for _ in 0..5 {
        let file = File::from(memfd(SIZE as u64).unwrap());
        let machine = Machine::new().unwrap();
        let (before, start) = (memory(), taken());
        let block = machine.shared_block(SIZE, PAGE, Some((file.as_fd(), 0))).unwrap();
        made = made.min(taken() - start);
        let more = memory().saturating_sub(before);
        assert!(more < 10 << 10, "{more} KiB more");
        println!("made in {made:?}, {more} KiB more");
        // No byte of the file was written.
        assert_eq!(file.metadata().unwrap().blocks(), 0);
        let region = machine.region(block.id(), GuestAddress(0)).unwrap();
        let plain = machine.plain(machine.layout(&[region]).unwrap()).unwrap();
        let memory = machine.memory(plain).unwrap();
        memory.write_slice(&[1], GuestAddress(SIZE as u64 - 1)).unwrap();
        assert_eq!(machine.harvest_block(block.id()).unwrap(), [SIZE / PAGE - 1]);
    }
    assert!(made <= Duration::from_millis(50), "made in {made:?}");
}
