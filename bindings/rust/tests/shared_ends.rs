//! A machine that is dropped, and a block that is refused, leave no mapping and no descriptor. It is the only test of
//! its process, as it counts what the process has.

use std::fs;
use std::os::fd::AsFd;
use vm_memory_proved::{memfd, BlockId, GuestAddress, Machine, MachineError, SharedBlockError};

const PAGE: usize = 0x1000;

fn mappings_and_descriptors() -> (usize, usize) {
    let maps = fs::read_to_string("/proc/self/maps").unwrap();
    (maps.lines().count(), fs::read_dir("/proc/self/fd").unwrap().count())
}

fn round() {
    for pages in [1, 3, 511, 512, 513, 4099] {
        let file = memfd((pages * PAGE) as u64).unwrap();
        let machine = Machine::new().unwrap();
        let shared = machine.shared_block(pages * PAGE, 1, Some((file.as_fd(), 0))).unwrap();
        let private = machine.shared_block(pages * PAGE, PAGE, None).unwrap();
        let other = machine.block(pages * PAGE, PAGE).unwrap();
        let long = machine.shared_block(2 * pages * PAGE, PAGE, Some((file.as_fd(), 0)));
        assert!(matches!(long, Err(SharedBlockError::FileShort)));
        let before = mappings_and_descriptors();
        let no_pages = machine.shared_block(pages * PAGE, 0, Some((file.as_fd(), 0)));
        assert!(matches!(
            no_pages,
            Err(SharedBlockError::Machine(MachineError::BadCall))
        ));
        drop(no_pages);
        assert_eq!(mappings_and_descriptors(), before);
        let layout = machine.layout(&[machine.region(shared.id(), GuestAddress(0)).unwrap()]);
        assert_eq!(layout.unwrap().number(), 0);
        let late = machine.shared_block(pages * PAGE, PAGE, Some((file.as_fd(), 0)));
        let ids = [private.id(), other, late.unwrap().id()];
        assert_eq!(ids.map(BlockId::number), [1, 2, 3]);
    }
    // No memory for the list of dirty pages.
    let size = 1 << 46;
    let file = memfd(size as u64).unwrap();
    let machine = Machine::new().unwrap();
    let refused = machine.shared_block(size, 1, Some((file.as_fd(), 0)));
    assert!(matches!(refused, Err(SharedBlockError::Machine(MachineError::Memory))));
}

#[test]
fn nothing_is_left() {
    round();
    let before = mappings_and_descriptors();
    for _ in 0..20 {
        round();
    }
    assert_eq!(mappings_and_descriptors(), before);
}
