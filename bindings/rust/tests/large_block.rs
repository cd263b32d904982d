//! A block of the allocator's above 4 GiB. It is the only test of its process, as it takes that much memory.

use vm_memory_proved::{GuestAddress, Machine};

const SIZE: usize = (4 << 30) + 0x2000;
const PAGE: usize = 0x1000;

#[test]
fn a_block_above_4_gib() {
    let machine = Machine::new().unwrap();
    let block = machine.block(SIZE, PAGE).unwrap();
    let region = machine.region(block, GuestAddress(0x1000)).unwrap();
    let plain = machine.plain(machine.layout(&[region]).unwrap()).unwrap();
    let memory = machine.memory(plain).unwrap();
    // The last bytes, and those on both sides of 4 GiB.
    for offset in [(4 << 30) - 2, SIZE - 4] {
        let address = GuestAddress(0x1000 + offset as u64);
        memory.write_slice(&[1, 2, 3, 4], address).unwrap();
        let mut bytes = [0; 4];
        memory.read_slice(&mut bytes, address).unwrap();
        assert_eq!(bytes, [1, 2, 3, 4], "{offset:x}");
    }
    // A number that was cut to 32 bits would name these.
    let mut bytes = [9; 4];
    memory.read_slice(&mut bytes, GuestAddress(0x1000)).unwrap();
    assert_eq!(bytes, [0; 4]);
    let pages = (4 << 30) / PAGE;
    assert_eq!(machine.harvest_block(block).unwrap(), [pages - 1, pages, pages + 1]);
}
