//! Numbers, lists and replies far past small sizes: none of these calls finds memory wanting.

mod vmmem;

use vm_memory_proved::{GuestAddress, Machine, MappedRange, Permissions};
use vmmem::{program, replies};

// More than 2^16.
const MANY: usize = 70_000;

fn at(addr: usize) -> GuestAddress {
    GuestAddress(addr as u64)
}

// One of each kind after the other, each with the next number: a block of one byte, a space, a table, a region, a
// translator, a layout, and a memory of it without an IOMMU or behind one.
#[test]
fn each_kind_has_many_numbers() {
    let machine = Machine::new().unwrap();
    for number in 0..MANY {
        let block = machine.block(1, 1).unwrap();
        let space = machine.space(8, 1).unwrap();
        let table = machine.table(None).unwrap();
        let region = machine.region(block, at(number)).unwrap();
        let translator = machine.translator(table).unwrap();
        let layout = machine.layout(&[region]).unwrap();
        let memory = if number % 2 == 0 {
            machine.plain(layout).unwrap()
        } else {
            machine.new_memory(layout, translator, space, true).unwrap()
        };
        let numbers = [
            block.number(),
            space.number(),
            table.number(),
            region.number(),
            translator.number(),
            layout.number(),
            memory.number(),
        ];
        assert_eq!(numbers, [number; 7]);
        machine
            .set_mapping(table, at(5), at(number), 1, Permissions::ReadWrite)
            .unwrap();
        let addr = if number % 2 == 0 { number } else { 5 };
        let memory = machine.memory(memory).unwrap();
        memory.write_slice(&[number as u8], at(addr)).unwrap();
        assert_eq!(memory.read_obj::<u8>(at(addr)).unwrap(), number as u8);
        let (blocks, spaces) = if number % 2 == 0 {
            (vec![0], vec![])
        } else {
            (vec![], vec![5])
        };
        assert_eq!(machine.harvest_block(block).unwrap(), blocks);
        assert_eq!(machine.harvest_space(space).unwrap(), spaces);
    }
}

// Regions of a byte each, one after the other. One is taken out and put in again.
#[test]
fn a_layout_has_many_regions() {
    let machine = Machine::new().unwrap();
    let regions: Vec<_> = (0..MANY)
        .map(|number| {
            let block = machine.block(1, 1).unwrap();
            machine.region(block, at(number)).unwrap()
        })
        .collect();
    let layout = machine.layout(&regions).unwrap();
    let rest = machine.remove(layout, at(66_000), 1).unwrap();
    let again = machine.insert(rest, regions[66_000]).unwrap();
    let [all, rest, again] = [layout, rest, again].map(|layout| {
        let memory = machine.plain(layout).unwrap();
        machine.memory(memory).unwrap()
    });
    let bytes: Vec<u8> = (0..MANY).map(|number| (number % 251) as u8).collect();
    assert_eq!(all.write(&bytes, at(0)).unwrap(), MANY);
    let mut read = vec![0xff; MANY];
    again.read_slice(&mut read, at(0)).unwrap();
    assert!(read == bytes);
    assert_eq!(rest.read(&mut read, at(0)).unwrap(), 66_000);
    assert_eq!(rest.read(&mut read, at(66_001)).unwrap(), MANY - 66_001);
}

// Every second address leads to its half, and those between are missed. Then neighbours lead to every second address.
#[test]
fn a_look_up_tells_many_ranges() {
    let machine = Machine::new().unwrap();
    let table = machine.table(None).unwrap();
    for number in 0..MANY {
        machine
            .set_mapping(table, at(2 * number), at(number), 1, Permissions::Read)
            .unwrap();
    }
    let fails = machine
        .lookup(table, at(0), 2 * MANY, Permissions::Write)
        .unwrap()
        .unwrap_err();
    for (first, ranges) in [(1, &fails.misses), (0, &fails.access_fails)] {
        assert_eq!(ranges.len(), MANY);
        for (number, range) in ranges.iter().enumerate() {
            assert_eq!((range.base, range.length), (at(2 * number + first), 1));
        }
    }
    let table = machine.table(None).unwrap();
    for number in 0..MANY {
        machine
            .set_mapping(table, at(number), at(2 * number), 1, Permissions::Read)
            .unwrap();
    }
    let pieces = machine.lookup(table, at(0), MANY, Permissions::Read).unwrap().unwrap();
    assert_eq!(pieces.len(), MANY);
    for (number, piece) in pieces.into_iter().enumerate() {
        let wanted = MappedRange {
            base: at(2 * number),
            length: 1,
        };
        assert_eq!(piece, wanted);
    }
}

// A block of more than 2^28 bytes and 2^20 pages is written, read and harvested whole.
#[test]
fn a_block_has_many_bytes_and_pages() {
    const SIZE: usize = 0x1000_0001;
    let machine = Machine::new().unwrap();
    let block = machine.block(SIZE, 0x100).unwrap();
    let region = machine.region(block, at(0)).unwrap();
    let memory = machine.plain(machine.layout(&[region]).unwrap()).unwrap();
    let memory = machine.memory(memory).unwrap();
    let pattern: Vec<u8> = (0..251).collect();
    let mut bytes = vec![0; SIZE];
    for part in bytes.chunks_mut(pattern.len()) {
        part.copy_from_slice(&pattern[..part.len()]);
    }
    memory.write_slice(&bytes, at(0)).unwrap();
    let mut read = vec![0xff; SIZE];
    memory.read_slice(&mut read, at(0)).unwrap();
    assert!(read == bytes);
    let pages = machine.harvest_block(block).unwrap();
    assert_eq!(pages.len(), 0x10_0001);
    assert!(pages.iter().enumerate().all(|(number, page)| *page == number));
    assert!(machine.harvest_block(block).unwrap().is_empty());
}

// A reply of more than 2^26 bytes, each by two letters.
#[test]
#[cfg_attr(
    not(has_vmmem),
    ignore = "there is no `vmmem`: VMMEM names one, or `rt run < stdin` in crates/vmmem builds it"
)]
fn the_program_prints_a_long_reply() {
    let script = "block 0x4000001 0x1000\nregion 0 0\nlayout 0\nplain 0\nwrite 0 0x4000000 07\nread 0 0 0x5000000\n";
    let text = replies(&program(), script.to_string());
    let text = text
        .strip_prefix("block 0\nregion 0\nlayout 0\nmemory 0\ncount 1\nbytes ")
        .unwrap();
    let zeros = text.strip_suffix("07\n").unwrap().as_bytes();
    assert!(zeros.len() == 2 * 0x400_0000 && zeros.iter().all(|letter| *letter == b'0'));
}
