//! Memories, by rows of text: marks of pages, and transfers from and to lists of bytes.

mod rows;

use rows::{number, steps, try_rows};
use std::fmt::Debug;
use vm_memory_proved::raw::{code, kind, Call};
use vm_memory_proved::script::{SinkStep, SourceStep};
use vm_memory_proved::{
    BlockId, GuestAddress, GuestMemory, GuestMemoryError, Machine, MachineError, MemoryId, Permissions, RegionId,
    SpaceId,
};

fn at(addr: u64) -> GuestAddress {
    GuestAddress(addr)
}

// ---- marks

// Blocks and a memory of both, behind an IOMMU.
fn machine_of_marks() -> (Machine, MemoryId) {
    let machine = Machine::new().unwrap();
    let regions = [0, 0x200].map(|addr| {
        let block = machine.block(0x200, 0x100).unwrap();
        machine.region(block, at(addr)).unwrap()
    });
    let layout = machine.layout(&regions).unwrap();
    let table = machine.table(None).unwrap();
    for (iova, to) in [(0x8000, 0x100), (0x8100, 0)] {
        machine
            .set_mapping(table, at(iova), at(to), 0x100, Permissions::ReadWrite)
            .unwrap();
    }
    let (space, translator) = (
        machine.space(0x1_0000, 0x100).unwrap(),
        machine.translator(table).unwrap(),
    );
    let memory = machine.new_memory(layout, translator, space, true).unwrap();
    (machine, memory)
}

// What a mark of the bytes that a write would reach answers. A memory that is none can be named by a plain call alone.
fn reached(machine: &Machine, number: usize, addr: u64, count: usize) -> String {
    if let Some(memory) = machine.memory(MemoryId::new(number)) {
        return format!("{:?}", memory.mark_reached(at(addr), count));
    }
    let call = Call {
        kind: kind::MARK_REACHED,
        first: number,
        address: addr,
        length: count,
        ..Call::default()
    };
    assert_eq!(machine.call(&call, &[], &mut []).code, code::NO_SUCH);
    format!("Err({:?})", MachineError::NoSuch)
}

#[test]
fn each_call_marks_its_pages() {
    try_rows("marks.txt", |done| {
        let (machine, memory) = machine_of_marks();
        let words: Vec<&str> = done.split(' ').collect();
        let n = |place: usize| number(words[place]) as usize;
        let answer = match words[0] {
            "block" => format!("{:?}", machine.mark_block(BlockId::new(n(1)), n(2), n(3))),
            "reached" => {
                machine.set_iommu_enabled(memory, words[1] == "on").unwrap();
                reached(&machine, n(2), number(words[3]), n(4))
            }
            other => panic!("{other} is no call"),
        };
        let blocks = [0, 1].map(|block| machine.dirty_block(BlockId::new(block)).unwrap());
        let space = machine.dirty_space(SpaceId::new(0)).unwrap();
        vec![format!("{answer} {:?} {:?} {space:?}", blocks[0], blocks[1])]
    });
}

// ---- transfers

// Bytes from a number on, no two neighbouring pages of which are alike.
fn pattern(first: usize, count: usize) -> Vec<u8> {
    (0..count).map(|index| ((index % 251 + first) % 251) as u8).collect()
}

fn memory_of(machine: &Machine, ranges: &str) -> MemoryId {
    let region = |range: &str| -> RegionId {
        let (start, size) = range.split_once('+').unwrap();
        let block = machine.block(number(size) as usize, 0x1000).unwrap();
        machine.region(block, at(number(start))).unwrap()
    };
    let regions: Vec<RegionId> = ranges.split(' ').map(region).collect();
    machine.plain(machine.layout(&regions).unwrap()).unwrap()
}

fn text_of<T: Debug>(answer: &Result<T, GuestMemoryError>) -> String {
    format!("{answer:?}")
}

// How many bytes an access moved.
fn moved(answer: &Result<usize, GuestMemoryError>) -> usize {
    match answer {
        Ok(count) => *count,
        Err(GuestMemoryError::PartialBuffer { completed, .. }) => *completed,
        Err(_) => 0,
    }
}

// A transfer of some or of all of these bytes from a slice, and how many it leaves. The memory has what came.
fn come(memory: &GuestMemory<'_>, addr: u64, bytes: &[u8], exact: bool) -> String {
    let mut source = bytes;
    let (text, count) = if exact {
        let answer = memory.read_exact_volatile_from(at(addr), &mut source, bytes.len());
        let text = text_of(&answer);
        (text, moved(&answer.map(|()| bytes.len())))
    } else {
        let answer = memory.read_volatile_from(at(addr), &mut source, bytes.len());
        (text_of(&answer), moved(&answer))
    };
    assert_eq!(count, bytes.len() - source.len());
    expect_bytes(memory, addr, &bytes[..count]);
    format!("{text} {}", source.len())
}

fn expect_bytes(memory: &GuestMemory<'_>, addr: u64, bytes: &[u8]) {
    let mut there = vec![0; bytes.len()];
    memory.read_slice(&mut there, at(addr)).unwrap();
    assert!(there == bytes, "the memory has other bytes than came");
}

// A transfer of some or of all to a list that grows, and how many bytes it took: the beginning of these.
fn go(memory: &GuestMemory<'_>, addr: u64, bytes: &[u8], exact: bool) -> String {
    let mut taken = Vec::new();
    let text = if exact {
        text_of(&memory.write_all_volatile_to(at(addr), &mut taken, bytes.len()))
    } else {
        text_of(&memory.write_volatile_to(at(addr), &mut taken, bytes.len()))
    };
    assert!(taken == bytes[..taken.len()], "the bytes are not those that came");
    format!("{text} {}", taken.len())
}

// The same by the machine's own transfers, whose source and sink follow a script: the answers, and the bytes that came
// or were taken.
fn expect_scripted(machine: &Machine, memory: &GuestMemory<'_>, addr: u64, bytes: &[u8], row: &str) {
    let answer_of = |answer: Result<usize, MachineError>| match answer {
        Ok(count) => Ok(count),
        Err(MachineError::GuestMemory(error)) => Err(error),
        Err(error) => panic!("{error:?}"),
    };
    let mut told = String::new();
    for exact in [false, true] {
        let steps = [SourceStep::Give(bytes.to_vec())];
        let answer = answer_of(machine.receive(memory.id(), at(addr), bytes.len(), &steps, exact));
        let count = if exact && answer.is_ok() {
            bytes.len()
        } else {
            moved(&answer)
        };
        told += &if exact {
            text_of(&answer.map(|_| ()))
        } else {
            text_of(&answer)
        };
        told += &format!(" {} ", bytes.len() - count);
        expect_bytes(memory, addr, &bytes[..count]);
    }
    for exact in [false, true] {
        let steps = [SinkStep::Take(bytes.len())];
        let sent = machine.send(memory.id(), at(addr), bytes.len(), &steps, exact).unwrap();
        told += &if exact {
            text_of(&sent.ending.map(|_| ()))
        } else {
            text_of(&sent.ending)
        };
        told += &format!(" {}{}", sent.taken.len(), if exact { "" } else { " " });
        assert!(sent.taken == bytes[..sent.taken.len()]);
    }
    assert_eq!(told, row, "by a source and a sink that follow a script");
}

#[test]
fn lists_of_bytes_come_and_go() {
    try_rows("transfers.txt", |done| {
        let machine = Machine::new().unwrap();
        let (ranges, words) = done.split_once("; ").unwrap();
        let memory = machine.memory(memory_of(&machine, ranges)).unwrap();
        let (addr, words) = steps(words).next().unwrap();
        let (addr, count) = (number(addr), number(words[0]) as usize);
        let (bytes, other) = (pattern(0, count), pattern(7, count));
        let told = [
            come(&memory, addr, &other, false),
            come(&memory, addr, &bytes, true),
            go(&memory, addr, &bytes, false),
            go(&memory, addr, &bytes, true),
        ];
        let told = told.join(" ");
        expect_scripted(&machine, &memory, addr, &bytes, &told);
        vec![told]
    });
}

// A write over two regions of one block ends where it began.
#[test]
fn a_block_at_two_addresses_is_written_once() {
    let machine = Machine::new().unwrap();
    let block = machine.block(0x1000, 0x1000).unwrap();
    let regions = [0, 0x1000].map(|addr| machine.region(block, at(addr)).unwrap());
    let memory = machine.plain(machine.layout(&regions).unwrap()).unwrap();
    let memory = machine.memory(memory).unwrap();
    let mut bytes = vec![1; 0x1001];
    bytes[0x1000] = 9;
    assert_eq!(memory.write(&bytes, at(0)).unwrap(), 0x1001);
    memory.read_slice(&mut bytes[..0x1000], at(0x1000)).unwrap();
    assert_eq!(bytes[0], 9);
    assert!(bytes[1..0x1000].iter().all(|byte| *byte == 1));
}

// A value, the value that a source puts in its place, and the bytes that a sink takes of this.
#[test]
fn a_source_replaces_a_value() {
    let machine = Machine::new().unwrap();
    let memory = machine.memory(memory_of(&machine, "0x1000+0x1000")).unwrap();
    memory.write_obj(u32::MAX, at(0x1010)).unwrap();
    assert_eq!(memory.read_obj::<u32>(at(0x1010)).unwrap(), 0xffff_ffff);
    memory
        .read_exact_volatile_from(at(0x1010), &mut &[0, 0, 7, 0][..], 4)
        .unwrap();
    assert_eq!(memory.read_obj::<u32>(at(0x1010)).unwrap(), 0x0007_0000);
    let mut out = [9; 4];
    memory.write_all_volatile_to(at(0x1010), &mut &mut out[..], 4).unwrap();
    assert_eq!(out, [0, 0, 7, 0]);
}

// Bytes go to a vector, and from it into another memory.
#[test]
fn sixteen_mebibytes_go_from_memory_to_memory() {
    let machine = Machine::new().unwrap();
    let [from, to] = [0, 1].map(|_| machine.memory(memory_of(&machine, "0+0x1000000")).unwrap());
    let sent = pattern(0, 0x100_0000);
    from.write_slice(&sent, at(0)).unwrap();
    let mut sink = Vec::new();
    from.write_all_volatile_to(at(0), &mut sink, sent.len()).unwrap();
    to.read_exact_volatile_from(at(0), &mut &sink[..], sent.len()).unwrap();
    let mut came = vec![0; sent.len()];
    to.read_slice(&mut came, at(0)).unwrap();
    assert!(sink == sent && came == sent);
}
