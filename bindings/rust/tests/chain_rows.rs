//! Chains, by rows of text: what they move, and which segments make none.

mod ring;
mod rows;

use ring::{at, Driver};
use rows::{number, steps, try_rows};
use std::fmt::Debug;
use vm_memory_proved::queue::{DescriptorChain, Queue, QueueError};
use vm_memory_proved::{BlockId, GuestMemory, Machine, MemoryId, Permissions, SpaceId};

// Where the rings lie, which is in no row.
const RINGS: u64 = 0x1_0000;

const PAGE: usize = 0x1000;

// An address, a length in bytes, and whether the device writes there.
type Part = (u64, u32, bool);

// Memory of these regions and of rings, behind an IOMMU where so many addresses from 0 on lead to themselves, or behind
// none.
fn memory_of(machine: &Machine, regions: &[(u64, usize)], mapped: Option<usize>) -> MemoryId {
    let all = regions.iter().chain(&[(RINGS, PAGE)]);
    let all: Vec<_> = all
        .map(|(addr, size)| {
            let block = machine.block(*size, PAGE).unwrap();
            machine.region(block, at(*addr)).unwrap()
        })
        .collect();
    let layout = machine.layout(&all).unwrap();
    let Some(mapped) = mapped else {
        return machine.plain(layout).unwrap();
    };
    let table = machine.table(None).unwrap();
    for (addr, size) in [(0, mapped), (RINGS, PAGE)] {
        machine
            .set_mapping(table, at(addr), at(addr), size, Permissions::ReadWrite)
            .unwrap();
    }
    let space = machine.space(RINGS as usize + PAGE, PAGE).unwrap();
    let translator = machine.translator(table).unwrap();
    machine.new_memory(layout, translator, space, true).unwrap()
}

fn parts_of(words: &[&str]) -> Vec<Part> {
    let part = |word: &&str| {
        let (kind, range) = word.split_once(':').unwrap();
        let (addr, len) = range.split_once('+').unwrap();
        (number(addr), number(len) as u32, kind == "w")
    };
    words.iter().map(part).collect()
}

// Publishes a chain of these segments and pops it.
fn chain_of<'a>(memory: GuestMemory<'a>, parts: &[Part]) -> Result<DescriptorChain<'a>, QueueError> {
    let mut driver = Driver::new(memory, RINGS, 8);
    let queue: Queue<'a> = driver.queue(8);
    driver.put_chain(0, parts);
    driver.publish(0);
    queue
        .pop_descriptor_chain(&memory)
        .map(|chain| chain.expect("a chain was published"))
}

// What an access of a chain answers: the error of guest memory, if it is one.
fn text_of<T: Debug>(answer: &Result<T, QueueError>) -> String {
    match answer {
        Err(QueueError::GuestMemory(error)) => format!("Err({error:?})"),
        answer => format!("{answer:?}"),
    }
}

// ---- what chains move

// The reads of a row.
fn told_of_reads(chain: &DescriptorChain<'_>, memory: &GuestMemory<'_>, done: &str) -> String {
    let (mut told, mut place) = (format!("{} ", chain.readable_len()), 0);
    for (_, words) in steps(done).filter(|(word, _)| *word == "read") {
        let mut buffer = vec![0; number(words[0]) as usize];
        let answer = chain.read_at(memory, place, &mut buffer);
        told += &format!("{} {buffer:?} ", text_of(&answer));
        place += answer.unwrap_or(0);
    }
    format!("{told}{}; ", chain.readable_len() - place)
}

// The writes of a row.
fn told_of_writes(chain: &DescriptorChain<'_>, memory: &GuestMemory<'_>, done: &str) -> String {
    let (mut told, mut place) = (format!("{} ", chain.writable_len()), 0);
    for (_, words) in steps(done).filter(|(word, _)| *word == "write") {
        let bytes = words[0]
            .as_bytes()
            .chunks(2)
            .map(|pair| std::str::from_utf8(pair).unwrap());
        let bytes: Vec<u8> = bytes.map(|pair| u8::from_str_radix(pair, 16).unwrap()).collect();
        let answer = chain.write_at(memory, place, &bytes);
        told += &format!("{} ", text_of(&answer));
        place += answer.unwrap_or(0);
    }
    format!("{told}{}; ", chain.writable_len() - place)
}

// The dirty pages of both blocks, and of the space if there is one.
fn told_of_dirt(machine: &Machine, has_space: bool) -> String {
    let blocks = [0, 1].map(|block| machine.harvest_block(BlockId::new(block)).unwrap());
    let space = if has_space {
        machine.harvest_space(SpaceId::new(0)).unwrap()
    } else {
        Vec::new()
    };
    format!("{:?} {:?} {space:?}", blocks[0], blocks[1])
}

#[test]
fn chains_move_the_bytes_of_their_segments() {
    try_rows("chains.txt", |done| {
        let all: Vec<_> = steps(done).collect();
        let is_behind = all[0].0 == "behind";
        let machine = Machine::new().unwrap();
        let memory = memory_of(&machine, &[(0, 4), (8, 4)], is_behind.then_some(0x1000));
        let memory = machine.memory(memory).unwrap();
        memory.write_slice(&[1, 2, 3, 4], at(0)).unwrap();
        memory.write_slice(&[5, 6, 7, 8], at(8)).unwrap();
        let chain = chain_of(memory, &parts_of(&all[1].1)).unwrap();
        told_of_dirt(&machine, is_behind);
        let mut told = told_of_reads(&chain, &memory, done);
        told += &told_of_writes(&chain, &memory, done);
        let regions: [[u8; 4]; 2] = [0, 8].map(|addr| memory.read_obj(at(addr)).unwrap());
        told += &format!("{:?} {:?}; ", regions[0], regions[1]);
        vec![told + &told_of_dirt(&machine, is_behind)]
    });
}

// ---- which segments make a chain

#[test]
fn chains_are_tested_segment_by_segment() {
    try_rows("chain_faults.txt", |done| {
        let machine = Machine::new().unwrap();
        let memory = machine.memory(memory_of(&machine, &[(0, 4)], None)).unwrap();
        let words: Vec<_> = done.split(' ').collect();
        vec![match chain_of(memory, &parts_of(&words)) {
            Ok(chain) => format!("{} {}", chain.readable_len(), chain.writable_len()),
            Err(QueueError::InvalidChain(fault)) => fault.to_string(),
            Err(error) => format!("{error:?}"),
        }]
    });
}

// ---- long segments

// Three segments to be read, and after these three to be written.
const LONG_SEGMENTS: [Part; 6] = [
    (0, 5000, false),
    (0x4000, 5000, false),
    (0x2000, 5000, false),
    (0x8000, 5000, true),
    (0x6000, 5000, true),
    (0xa000, 5000, true),
];

// Bytes that lie where the readable segments are come whole, and go whole to where the writable ones are.
#[test]
fn long_segments_move_whole() {
    let bytes: Vec<u8> = (0..15_000).map(|index| (index % 251) as u8).collect();
    for mapped in [None, Some(0xc000)] {
        let machine = Machine::new().unwrap();
        let memory = machine.memory(memory_of(&machine, &[(0, 0xc000)], mapped)).unwrap();
        let chain = chain_of(memory, &LONG_SEGMENTS).unwrap();
        for ((addr, _, _), part) in LONG_SEGMENTS.iter().zip(bytes.chunks(5000)) {
            memory.write_slice(part, at(*addr)).unwrap();
        }
        let mut came = vec![0; 15_000];
        assert_eq!(chain.read_at(&memory, 0, &mut came).unwrap(), 15_000);
        assert_eq!(chain.write_at(&memory, 0, &bytes).unwrap(), 15_000);
        assert!(came == bytes);
        for ((addr, _, _), part) in LONG_SEGMENTS[3..].iter().zip(bytes.chunks(5000)) {
            let mut there = vec![0; 5000];
            memory.read_slice(&mut there, at(*addr)).unwrap();
            assert!(there == part);
        }
    }
}
