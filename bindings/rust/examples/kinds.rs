//! Requests of a split and of a packed queue, for a count of the instructions of the device's half:
//!
//! ```text
//! valgrind --tool=callgrind --collect-atstart=no --toggle-collect=turn_of_KIND kinds KIND
//! ```
//!
//! KIND is `split` or `packed`, and a second word `behind` puts the queue behind an IOMMU. A turn has 64 requests, each
//! a chain of two descriptors: the device pops it, reads 16 bytes, writes 512 and returns it, and asks once whether to
//! notify. There are 100 turns.

use std::env::args;
use std::sync::atomic::Ordering::SeqCst;
use vm_memory_proved::queue::{Queue, QueueError};
use vm_memory_proved::{GuestAddress, GuestMemory, GuestMemoryError, Machine, Permissions};

const SIZE: u16 = 128;
const TURNS: u16 = 100;

const AVAIL: u64 = 0x1000;
const USED: u64 = 0x2000;
const DATA: u64 = 0x1_0000;

// Puts the chain of a number: its flags and its last words are what the kind of the queue makes of them.
fn put_chain(memory: &GuestMemory<'_>, number: u16, words: [(u16, u16); 2]) -> Result<(), GuestMemoryError> {
    let data = DATA + 0x400 * u64::from(number);
    let parts = [(data, 16_u32), (data + 0x100, 512)];
    for (at, ((addr, len), words)) in parts.into_iter().zip(words).enumerate().rev() {
        let place = 16 * (2 * u64::from(number) + at as u64);
        memory.write_obj(addr, GuestAddress(place))?;
        memory.write_obj(len, GuestAddress(place + 8))?;
        memory.store(words.0, GuestAddress(place + 12), SeqCst)?;
        memory.store(words.1, GuestAddress(place + 14), SeqCst)?;
    }
    Ok(())
}

fn serve(queue: &Queue<'_>, memory: &GuestMemory<'_>) -> Result<(), QueueError> {
    let (mut asked, reply) = ([0; 16], [7; 512]);
    while let Some(chain) = queue.pop_descriptor_chain(memory)? {
        chain.read_at(memory, 0, &mut asked)?;
        chain.write_at(memory, 0, &reply)?;
        queue.add_used(memory, chain.head_index(), 512)?;
    }
    queue.needs_notification(memory).map(drop)
}

#[no_mangle]
#[inline(never)]
fn turn_of_split(queue: &Queue<'_>, memory: &GuestMemory<'_>) {
    serve(queue, memory).unwrap();
}

#[no_mangle]
#[inline(never)]
fn turn_of_packed(queue: &Queue<'_>, memory: &GuestMemory<'_>) {
    serve(queue, memory).unwrap();
}

fn main() -> Result<(), Box<dyn std::error::Error>> {
    let words: Vec<String> = args().skip(1).collect();
    let is_packed = words.first().is_some_and(|word| word == "packed");
    let machine = Machine::new()?;
    let block = machine.block(0x10_0000, 0x1000)?;
    let layout = machine.layout(&[machine.region(block, GuestAddress(0))?])?;
    let mut memory = machine.plain(layout)?;
    if words.get(1).is_some_and(|word| word == "behind") {
        let (table, space) = (machine.table(None)?, machine.space(0x10_0000, 0x1000)?);
        let zero = GuestAddress(0);
        machine.set_mapping(table, zero, zero, 0x10_0000, Permissions::ReadWrite)?;
        memory = machine.new_memory(layout, machine.translator(table)?, space, true)?;
    }
    let memory = machine.memory(memory).ok_or("no memory")?;
    let made = if is_packed {
        Machine::packed_queue
    } else {
        Machine::queue
    };
    let queue = made(&machine, SIZE, SIZE.into())?;
    queue.try_set_avail_ring_address(GuestAddress(AVAIL))?;
    queue.try_set_used_ring_address(GuestAddress(USED))?;
    queue.set_ready(true);
    for turn in 0..TURNS {
        for number in 0..SIZE / 2 {
            let (first, second) = (2 * number, 2 * number + 1);
            // A packed ring goes round once in each turn, and the flags that make a slot available change.
            let mark = if turn % 2 == 0 { 0x80 } else { 0x8000 };
            let words = if is_packed {
                [(number, 1 | mark), (number, 2 | mark)]
            } else {
                [(1, second), (2, 0)]
            };
            put_chain(&memory, number, words)?;
            let slot = u64::from(turn % 2 * (SIZE / 2) + number);
            if !is_packed {
                memory.write_obj(first, GuestAddress(AVAIL + 4 + 2 * slot))?;
            }
        }
        if is_packed {
            turn_of_packed(&queue, &memory);
        } else {
            memory.store((turn + 1) * (SIZE / 2), GuestAddress(AVAIL + 2), SeqCst)?;
            turn_of_split(&queue, &memory);
        }
    }
    println!("{:?}", queue.state());
    Ok(())
}
