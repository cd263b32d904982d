//! What a request of a queue costs, in nanoseconds: the fastest of nine runs. The device pops a chain, reads 16 bytes,
//! writes 512 and returns it. What the driver does between is not counted.

use std::hint::black_box;
use std::sync::atomic::Ordering::SeqCst;
use std::time::{Duration, Instant};
use vm_memory_proved::queue::{Queue, QueueError};
use vm_memory_proved::{GuestAddress, GuestMemory, GuestMemoryError, Machine, Permissions};

const SIZE: u16 = 256;
// How often all heads of the ring are published.
const ROUNDS: u32 = 800;

const AVAIL: u64 = 0x1000;
const USED: u64 = 0x2000;
const DATA: u64 = 0x1_0000;

// Chains of two descriptors: 16 bytes that are read, and 512 that are written.
fn put_chains(memory: &GuestMemory<'_>) -> Result<(), GuestMemoryError> {
    for slot in 0..SIZE / 2 {
        let (first, data) = (2 * slot, DATA + 0x400 * u64::from(slot));
        for (index, addr, len, flags) in [(first, data, 16_u32, 1_u16), (first + 1, data + 0x100, 512, 2)] {
            let place = 16 * u64::from(index);
            memory.write_obj(addr, GuestAddress(place))?;
            memory.write_obj(len, GuestAddress(place + 8))?;
            memory.write_obj(flags, GuestAddress(place + 12))?;
            memory.write_obj(index + 1, GuestAddress(place + 14))?;
        }
    }
    for slot in 0..SIZE {
        let place = GuestAddress(AVAIL + 4 + 2 * u64::from(slot));
        memory.write_obj(slot % (SIZE / 2) * 2, place)?;
    }
    Ok(())
}

fn pop_and_return(queue: &Queue<'_>, memory: &GuestMemory<'_>) -> Result<(), QueueError> {
    let chain = queue.pop_descriptor_chain(memory)?.ok_or(QueueError::NotInFlight)?;
    queue.add_used(memory, chain.head_index(), 512)
}

fn pop_and_forget(queue: &Queue<'_>, memory: &GuestMemory<'_>) -> Result<(), QueueError> {
    let chain = queue.pop_descriptor_chain(memory)?.ok_or(QueueError::NotInFlight)?;
    queue.forget(chain.head_index())
}

fn request(
    queue: &Queue<'_>,
    memory: &GuestMemory<'_>,
    asked: &mut [u8; 16],
    reply: &[u8; 512],
) -> Result<(), QueueError> {
    let chain = queue.pop_descriptor_chain(memory)?.ok_or(QueueError::NotInFlight)?;
    chain.read_at(memory, 0, black_box(asked))?;
    chain.write_at(memory, 0, black_box(reply))?;
    queue.add_used(memory, chain.head_index(), 512)
}

// The same by three calls.
fn completed(
    queue: &Queue<'_>,
    memory: &GuestMemory<'_>,
    asked: &mut [u8; 16],
    reply: &[u8; 512],
) -> Result<(), QueueError> {
    let chain = queue.pop_descriptor_chain(memory)?.ok_or(QueueError::NotInFlight)?;
    chain.read_at(memory, 0, black_box(asked))?;
    chain.complete_at(memory, 0, black_box(reply), 512)
}

fn row(
    name: &str,
    queue: &Queue<'_>,
    memory: &GuestMemory<'_>,
    mut part: impl FnMut(&Queue<'_>, &GuestMemory<'_>) -> Result<(), QueueError>,
) -> Result<(), QueueError> {
    let mut fastest = f64::MAX;
    for _ in 0..9 {
        let mut taken = Duration::ZERO;
        for _ in 0..ROUNDS {
            // Half of the ring at once, each chain one time.
            let index = queue.next_avail().wrapping_add(SIZE / 2);
            let stored = memory.store(index, GuestAddress(AVAIL + 2), SeqCst);
            stored.map_err(QueueError::GuestMemory)?;
            let start = Instant::now();
            for _ in 0..SIZE / 2 {
                part(queue, memory)?;
            }
            taken += start.elapsed();
        }
        fastest = fastest.min(taken.as_secs_f64() * 1e9 / f64::from(ROUNDS * u32::from(SIZE / 2)));
    }
    println!("{name:40} {fastest:8.1}");
    Ok(())
}

fn main() -> Result<(), Box<dyn std::error::Error>> {
    let machine = Machine::new()?;
    let block = machine.block(0x10_0000, 0x1000)?;
    let layout = machine.layout(&[machine.region(block, GuestAddress(0))?])?;
    let plain = machine.memory(machine.plain(layout)?).ok_or("no memory")?;
    let (table, space) = (machine.table(None)?, machine.space(0x10_0000, 0x1000)?);
    let behind = machine.new_memory(layout, machine.translator(table)?, space, true)?;
    let behind = machine.memory(behind).ok_or("no memory")?;
    let zero = GuestAddress(0);
    machine.set_mapping(table, zero, zero, 0x10_0000, Permissions::ReadWrite)?;
    put_chains(&plain)?;
    let queue = machine.queue(SIZE, SIZE.into())?;
    queue.try_set_avail_ring_address(GuestAddress(AVAIL))?;
    queue.try_set_used_ring_address(GuestAddress(USED))?;
    queue.set_ready(true);
    let (mut asked, reply) = ([0; 16], [7; 512]);
    for (name, memory) in [("", plain), (", mapped", behind)] {
        row(&format!("pop, forget{name}"), &queue, &memory, pop_and_forget)?;
        row(&format!("pop, return{name}"), &queue, &memory, pop_and_return)?;
        row(
            &format!("pop, read 16, write 512, return{name}"),
            &queue,
            &memory,
            |queue, memory| request(queue, memory, &mut asked, &reply),
        )?;
    }
    row("pop, read 16, write 512 and return", &queue, &plain, |queue, memory| {
        completed(queue, memory, &mut asked, &reply)
    })?;
    row("the same, and whether to notify", &queue, &plain, |queue, memory| {
        request(queue, memory, &mut asked, &reply)?;
        black_box(queue.needs_notification(memory)?);
        Ok(())
    })?;
    Ok(())
}
