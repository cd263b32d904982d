//! Three threads serve a queue each over one file, each with a machine of its own, while a fourth machine drives them.

mod ring;

use ring::{at, Driver};
use std::os::fd::{AsFd, OwnedFd};
use std::thread;
use std::time::{Duration, Instant};
use vm_memory_proved::{memfd, BlockId, Machine, MemoryId};

const THREADS: u64 = 3;
const REQUESTS: u64 = 13_334;
const SIZE: u16 = 64;
const PAGE: u64 = 0x1000;
// Of each queue: a page of its rings, one of requests, and one of replies to the queue before it.
const AREA: u64 = 3 * PAGE;
const LIMIT: Duration = Duration::from_secs(120);

// A memory from address 0 on whose bytes are those of the file.
fn memory_over(machine: &Machine, file: &OwnedFd) -> (BlockId, MemoryId) {
    let size = (THREADS * AREA) as usize;
    let block = machine
        .shared_block(size, PAGE as usize, Some((file.as_fd(), 0)))
        .unwrap();
    let region = machine.region(block.id(), at(0)).unwrap();
    let memory = machine.plain(machine.layout(&[region]).unwrap()).unwrap();
    (block.id(), memory)
}

fn request_of(queue: u64, slot: u16) -> u64 {
    queue * AREA + PAGE + 8 * u64::from(slot)
}

fn reply_of(queue: u64, slot: u16) -> u64 {
    (queue + 1) % THREADS * AREA + 2 * PAGE + 8 * u64::from(slot)
}

// Lets other threads run after each 256 looks that found nothing.
fn rest(looks: &mut u32) {
    *looks += 1;
    if *looks % 256 == 0 {
        thread::yield_now();
    }
}

// Answers each number by its complement, in order. It returns the pages that its machine says it wrote.
fn serve(file: &OwnedFd, number: u64) -> Vec<usize> {
    let begun = Instant::now();
    let machine = Machine::new().unwrap();
    let (block, memory) = memory_over(&machine, file);
    let memory = machine.memory(memory).unwrap();
    let queue = Driver::new(memory, number * AREA, SIZE).queue(2 * usize::from(SIZE));
    for expected in 0..REQUESTS {
        let mut looks = 0;
        let chain = loop {
            if let Some(chain) = queue.pop_descriptor_chain(&memory).unwrap() {
                break chain;
            }
            assert!(begun.elapsed() < LIMIT, "{expected} requests came to queue {number}");
            rest(&mut looks);
        };
        let mut request = [0; 8];
        assert_eq!(chain.read_at(&memory, 0, &mut request).unwrap(), 8);
        assert_eq!(u64::from_le_bytes(request), number << 32 | expected);
        assert_eq!(chain.write_at(&memory, 0, &request.map(|byte| !byte)).unwrap(), 8);
        queue.add_used(&memory, chain.head_index(), 8).unwrap();
    }
    machine.harvest_block(block).unwrap()
}

// Publishes what there is room for, and checks the replies that came. It returns how many these are.
fn drive(driver: &mut Driver<'_>, queue: u64, free: &mut Vec<u16>, sent: &mut [u64], next: &mut u64) -> u64 {
    while *next < REQUESTS {
        let Some(slot) = free.pop() else { break };
        let number = queue << 32 | *next;
        *next += 1;
        sent[usize::from(slot)] = number;
        driver.memory.write_obj(number, at(request_of(queue, slot))).unwrap();
        driver.put_chain(
            2 * slot,
            &[(request_of(queue, slot), 8, false), (reply_of(queue, slot), 8, true)],
        );
        driver.publish(2 * slot);
    }
    let mut came = 0;
    while let Some((head, len)) = driver.take() {
        let slot = (head / 2) as u16;
        let reply: u64 = driver.memory.read_obj(at(reply_of(queue, slot))).unwrap();
        assert_eq!((len, reply), (8, !sent[usize::from(slot)]));
        free.push(slot);
        came += 1;
    }
    came
}

#[test]
fn threads_with_a_machine_each_serve_one_memory() {
    let file = memfd(THREADS * AREA).unwrap();
    let machine = Machine::new().unwrap();
    let (block, memory) = memory_over(&machine, &file);
    let memory = machine.memory(memory).unwrap();
    let begun = Instant::now();
    let pages: Vec<Vec<usize>> = thread::scope(|scope| {
        let file = &file;
        let servers: Vec<_> = (0..THREADS).map(|it| scope.spawn(move || serve(file, it))).collect();
        let mut ends: Vec<_> = (0..THREADS)
            .map(|it| {
                let free: Vec<u16> = (0..SIZE / 2).collect();
                let sent = vec![0; free.len()];
                (Driver::new(memory, it * AREA, SIZE), free, sent, 0)
            })
            .collect();
        let (mut left, mut looks) = (THREADS * REQUESTS, 0);
        while left > 0 {
            for (queue, (driver, free, sent, next)) in (0..).zip(&mut ends) {
                left -= drive(driver, queue, free, sent, next);
            }
            assert!(begun.elapsed() < LIMIT, "{left} replies did not come");
            rest(&mut looks);
        }
        servers.into_iter().map(|it| it.join().unwrap()).collect()
    });
    // Each machine marks what it wrote itself: a server the rings of its queue and its replies.
    assert_eq!(pages, [vec![0, 5], vec![3, 8], vec![2, 6]]);
    assert_eq!(machine.harvest_block(block).unwrap(), [0, 1, 3, 4, 6, 7]);
}
