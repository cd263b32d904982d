//! How long a processor works for a request of the program, beside the parts that it cannot do without.

mod front_end;

use front_end::*;
use std::fs::File;
use std::hint::black_box;
use std::io::{Read, Write};
use std::os::fd::{AsFd, AsRawFd, OwnedFd};
use std::os::unix::fs::FileExt;
use std::time::Duration;
use vm_memory_proved::block::{DeviceLimits, Request};
use vm_memory_proved::queue::Queue;
use vm_memory_proved::{GuestAddress, GuestMemory, Machine};

const LEN: usize = 64 << 20;
const BYTES: u32 = 4096;
const ROUNDS: usize = 9;
const REQUESTS: usize = 20_000;

// Nanoseconds that this thread has worked.
fn own_time() -> u64 {
    time_of(libc::CLOCK_THREAD_CPUTIME_ID)
}

// The least of several rounds, in nanoseconds each.
fn least(mut round: impl FnMut() -> u64) -> f64 {
    (0..ROUNDS).map(|_| round()).min().unwrap() as f64 / REQUESTS as f64
}

fn place(i: usize) -> u64 {
    (i as u64).wrapping_mul(0x9e37_79b9) % (LEN as u64 / u64::from(BYTES)) * u64::from(BYTES)
}

// A read of 4 KiB of the image.
fn pread(file: &File) -> f64 {
    let mut bytes = [0; BYTES as usize];
    least(|| {
        let begun = own_time();
        for i in 0..REQUESTS {
            file.read_exact_at(black_box(&mut bytes), place(i)).unwrap();
        }
        own_time() - begun
    })
}

// A write to a counter and a read of it.
fn eventfds() -> f64 {
    let (mut fd, mut bytes) = (File::from(eventfd()), [0; 8]);
    least(|| {
        let begun = own_time();
        for _ in 0..REQUESTS {
            fd.write_all(black_box(&1_u64.to_ne_bytes())).unwrap();
            fd.read_exact(black_box(&mut bytes)).unwrap();
        }
        own_time() - begun
    })
}

// The same two calls of a thread that sleeps until the other end notifies it, and wakes the other end.
fn eventfds_asleep() -> f64 {
    let (kick, call) = (eventfd(), eventfd());
    for fd in [&kick, &call] {
        // SAFETY: it takes numbers. Reads wait from now on.
        assert_eq!(unsafe { libc::fcntl(fd.as_raw_fd(), libc::F_SETFL, 0) }, 0);
    }
    let (mut asked, mut answered) = (File::from(again(&kick)), File::from(again(&call)));
    let other = std::thread::spawn(move || {
        let mut bytes = [0; 8];
        least(|| {
            let begun = own_time();
            for _ in 0..REQUESTS {
                asked.read_exact(black_box(&mut bytes)).unwrap();
                answered.write_all(black_box(&1_u64.to_ne_bytes())).unwrap();
            }
            own_time() - begun
        })
    });
    let (mut kick, mut call, mut bytes) = (File::from(kick), File::from(call), [0; 8]);
    for _ in 0..ROUNDS * REQUESTS {
        kick.write_all(&1_u64.to_ne_bytes()).unwrap();
        call.read_exact(&mut bytes).unwrap();
    }
    other.join().unwrap()
}

fn serve(queue: &Queue<'_>, memory: &GuestMemory<'_>, bytes: &[u8]) -> usize {
    let limits = DeviceLimits {
        sectors: LEN as u64 / 512,
        acked: USUAL,
        ..DeviceLimits::default()
    };
    let mut served = 0;
    queue.disable_notification(memory).unwrap();
    while let Some(chain) = queue.pop_descriptor_chain(memory).unwrap() {
        let Request::Read { len, .. } = chain.begin_request(memory, limits).unwrap() else {
            panic!("it is a read");
        };
        let moved = chain.write_at(memory, 0, &bytes[..len]).unwrap();
        let len = chain.finish_request(memory, 0, moved).unwrap();
        queue.add_used(memory, chain.head_index(), len).unwrap();
        served += 1;
    }
    assert!(!queue.enable_notification(memory).unwrap());
    black_box(queue.needs_notification(memory).unwrap());
    served
}

// The library's own part of a request if `depth` of them come at once. The driver's part is not counted.
fn request(front: &mut FrontEnd, depth: usize) -> f64 {
    let machine = Machine::new().unwrap();
    let block = machine.shared_block(RAM, 4096, Some((front.ram.as_fd(), 0))).unwrap();
    let layout = machine
        .layout(&[machine.region(block.id(), GuestAddress(0)).unwrap()])
        .unwrap();
    let memory = machine.memory(machine.plain(layout).unwrap()).unwrap();
    let queue = machine.queue(256, 65_536).unwrap();
    for (set, at) in [
        (Queue::try_set_desc_table_address as fn(&_, _) -> _, 0_u64),
        (Queue::try_set_avail_ring_address, 0x4000),
        (Queue::try_set_used_ring_address, 0x6000),
    ] {
        set(&queue, GuestAddress((1 << 20) + at)).unwrap();
    }
    queue.set_ready(true);
    let bytes = [0; BYTES as usize];
    // What the driver itself takes, as if nothing were served.
    let driver = least(|| {
        let begun = own_time();
        for _ in 0..REQUESTS / depth {
            publish(front, depth);
        }
        own_time() - begun
    });
    queue.set_next_avail(front.rings[0].next_avail);
    queue.set_next_used(front.rings[0].next_avail);
    let both = least(|| {
        let begun = own_time();
        for _ in 0..REQUESTS / depth {
            publish(front, depth);
            assert_eq!(serve(&queue, &memory, &bytes), depth);
        }
        own_time() - begun
    });
    front.rings[0].next_used = front.used_idx(0);
    both - driver
}

fn publish(front: &mut FrontEnd, depth: usize) {
    for i in 0..depth {
        front.publish(0, 3 * i as u16);
    }
}

fn put(front: &FrontEnd, depth: usize) {
    for i in 0..depth {
        front.put_request(0, 3 * i as u16, 0, place(i) / 512, BYTES);
    }
}

// What a processor works for each request in the program.
fn whole(program: &Program, front: &mut FrontEnd, depth: usize) -> f64 {
    least(|| round(program, front, depth))
}

// What it works for all requests of a round.
fn round(program: &Program, front: &mut FrontEnd, depth: usize) -> u64 {
    let begun = program.processor_time();
    for round in 0..REQUESTS / depth {
        for i in 0..depth {
            let data = front.places(0, 3 * i as u16).0;
            front.write(data - 0x1000 + 8, &(place(round * depth + i) / 512).to_le_bytes());
        }
        publish(front, depth);
        front.kick(0);
        while front.used_idx(0) != front.rings[0].next_avail {
            can_read(&front.rings[0].call, Duration::from_millis(100));
            take(&front.rings[0].call);
        }
    }
    program.processor_time() - begun
}

#[test]
#[ignore = "it measures"]
fn processor_time_of_a_request() {
    measure(&Program::start("speed", LEN, &[]));
    println!("with --iommu:");
    measure(&Program::start("speed_iommu", LEN, IOMMU));
    println!(
        "the two calls on eventfds of a thread that sleeps between them: {:.0}",
        eventfds_asleep()
    );
}

fn measure(program: &Program) {
    let file = File::open(&program.image).unwrap();
    let mut front = program.connect();
    front.negotiate(USUAL);
    front.set_memory();
    front.start_ring(256, 0);
    println!("batch | pread | library | eventfd | sum | program | program / sum");
    for depth in [1, 4, 16, 64] {
        put(&front, depth);
        let whole = whole(program, &mut front, depth);
        front.rings[0].next_used = front.used_idx(0);
        let [file, library, counter] = [pread(&file), request(&mut front, depth), eventfds()];
        let sum = file + library + counter;
        // The program's own queue goes on where this one ended.
        let base = front.stop_ring(0);
        assert_ne!(u32::from(front.rings[0].next_avail), base);
        front.restart_ring(0, front.rings[0].next_avail);
        let of_sum = whole / sum;
        println!("{depth} | {file:.0} | {library:.0} | {counter:.0} | {sum:.0} | {whole:.0} | {of_sum:.2}");
    }
}

// ---- both ways of the program

// Guest memory of 16 GiB, which is a hole but for its beginning.
const LARGE: u64 = 16 << 30;

// A program and its front end, whose memory is large, and its log.
fn large(name: &str, words: &[&str]) -> (Program, FrontEnd, OwnedFd) {
    let program = Program::start(name, LEN, words);
    let mut front = program.connect();
    front.negotiate(USUAL);
    let file = memfd(LARGE as usize);
    front.move_memory(&file, 0);
    assert!(front.is_done(SET_MEM_TABLE, &FrontEnd::table(&[(0, LARGE, 0)]), &[&file]));
    let bytes = LARGE / PAGE / 8;
    let log = memfd(bytes as usize);
    front.send(SET_LOG_BASE, 0, &longs(&[bytes, 0]), &[&log]);
    assert!(front.reply(SET_LOG_BASE).is_empty());
    front.start_ring(256, 0);
    let addresses = front.addresses(0, true);
    assert!(front.is_done(SET_VRING_ADDR, &addresses, &[]));
    (program, front, log)
}

// A round while writes are logged, or are not. Each begins with a log that has no bit set.
fn logged_round(it: &mut (Program, FrontEnd, OwnedFd), depth: usize, is_logged: bool) -> u64 {
    let (program, front, log) = it;
    let features = if is_logged { USUAL | LOG_ALL } else { USUAL };
    assert!(front.is_done(SET_FEATURES, &features.to_le_bytes(), &[]));
    File::from(again(log))
        .write_all_at(&vec![0; (LARGE / PAGE / 8) as usize], 0)
        .unwrap();
    let work = round(program, front, depth);
    front.rings[0].next_used = front.used_idx(0);
    work
}

#[test]
#[ignore = "it measures"]
fn processor_time_of_a_logged_request() {
    let mut all = [large("speed_large", &[]), large("speed_large_old", IOMMU)];
    println!("batch | program | with a log | more | with --iommu | with a log | more | program / --iommu");
    for depth in [1, 64] {
        let mut least = [u64::MAX; 4];
        all.iter().for_each(|it| put(&it.1, depth));
        for _ in 0..ROUNDS {
            for (number, least) in least.iter_mut().enumerate() {
                *least = logged_round(&mut all[number / 2], depth, number % 2 == 1).min(*least);
            }
        }
        let [plain, logged, old, old_logged] = least.map(|it| it as f64 / REQUESTS as f64);
        let (more, old_more, part) = (logged - plain, old_logged - old, plain / old);
        println!(
            "{depth} | {plain:.0} | {logged:.0} | {more:.0} | {old:.0} | {old_logged:.0} | {old_more:.0} | {part:.2}"
        );
    }
}
