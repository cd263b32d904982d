//! What calls of guest memory cost, in nanoseconds each: the fastest of nine runs.

use std::hint::black_box;
use std::sync::atomic::Ordering::SeqCst;
use std::time::Instant;
use vm_memory_proved::{GuestAddress, Machine, Permissions};

const CALLS: u32 = 200_000;

fn row(name: &str, mut call: impl FnMut()) {
    let mut fastest = f64::MAX;
    for _ in 0..9 {
        let start = Instant::now();
        for _ in 0..CALLS {
            call();
        }
        fastest = fastest.min(start.elapsed().as_secs_f64() * 1e9 / f64::from(CALLS));
    }
    println!("{name:20} {fastest:8.1}");
}

fn main() -> Result<(), Box<dyn std::error::Error>> {
    let machine = Machine::new()?;
    let block = machine.block(0x10_0000, 0x1000)?;
    let space = machine.space(0x10_0000, 0x1000)?;
    let table = machine.table(None)?;
    let region = machine.region(block, GuestAddress(0x1000))?;
    let translator = machine.translator(table)?;
    let layout = machine.layout(&[region])?;
    let plain = machine.plain(layout)?;
    let device = machine.new_memory(layout, translator, space, true)?;
    machine.set_mapping(
        table,
        GuestAddress(0),
        GuestAddress(0x1000),
        0x1_0000,
        Permissions::ReadWrite,
    )?;
    let memory = machine.memory(plain).ok_or("no memory")?;
    let mapped = machine.memory(device).ok_or("no memory")?;
    let addr = GuestAddress(0x2000);
    let mut buf = vec![7; 0x1000];
    for size in [4, 64, 0x1000] {
        row(&format!("read {size}"), || {
            black_box(memory.read(black_box(&mut buf[..size]), addr)).ok();
        });
        row(&format!("write {size}"), || {
            black_box(memory.write(black_box(&buf[..size]), addr)).ok();
        });
    }
    row("load 8", || {
        black_box(memory.load::<u64>(addr, SeqCst)).ok();
    });
    row("store 8", || {
        black_box(memory.store(7_u64, addr, SeqCst)).ok();
    });
    row("write 64, mapped", || {
        black_box(mapped.write(black_box(&buf[..64]), addr)).ok();
    });
    Ok(())
}
