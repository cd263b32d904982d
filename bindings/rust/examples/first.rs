//! A first access by the proved machine.

use vm_memory_proved::{GuestAddress, Machine};

fn main() -> Result<(), Box<dyn std::error::Error>> {
    let machine = Machine::new()?;
    let block = machine.block(0x2000, 0x1000)?;
    let layout = machine.layout(&[machine.region(block, GuestAddress(0x1000))?])?;
    let memory = machine.memory(machine.plain(layout)?).expect("a memory");
    memory.write_slice(&[1, 2, 3], GuestAddress(0x1ffe))?;
    println!("read {:#06x}", memory.read_obj::<u16>(GuestAddress(0x1ffe))?);
    Ok(())
}
