//! A device that answers each request with its text in capitals, and a driver that makes one.

use std::error::Error;
use std::io::{self, Read, Write};
use vm_memory_proved::queue::{DescriptorChain, Queue, QueueError};
use vm_memory_proved::{GuestAddress, GuestMemory, GuestMemoryError, Machine};

struct Device<'a> {
    memory: GuestMemory<'a>,
    queue: Queue<'a>,
}

impl<'a> Device<'a> {
    // Answers a request, of which it reads 4,096 bytes at most, and returns how many bytes it wrote.
    fn answer(&self, chain: &DescriptorChain<'a>) -> io::Result<usize> {
        let mut text = Vec::new();
        chain.reader(&self.memory).take(4096).read_to_end(&mut text)?;
        text.make_ascii_uppercase();
        let mut writer = chain.writer(&self.memory);
        text.truncate(writer.available_bytes());
        writer.write_all(&text)?;
        Ok(text.len())
    }

    // Serves all that the driver has published, and says whether to interrupt it.
    fn process(&self) -> Result<bool, QueueError> {
        loop {
            self.queue.disable_notification(&self.memory)?;
            for chain in self.queue.iter(&self.memory) {
                let chain = chain?;
                let written = self.answer(&chain).unwrap_or(0);
                self.queue.add_used(&self.memory, chain.head_index(), written as u32)?;
            }
            if !self.queue.enable_notification(&self.memory)? {
                return self.queue.needs_notification(&self.memory);
            }
        }
    }
}

// Where the driver has its areas, and its request and the room for a reply.
const TABLE: GuestAddress = GuestAddress(0x1000);
const AVAIL: GuestAddress = GuestAddress(0x2000);
const USED: GuestAddress = GuestAddress(0x3000);
const REQUEST: GuestAddress = GuestAddress(0x4000);
const REPLY: GuestAddress = GuestAddress(0x5000);

fn after(addr: GuestAddress, offset: u64) -> GuestAddress {
    GuestAddress(addr.0 + offset)
}

// The driver publishes one chain: a segment that the device reads, and one that it writes.
fn ask(memory: &GuestMemory<'_>, text: &[u8]) -> Result<(), GuestMemoryError> {
    memory.write_slice(text, REQUEST)?;
    memory.write_obj(REQUEST.0, TABLE)?;
    memory.write_obj(text.len() as u32, after(TABLE, 8))?;
    memory.write_obj([1_u8, 0, 1, 0], after(TABLE, 12))?;
    memory.write_obj(REPLY.0, after(TABLE, 16))?;
    memory.write_obj(0x100_u32, after(TABLE, 24))?;
    memory.write_obj([2_u8, 0, 0, 0], after(TABLE, 28))?;
    memory.write_obj(0_u16, after(AVAIL, 4))?;
    memory.write_obj(1_u16, after(AVAIL, 2))
}

fn main() -> Result<(), Box<dyn Error>> {
    let machine = Machine::new()?;
    let block = machine.block(0x8000, 0x1000)?;
    let layout = machine.layout(&[machine.region(block, GuestAddress(0))?])?;
    let memory = machine.memory(machine.plain(layout)?).ok_or("no memory")?;
    // The transport sets the queue up as the driver asks. All chains in flight have at most 64 descriptors.
    let queue = machine.queue(16, 64)?;
    queue.try_set_desc_table_address(TABLE)?;
    queue.try_set_avail_ring_address(AVAIL)?;
    queue.try_set_used_ring_address(USED)?;
    queue.set_ready(true);

    ask(&memory, b"hello")?;
    let interrupts = Device { memory, queue }.process()?;
    let len = memory.read_obj::<u32>(after(USED, 8))?;
    let mut reply = vec![0; len as usize];
    memory.read_slice(&mut reply, REPLY)?;
    println!("the driver reads {:?}", String::from_utf8_lossy(&reply));
    println!("it is interrupted: {interrupts}");
    Ok(())
}
