//! Memory that is shared with a guest in another process. The guest asks by writing into a memfd. This process reads it
//! by the machine, answers there, and prints the pages that it wrote.

use std::env;
use std::error::Error;
use std::fs::File;
use std::io::{stdin, BufRead, BufReader};
use std::os::fd::AsFd;
use std::os::unix::fs::FileExt;
use std::process::{Command, Stdio};
use std::sync::atomic::Ordering;
use std::thread::sleep;
use std::time::Duration;
use vm_memory_proved::{memfd, GuestAddress, Machine};

const PAGE: u64 = 0x1000;
const SIZE: u64 = 4 * PAGE;
// Where the guest asks, in its memory, where the answer is, and the word that says how long the answer is.
const ASKED: u64 = 0x10;
const ANSWER: u64 = 2 * PAGE;
const READY: u64 = 3 * PAGE;
// The address of the guest's memory.
const BASE: u64 = 0x8000_0000;

fn main() -> Result<(), Box<dyn Error>> {
    if env::args().nth(1).as_deref() == Some("guest") {
        guest()
    } else {
        monitor()
    }
}

// The guest has the file as its input, and would map it.
fn guest() -> Result<(), Box<dyn Error>> {
    let ram = File::from(stdin().as_fd().try_clone_to_owned()?);
    ram.write_all_at(b"\x05hello", ASKED)?;
    println!("asked");
    let mut word = [0; 4];
    while word == [0; 4] {
        sleep(Duration::from_millis(1));
        ram.read_exact_at(&mut word, READY)?;
    }
    let mut answer = vec![0; u32::from_le_bytes(word) as usize];
    ram.read_exact_at(&mut answer, ANSWER)?;
    println!("the guest reads {:?}", String::from_utf8_lossy(&answer));
    Ok(())
}

fn monitor() -> Result<(), Box<dyn Error>> {
    let ram = memfd(SIZE)?;
    let machine = Machine::new()?;
    let block = machine.shared_block(SIZE as usize, PAGE as usize, Some((ram.as_fd(), 0)))?;
    let layout = machine.layout(&[machine.region(block.id(), GuestAddress(BASE))?])?;
    let memory = machine.memory(machine.plain(layout)?).ok_or("no memory")?;

    let mut guest = Command::new(env::current_exe()?);
    let mut guest = guest.arg("guest").stdin(ram).stdout(Stdio::piped()).spawn()?;
    let mut lines = BufReader::new(guest.stdout.take().ok_or("no output")?).lines();
    lines.next().ok_or("no word of the guest")??;

    // The length is read once: a guest might change it before it is read again.
    let len = memory.read_obj::<u8>(GuestAddress(BASE + ASKED))?;
    let mut asked = vec![0; len.into()];
    memory.read_slice(&mut asked, GuestAddress(BASE + ASKED + 1))?;
    println!("the monitor reads {:?}", String::from_utf8_lossy(&asked));
    let answer: Vec<u8> = asked.iter().rev().copied().collect();
    memory.write_slice(&answer, GuestAddress(BASE + ANSWER))?;
    memory.store(answer.len() as u32, GuestAddress(BASE + READY), Ordering::Release)?;

    println!("{}", lines.next().ok_or("no word of the guest")??);
    if !guest.wait()?.success() {
        return Err("the guest failed".into());
    }
    println!("dirty pages: {:?}", machine.harvest_block(block.id())?);
    Ok(())
}
