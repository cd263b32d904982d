//! Blocks whose bytes a guest has, too: what each sees of the other, dirty pages, refusals and threads.

mod guest;

use guest::{BusyGuest, Guest};
use std::env;
use std::fs::{self, File};
use std::io::{Cursor, ErrorKind};
use std::os::fd::{AsFd, AsRawFd, OwnedFd};
use std::os::unix::fs::FileExt;
use std::process::Command;
use std::sync::atomic::AtomicBool;
use std::sync::atomic::Ordering::SeqCst;
use std::thread;
use vm_memory_proved::{
    memfd, GuestAddress, GuestMemory, GuestMemoryError, Machine, MachineError, MemoryId, Permissions, SharedBlock,
    SharedBlockError, SpaceId,
};

const PAGE: usize = 0x1000;
const BASE: u64 = 0x1_0000;

fn at(addr: u64) -> GuestAddress {
    GuestAddress(addr)
}

fn file_of(pages: usize) -> OwnedFd {
    memfd((pages * PAGE) as u64).unwrap()
}

// A block of some pages of a file, from a page on, with dirty pages of half a page.
fn shared(machine: &Machine, pages: usize, file: Option<(&OwnedFd, usize)>) -> SharedBlock {
    let file = file.map(|(file, from)| (file.as_fd(), (from * PAGE) as u64));
    let block = machine.shared_block(pages * PAGE, PAGE / 2, file).unwrap();
    assert_eq!(block.len(), pages * PAGE);
    block
}

// A memory of these blocks in a row from BASE on, and one with the same addresses behind an IOMMU.
fn memories(machine: &Machine, blocks: &[SharedBlock]) -> [MemoryId; 2] {
    let mut addr = BASE;
    let mut regions = Vec::new();
    for block in blocks {
        regions.push(machine.region(block.id(), at(addr)).unwrap());
        addr += block.len() as u64;
    }
    let space = machine.space(2 * addr as usize, PAGE).unwrap();
    let table = machine.table(None).unwrap();
    let translator = machine.translator(table).unwrap();
    let layout = machine.layout(&regions).unwrap();
    let length = (addr - BASE) as usize;
    machine
        .set_mapping(table, at(BASE), at(BASE), length, Permissions::ReadWrite)
        .unwrap();
    let behind = machine.new_memory(layout, translator, space, true).unwrap();
    [machine.plain(layout).unwrap(), behind]
}

// ---- what each sees of the other

// Each call that writes some of eight bytes at an address.
type Writes = fn(&GuestMemory<'_>, &[u8; 8], GuestAddress);

const WRITES: [Writes; 9] = [
    |memory, bytes, addr| assert_eq!(memory.write(bytes, addr).unwrap(), 8),
    |memory, bytes, addr| memory.write_slice(bytes, addr).unwrap(),
    |memory, bytes, addr| memory.write_obj(u64::from_le_bytes(*bytes), addr).unwrap(),
    |memory, bytes, addr| memory.store(u64::from_le_bytes(*bytes), addr, SeqCst).unwrap(),
    |memory, bytes, addr| {
        for (i, half) in bytes.chunks_exact(4).enumerate() {
            let value = u32::from_le_bytes(half.try_into().unwrap());
            memory.store(value, at(addr.0 + 4 * i as u64), SeqCst).unwrap();
        }
    },
    |memory, bytes, addr| {
        for (i, part) in bytes.chunks_exact(2).enumerate() {
            let value = u16::from_le_bytes(part.try_into().unwrap());
            memory.store(value, at(addr.0 + 2 * i as u64), SeqCst).unwrap();
        }
    },
    |memory, bytes, addr| {
        for (i, byte) in bytes.iter().enumerate() {
            memory.store(*byte, at(addr.0 + i as u64), SeqCst).unwrap();
        }
    },
    |memory, bytes, addr| assert_eq!(memory.read_volatile_from(addr, &mut Cursor::new(bytes), 8).unwrap(), 8),
    |memory, bytes, addr| {
        memory
            .read_exact_volatile_from(addr, &mut Cursor::new(bytes), 8)
            .unwrap()
    },
];

// Each call that reads eight bytes at an address.
type Reads = fn(&GuestMemory<'_>, GuestAddress) -> [u8; 8];

const READS: [Reads; 8] = [
    |memory, addr| {
        let mut bytes = [0; 8];
        assert_eq!(memory.read(&mut bytes, addr).unwrap(), 8);
        bytes
    },
    |memory, addr| {
        let mut bytes = [0; 8];
        memory.read_slice(&mut bytes, addr).unwrap();
        bytes
    },
    |memory, addr| memory.read_obj(addr).unwrap(),
    |memory, addr| memory.load::<u64>(addr, SeqCst).unwrap().to_le_bytes(),
    |memory, addr| {
        let low = memory.load::<u32>(addr, SeqCst).unwrap();
        let high = memory.load::<u32>(at(addr.0 + 4), SeqCst).unwrap();
        (u64::from(high) << 32 | u64::from(low)).to_le_bytes()
    },
    |memory, addr| {
        let part = |i: u64| u64::from(memory.load::<u16>(at(addr.0 + 2 * i), SeqCst).unwrap()) << (16 * i);
        (0..4).map(part).sum::<u64>().to_le_bytes()
    },
    |memory, addr| std::array::from_fn(|i| memory.load(at(addr.0 + i as u64), SeqCst).unwrap()),
    |memory, addr| {
        let (mut some, mut all) = (Vec::new(), Vec::new());
        assert_eq!(memory.write_volatile_to(addr, &mut some, 8).unwrap(), 8);
        memory.write_all_volatile_to(addr, &mut all, 8).unwrap();
        assert_eq!(some, all);
        all.try_into().unwrap()
    },
];

// Every call, at places in each block, through memory with an IOMMU and without.
#[test]
fn each_sees_what_the_other_wrote() {
    let file = file_of(4);
    let other = Guest::of_file(&file, 4 * PAGE);
    let machine = Machine::new().unwrap();
    let blocks = [
        shared(&machine, 2, Some((&file, 1))),
        shared(&machine, 1, Some((&file, 0))),
        shared(&machine, 1, None),
    ];
    drop(file);
    let own = Guest::of_block(&blocks[2]);
    for number in memories(&machine, &blocks) {
        let memory = machine.memory(number).unwrap();
        // An address, and where a guest has it: the second block is the first page of the file.
        let places = [
            (BASE, &other, PAGE),
            (BASE + 0x1ff8, &other, 3 * PAGE - 8),
            (BASE + 0x2000, &other, 0),
            (BASE + 0x3008, &own, 8),
        ];
        for (addr, guest, place) in places {
            for (i, write) in WRITES.iter().enumerate() {
                let bytes = std::array::from_fn(|k| (16 * i + k + 1) as u8);
                write(&memory, &bytes, at(addr));
                assert_eq!(guest.read(place, 8), bytes, "write {i} at {addr:#x}");
            }
            for (i, read) in READS.iter().enumerate() {
                let bytes: [u8; 8] = std::array::from_fn(|k| (16 * i + k + 129) as u8);
                guest.write(place, &bytes);
                assert_eq!(read(&memory, at(addr)), bytes, "read {i} at {addr:#x}");
            }
        }
    }
    // A copy from one block to the next reads what the guest wrote, and the guest reads what it wrote.
    other.write(PAGE + 16, b"guest");
    let [first, second, third] = [0, 1, 2].map(|i: usize| blocks[i].id());
    machine.copy((first, 16, 5), (second, 32, 5)).unwrap();
    assert_eq!(other.read(32, 5), b"guest");
    machine.copy((second, 32, 5), (third, 0, 5)).unwrap();
    assert_eq!(own.read(0, 5), b"guest");
    // The page of the file that no block has is as it was.
    assert_eq!(other.read(3 * PAGE, PAGE), [0; PAGE]);
}

#[test]
fn a_file_keeps_its_bytes_when_a_block_is_made() {
    for pages in [1, 3, 1030] {
        let file = file_of(pages + 1);
        let bytes: Vec<u8> = (0..(pages + 1) * PAGE).map(|i| (i / 7 + i / PAGE) as u8 | 1).collect();
        let other = Guest::of_file(&file, bytes.len());
        other.write(0, &bytes);
        let machine = Machine::new().unwrap();
        let block = shared(&machine, pages, Some((&file, 1)));
        assert!(other.read(0, bytes.len()) == bytes);
        assert!(Guest::of_block(&block).read(0, pages * PAGE) == bytes[PAGE..]);
        drop(machine);
        assert!(other.read(0, bytes.len()) == bytes);
    }
    // Private memory is zero.
    for pages in [1, 3, 1030] {
        let machine = Machine::new().unwrap();
        let block = shared(&machine, pages, None);
        assert!(Guest::of_block(&block).read(0, pages * PAGE) == vec![0; pages * PAGE]);
    }
}

#[test]
fn pages_are_dirty_by_calls_alone() {
    let file = file_of(2);
    let other = Guest::of_file(&file, 2 * PAGE);
    let machine = Machine::new().unwrap();
    let block = shared(&machine, 2, Some((&file, 0)));
    let [plain, behind] = memories(&machine, &[block]);
    let memory = machine.memory(plain).unwrap();
    other.write(0, &[7; 2 * PAGE]);
    assert_eq!(memory.load::<u64>(at(BASE), SeqCst).unwrap(), 0x0707_0707_0707_0707);
    assert!(machine.dirty_block(block.id()).unwrap().is_empty());
    memory.write_slice(&[1; 2], at(BASE + 0x17ff)).unwrap();
    other.write(0, &[8; 16]);
    assert_eq!(machine.dirty_block(block.id()).unwrap(), [2, 3]);
    assert_eq!(machine.harvest_block(block.id()).unwrap(), [2, 3]);
    // Behind an IOMMU a write marks the space at its I/O address.
    let device = machine.memory(behind).unwrap();
    device.store(1_u8, at(BASE + 0x1000), SeqCst).unwrap();
    assert!(machine.dirty_block(block.id()).unwrap().is_empty());
    let pages = machine.harvest_space(SpaceId::new(0)).unwrap();
    assert_eq!(pages, [(BASE as usize + 0x1000) / PAGE]);
}

// ---- random calls

// A generator of numbers: xorshift, from a fixed seed.
struct Numbers(u64);

impl Numbers {
    fn below(&mut self, bound: usize) -> usize {
        self.0 ^= self.0 << 13;
        self.0 ^= self.0 >> 7;
        self.0 ^= self.0 << 17;
        (self.0.wrapping_mul(0x2545_f491_4f6c_dd1d) >> 11) as usize % bound
    }

    fn bytes(&mut self) -> Vec<u8> {
        let len = [8, 64, 300, 6000][self.below(100).saturating_sub(96)];
        let first = self.below(256);
        (0..self.below(len)).map(|i| (first + 3 * i) as u8).collect()
    }
}

// Three blocks in a row, which a guest has in its own places, and an array with what they should hold.
struct Beside<'a> {
    machine: &'a Machine,
    memory: GuestMemory<'a>,
    blocks: [SharedBlock; 3],
    // For each block the guest that has it, and where.
    guests: [(Guest, usize); 3],
    bytes: Vec<u8>,
    dirty: Vec<bool>,
}

impl Beside<'_> {
    // Which block has a place in the row, and where.
    fn block_of(&self, place: usize) -> (usize, usize) {
        let mut from = 0;
        for (i, block) in self.blocks.iter().enumerate() {
            if place < from + block.len() {
                return (i, place - from);
            }
            from += block.len();
        }
        panic!("no block at {place:#x}");
    }

    fn first_of(&self, block: usize) -> usize {
        self.blocks[..block].iter().map(SharedBlock::len).sum()
    }

    // The array after a call that writes.
    fn wrote(&mut self, place: usize, bytes: &[u8]) {
        self.bytes[place..place + bytes.len()].copy_from_slice(bytes);
        for i in place..place + bytes.len() {
            self.dirty[i / (PAGE / 2)] = true;
        }
    }

    fn guest_writes(&mut self, numbers: &mut Numbers) {
        let place = numbers.below(self.bytes.len());
        let (block, offset) = self.block_of(place);
        let mut bytes = numbers.bytes();
        bytes.truncate(self.blocks[block].len() - offset);
        let (guest, first) = &self.guests[block];
        guest.write(first + offset, &bytes);
        self.bytes[place..place + bytes.len()].copy_from_slice(&bytes);
    }

    // How many of so many bytes there are at a place: a call of none goes anywhere.
    fn fits(&self, place: usize, len: usize) -> Option<usize> {
        match self.bytes.len().checked_sub(place) {
            Some(left) if left != 0 => Some(len.min(left)),
            _ if len == 0 => Some(0),
            _ => None,
        }
    }

    fn write(&mut self, numbers: &mut Numbers) {
        let (place, bytes) = (numbers.below(self.bytes.len() + 16), numbers.bytes());
        let addr = at(BASE + place as u64);
        let done = if numbers.below(2) == 0 {
            self.memory.write(&bytes, addr)
        } else {
            self.memory
                .read_volatile_from(addr, &mut Cursor::new(&bytes), bytes.len())
        };
        match self.fits(place, bytes.len()) {
            Some(count) => {
                assert_eq!(done.unwrap(), count);
                if count > 0 {
                    self.wrote(place, &bytes[..count]);
                }
            }
            None => assert!(matches!(done, Err(GuestMemoryError::InvalidGuestAddress(_)))),
        }
    }

    fn read(&mut self, numbers: &mut Numbers) {
        let (place, mut bytes) = (numbers.below(self.bytes.len() + 16), numbers.bytes());
        let addr = at(BASE + place as u64);
        let done = if numbers.below(2) == 0 {
            self.memory.read(&mut bytes, addr)
        } else {
            let (len, mut taken) = (bytes.len(), Vec::new());
            let done = self.memory.write_volatile_to(addr, &mut taken, len);
            bytes[..taken.len()].copy_from_slice(&taken);
            done
        };
        match self.fits(place, bytes.len()) {
            Some(count) => {
                assert_eq!(done.unwrap(), count);
                assert!(count == 0 || bytes[..count] == self.bytes[place..place + count]);
            }
            None => assert!(matches!(done, Err(GuestMemoryError::InvalidGuestAddress(_)))),
        }
    }

    fn store_or_load(&mut self, numbers: &mut Numbers) {
        let place = numbers.below(self.bytes.len() / 8) * 8;
        let addr = at(BASE + place as u64);
        if numbers.below(2) == 0 {
            let value = numbers.below(usize::MAX) as u64;
            self.memory.store(value, addr, SeqCst).unwrap();
            self.wrote(place, &value.to_le_bytes());
        } else {
            let value = self.memory.load::<u64>(addr, SeqCst).unwrap();
            assert_eq!(value.to_le_bytes(), self.bytes[place..place + 8]);
        }
    }

    fn copy(&mut self, numbers: &mut Numbers) {
        let (from, to) = (numbers.below(self.bytes.len()), numbers.below(self.bytes.len()));
        let (block, offset) = self.block_of(from);
        let (to_block, to_offset) = self.block_of(to);
        let room = (self.blocks[block].len() - offset).min(self.blocks[to_block].len() - to_offset);
        let len = numbers.below(600).min(room);
        let [block, to_block] = [block, to_block].map(|i: usize| self.blocks[i].id());
        self.machine
            .copy((block, offset, len), (to_block, to_offset, len))
            .unwrap();
        let bytes = self.bytes[from..from + len].to_vec();
        self.wrote(to, &bytes);
    }

    fn compare(&mut self) {
        for (i, (guest, place)) in self.guests.iter().enumerate() {
            let (first, len) = (self.first_of(i), self.blocks[i].len());
            assert!(guest.read(*place, len) == self.bytes[first..first + len]);
        }
        let mut pages = Vec::new();
        for (i, block) in self.blocks.iter().enumerate() {
            let first = self.first_of(i) / (PAGE / 2);
            pages.extend(
                self.machine
                    .harvest_block(block.id())
                    .unwrap()
                    .iter()
                    .map(|page| first + page),
            );
        }
        let dirty = |page: &usize| self.dirty[*page];
        assert_eq!(pages, (0..self.dirty.len()).filter(dirty).collect::<Vec<_>>());
        self.dirty.fill(false);
    }
}

#[test]
fn a_million_calls_beside_an_array() {
    let file = file_of(6);
    let machine = Machine::new().unwrap();
    let blocks = [
        shared(&machine, 3, Some((&file, 2))),
        shared(&machine, 1, Some((&file, 0))),
        shared(&machine, 2, None),
    ];
    let [plain, _] = memories(&machine, &blocks);
    let guests = [
        (Guest::of_file(&file, 6 * PAGE), 2 * PAGE),
        (Guest::of_file(&file, 6 * PAGE), 0),
        (Guest::of_block(&blocks[2]), 0),
    ];
    let mut beside = Beside {
        machine: &machine,
        memory: machine.memory(plain).unwrap(),
        blocks,
        guests,
        bytes: vec![0; 6 * PAGE],
        dirty: vec![false; 12],
    };
    let numbers = &mut Numbers(78);
    for i in 0..1_000_000 {
        match numbers.below(5) {
            0 => beside.write(numbers),
            1 => beside.read(numbers),
            2 => beside.store_or_load(numbers),
            3 => beside.copy(numbers),
            _ => beside.guest_writes(numbers),
        }
        if i % 997 == 0 {
            beside.compare();
        }
    }
    beside.compare();
}

// ---- refusals

#[test]
fn each_refusal_changes_nothing() {
    let machine = Machine::new().unwrap();
    let file = file_of(3);
    let read_alone = File::open(format!("/proc/self/fd/{}", file.as_raw_fd())).unwrap();
    let folder = File::open("/").unwrap();
    let size = (PAGE, PAGE);
    let make = |(size, page): (usize, usize), file: Option<(&dyn AsFd, u64)>| {
        let made = machine.shared_block(size, page, file.map(|(file, offset)| (file.as_fd(), offset)));
        made.unwrap_err()
    };
    use MachineError::{BadCall, InvalidSize, Memory};
    use SharedBlockError::{FileShort, Machine as Refused, NoFile, NotMapped, NotPaged};
    assert!(matches!(make((0, PAGE), None), Refused(InvalidSize)));
    assert!(matches!(make((1 << 63, PAGE), None), Refused(InvalidSize)));
    assert!(matches!(make((PAGE + 1, PAGE), None), NotPaged));
    assert!(matches!(make((PAGE / 2, PAGE), Some((&file, 0))), NotPaged));
    assert!(matches!(make(size, Some((&file, 1))), NotPaged));
    assert!(matches!(make((4 * PAGE, PAGE), Some((&file, 0))), FileShort));
    assert!(matches!(make(size, Some((&file, 3 * PAGE as u64))), FileShort));
    assert!(matches!(make(size, Some((&file, u64::MAX - 0xfff))), FileShort));
    assert!(matches!(make(size, Some((&folder, 0))), NoFile));
    let refused = make(size, Some((&read_alone, 0)));
    assert!(
        matches!(&refused, NotMapped(error) if error.kind() == ErrorKind::PermissionDenied),
        "{refused}"
    );
    assert!(matches!(make((1 << 62, PAGE), None), NotMapped(error) if error.raw_os_error() == Some(12)));
    assert!(matches!(make((PAGE, 0), Some((&file, 0))), Refused(BadCall)));
    // The list of its dirty pages finds no memory.
    let sparse = memfd(1 << 46).unwrap();
    assert!(matches!(make((1 << 46, 1), Some((&sparse, 0))), Refused(Memory)));
    let block = shared(&machine, 1, Some((&file, 2)));
    assert_eq!(block.id().number(), 0);
    memories(&machine, &[block]);
}

// A guest stores one of two patterns in each word of the first pages, all the time. A call finds one of them in each
// word and each byte, and what the guest does not write is as calls left it.
#[test]
fn a_guest_may_write_while_calls_run() {
    const OLD: u64 = 0x0101_0101_0101_0101;
    const NEW: u64 = 0xfefe_fefe_fefe_fefe;
    let file = file_of(4);
    let machine = Machine::new().unwrap();
    let block = shared(&machine, 4, Some((&file, 0)));
    let numbers = memories(&machine, &[block]);
    let guest = BusyGuest(Guest::of_file(&file, 4 * PAGE));
    (0..2 * PAGE).step_by(8).for_each(|word| guest.store(word, OLD));
    let is_over = AtomicBool::new(false);
    thread::scope(|scope| {
        scope.spawn(|| {
            for value in [NEW, OLD].into_iter().cycle() {
                (0..2 * PAGE).step_by(8).for_each(|word| guest.store(word, value));
                if is_over.load(SeqCst) {
                    return;
                }
            }
        });
        let mut seen = [false; 2];
        for turn in 0..20_000u64 {
            let memory = machine.memory(numbers[turn as usize % 2]).unwrap();
            let word = at(BASE + turn * 8 % (2 * PAGE as u64));
            let value: u64 = memory.load(word, SeqCst).unwrap();
            assert!(value == OLD || value == NEW, "{value:#x}");
            seen[usize::from(value == NEW)] = true;
            let mut bytes = [0; 100];
            memory.read_slice(&mut bytes, at(BASE + turn % PAGE as u64)).unwrap();
            assert!(bytes.iter().all(|&byte| byte == 1 || byte == 0xfe));
            let mut sink = Vec::new();
            memory
                .write_all_volatile_to(at(BASE + turn % 64), &mut sink, PAGE)
                .unwrap();
            assert!(sink.iter().all(|&byte| byte == 1 || byte == 0xfe));
            let place = turn as usize % PAGE;
            machine
                .copy((block.id(), place, 64), (block.id(), 3 * PAGE, 64))
                .unwrap();
            memory.write_obj(turn, at(BASE + 2 * PAGE as u64 + 3)).unwrap();
            assert_eq!(memory.read_obj::<u64>(at(BASE + 2 * PAGE as u64 + 3)).unwrap(), turn);
        }
        is_over.store(true, SeqCst);
        assert_eq!(seen, [true; 2]);
    });
    let copied = guest.0.read(3 * PAGE, 64);
    assert!(copied.iter().all(|&byte| byte == 1 || byte == 0xfe));
    assert_eq!(guest.0.read(3 * PAGE + 64, PAGE - 64), [0; PAGE - 64]);
}

// ---- the allocator, and threads

#[test]
fn other_blocks_of_any_size_are_as_before() {
    for size in [1, PAGE, (2 << 20) - 1, 2 << 20, (4 << 20) + 5] {
        let machine = Machine::new().unwrap();
        let block = machine.block(size, PAGE).unwrap();
        let file = file_of(1);
        let other = shared(&machine, 1, Some((&file, 0)));
        let [region, next] = [(block, BASE), (other.id(), BASE + size as u64)]
            .map(|(block, addr)| machine.region(block, at(addr)).unwrap());
        let plain = machine.plain(machine.layout(&[region, next]).unwrap()).unwrap();
        let memory = machine.memory(plain).unwrap();
        memory.write_slice(&[3; 3], at(BASE + size as u64 - 1)).unwrap();
        assert_eq!(Guest::of_block(&other).read(0, 3), [3, 3, 0]);
        assert_eq!(memory.load::<u8>(at(BASE + size as u64 - 1), SeqCst).unwrap(), 3);
    }
}

// Two threads make machines, and end them, at the same time.
#[test]
fn threads_have_a_machine_each() {
    let run = |mark: u8| {
        for round in 0..200 {
            let pages = [1, 2, 600][round % 3];
            let file = file_of(pages);
            let other = Guest::of_file(&file, pages * PAGE);
            let machine = Machine::new().unwrap();
            let block = shared(&machine, pages, Some((&file, 0)));
            let private = machine.block([PAGE, 3 << 20][round % 2], PAGE).unwrap();
            let [plain, _] = memories(&machine, &[block]);
            let memory = machine.memory(plain).unwrap();
            let bytes = [mark ^ round as u8; 64];
            memory
                .write_slice(&bytes, at(BASE + (pages * PAGE) as u64 - 64))
                .unwrap();
            assert_eq!(other.read(pages * PAGE - 64, 64), bytes);
            other.write(0, &[mark; 16]);
            machine.copy((block.id(), 0, 16), (private, 8, 16)).unwrap();
            machine.copy((private, 8, 16), (block.id(), 16, 16)).unwrap();
            assert_eq!(other.read(16, 16), [mark; 16]);
        }
    };
    thread::scope(|scope| {
        scope.spawn(|| run(0x5a));
        scope.spawn(|| run(0xa5));
    });
}

// A machine that moves to another thread has its blocks there.
#[test]
fn a_machine_takes_its_blocks_to_another_thread() {
    let file = file_of(1);
    let machine = Machine::new().unwrap();
    let block = shared(&machine, 1, Some((&file, 0)));
    let [plain, _] = memories(&machine, &[block]);
    let machine = thread::spawn(move || {
        machine.memory(plain).unwrap().write_slice(b"there", at(BASE)).unwrap();
        machine
    });
    let machine = machine.join().unwrap();
    assert_eq!(Guest::of_block(&block).read(0, 5), b"there");
    drop(machine);
    assert_eq!(
        fs::read(format!("/proc/self/fd/{}", file.as_raw_fd())).unwrap()[..5],
        *b"there"
    );
}

// The example, which `cargo test` builds beside this test: what both processes read, and the pages that were written.
#[test]
fn the_guest_of_the_example_is_answered() {
    let folder = env::current_exe().unwrap().ancestors().nth(2).unwrap().join("examples");
    let Ok(run) = Command::new(folder.join("guest")).output() else {
        println!("left out, as the example is not built");
        return;
    };
    assert_eq!(
        String::from_utf8(run.stdout).unwrap(),
        "the monitor reads \"hello\"\nthe guest reads \"olleh\"\ndirty pages: [2, 3]\n"
    );
    assert!(run.status.success());
}

// A guest that holds the descriptor cannot take the bytes away. It may have more of them.
#[test]
fn a_file_of_the_crate_does_not_shrink() {
    let file = File::from(memfd(3 * PAGE as u64).unwrap());
    assert_eq!(file.metadata().unwrap().len(), 3 * PAGE as u64);
    assert!(file.set_len(2 * PAGE as u64).is_err());
    file.set_len(4 * PAGE as u64).unwrap();
    assert_eq!(file.metadata().unwrap().len(), 4 * PAGE as u64);
}

// The last three bytes of a block.
fn last(machine: &Machine, block: &SharedBlock) -> [u8; 3] {
    let region = machine.region(block.id(), at(0)).unwrap();
    let memory = machine.plain(machine.layout(&[region]).unwrap()).unwrap();
    let memory = machine.memory(memory).unwrap();
    memory.read_obj(at(block.len() as u64 - 3)).unwrap()
}

// Of three blocks each one goes, and its bytes to another machine. The other two are as they were.
#[test]
fn a_block_is_given_back_with_its_own_bytes() {
    for gone in 0..3 {
        let machine = Machine::new().unwrap();
        let files = [1, 2, 3].map(file_of);
        let blocks: Vec<_> = files
            .iter()
            .zip(1..)
            .map(|(file, pages)| shared(&machine, pages, Some((file, 0))))
            .collect();
        let memory = machine.give_back(blocks[gone].id()).unwrap().unwrap();
        assert_eq!(memory.len(), (gone + 1) * PAGE);
        for (file, pages) in files.iter().zip(1..) {
            let end = [7, 8, pages as u8];
            File::from(file.try_clone().unwrap())
                .write_all_at(&end, (pages * PAGE) as u64 - 3)
                .unwrap();
        }
        let other = Machine::new().unwrap();
        let moved = other.shared_block_of(memory, PAGE).unwrap();
        assert_eq!(last(&other, &moved), [7, 8, gone as u8 + 1]);
        for (place, block) in blocks.iter().enumerate().filter(|(place, _)| *place != gone) {
            assert_eq!(last(&machine, block), [7, 8, place as u8 + 1]);
        }
    }
}

#[test]
fn a_block_may_begin_past_4_gib_of_a_file() {
    let (machine, far) = (Machine::new().unwrap(), (1 << 32) / PAGE);
    let file = file_of(far + 2);
    let end = (far as u64 + 2) * PAGE as u64;
    File::from(file.try_clone().unwrap())
        .write_all_at(&[4, 5, 6], end - 3)
        .unwrap();
    let block = shared(&machine, 1, Some((&file, far + 1)));
    assert_eq!(last(&machine, &block), [4, 5, 6]);
}
