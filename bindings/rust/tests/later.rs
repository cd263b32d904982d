//! Blocks, regions, spaces, tables and translators that are made while a machine runs, as when memory is plugged in.

mod guest;

use guest::Guest;
use std::os::fd::{AsFd, OwnedFd};
use vm_memory_proved::{
    memfd, BlockId, GuestAddress, LayoutId, Machine, MachineError, MemoryId, Permissions, RegionId, TableId,
    TranslatorId,
};

const PAGE: usize = 0x1000;
const GAP: u64 = 0x800;

// A sequence of numbers that is the same in each run (splitmix64).
struct Numbers(u64);

impl Numbers {
    fn any(&mut self) -> u64 {
        self.0 = self.0.wrapping_add(0x9e37_79b9_7f4a_7c15);
        let mut bits = self.0;
        bits = (bits ^ (bits >> 30)).wrapping_mul(0xbf58_476d_1ce4_e5b9);
        bits = (bits ^ (bits >> 27)).wrapping_mul(0x94d0_49bb_1331_11eb);
        bits ^ (bits >> 31)
    }

    fn below(&mut self, limit: usize) -> usize {
        (self.any() % limit as u64) as usize
    }
}

// A block that was plugged in: its bytes, the pages that are dirty, where it lies, and its file if a guest has it too.
struct Plugged {
    bytes: Vec<u8>,
    dirty: Vec<bool>,
    start: u64,
    file: Option<(OwnedFd, Guest)>,
}

// What a machine has, beside it: blocks in the order of their addresses, and how many of them each memory has.
#[derive(Default)]
struct Model {
    blocks: Vec<Plugged>,
    // Of each memory its number of blocks, and its table if it lies behind an IOMMU.
    memories: Vec<(usize, Option<TableId>)>,
    layout: Option<LayoutId>,
    layouts: usize,
    tables: usize,
}

impl Model {
    fn end(&self) -> u64 {
        self.blocks
            .last()
            .map_or(0x1_0000, |block| block.start + block.bytes.len() as u64)
    }

    // Plugs a block in after the others, or after a gap, and makes a memory of all, with or without an IOMMU.
    fn plug(&mut self, machine: &Machine, numbers: &mut Numbers) {
        let size = (1 + numbers.below(3)) * PAGE;
        let start = self.end() + GAP * numbers.below(2) as u64;
        let number = self.blocks.len();
        let file = (numbers.below(2) == 0).then(|| {
            let file = memfd(size as u64).unwrap();
            let guest = Guest::of_file(&file, size);
            (file, guest)
        });
        match &file {
            Some((file, _)) => {
                let block = machine.shared_block(size, PAGE, Some((file.as_fd(), 0))).unwrap();
                assert_eq!(block.id().number(), number);
            }
            None => assert_eq!(machine.block(size, PAGE).unwrap().number(), number),
        }
        let region = machine.region(BlockId::new(number), GuestAddress(start)).unwrap();
        assert_eq!(region.number(), number);
        self.blocks.push(Plugged {
            bytes: vec![0; size],
            dirty: vec![false; size / PAGE],
            start,
            file,
        });
        let layout = match self.layout {
            None => machine.layout(&[region]),
            Some(layout) => machine.insert(layout, region),
        };
        assert_eq!(layout.as_ref().unwrap().number(), self.layouts);
        self.layouts += 1;
        self.layout = layout.ok();
        let layout = self.layout.unwrap();
        let memory = if numbers.below(2) == 0 {
            self.memories.push((number + 1, None));
            machine.plain(layout).unwrap()
        } else {
            let (space, table) = (machine.space(1 << 20, PAGE).unwrap(), machine.table(None).unwrap());
            let translator = machine.translator(table).unwrap();
            let numbers = [space.number(), table.number(), translator.number()];
            assert_eq!(numbers, [self.tables; 3]);
            self.tables += 1;
            let all = Permissions::ReadWrite;
            machine
                .set_mapping(table, GuestAddress(0), GuestAddress(0), 1 << 20, all)
                .unwrap();
            self.memories.push((number + 1, Some(table)));
            machine.new_memory(layout, translator, space, true).unwrap()
        };
        assert_eq!(memory.number(), self.memories.len() - 1);
    }

    // Where a byte of a memory lies: the block and the offset.
    fn cell(&self, memory: usize, address: u64) -> Option<(usize, usize)> {
        let blocks = &self.blocks[..self.memories[memory].0];
        blocks.iter().enumerate().find_map(|(number, block)| {
            let offset = address.checked_sub(block.start)? as usize;
            (offset < block.bytes.len()).then_some((number, offset))
        })
    }

    // The bytes that an access reaches: up to the first address without one.
    fn path(&self, memory: usize, address: u64, count: usize) -> Vec<(usize, usize)> {
        (0..count as u64)
            .map_while(|i| self.cell(memory, address + i))
            .collect()
    }

    fn access(&mut self, machine: &Machine, numbers: &mut Numbers) {
        let memory = numbers.below(self.memories.len());
        let address = 0x1_0000 + numbers.below((self.end() - 0x1_0000 + GAP) as usize) as u64;
        let count = 1 + numbers.below(0x1800);
        let path = self.path(memory, address, count);
        let guest_memory = machine.memory(MemoryId::new(memory)).unwrap();
        let mut bytes: Vec<u8> = (0..count).map(|_| numbers.any() as u8).collect();
        if numbers.below(2) == 0 {
            let wrote = guest_memory.write(&bytes, GuestAddress(address));
            assert_eq!(wrote.unwrap_or(0), path.len());
            for (&(block, offset), &byte) in path.iter().zip(&bytes) {
                self.blocks[block].bytes[offset] = byte;
                if self.memories[memory].1.is_none() {
                    self.blocks[block].dirty[offset / PAGE] = true;
                }
            }
        } else {
            let read = guest_memory.read(&mut bytes, GuestAddress(address));
            assert_eq!(read.unwrap_or(0), path.len());
            for (&(block, offset), &byte) in path.iter().zip(&bytes) {
                assert_eq!(self.blocks[block].bytes[offset], byte);
            }
        }
    }

    // Marks what the guest may have written, in a range of a block or by an address.
    fn mark(&mut self, machine: &Machine, numbers: &mut Numbers) {
        let number = numbers.below(self.blocks.len() + 1);
        let (offset, len) = (numbers.below(4 * PAGE), numbers.below(2 * PAGE));
        let marked = machine.mark_block(BlockId::new(number), offset, len);
        match self.blocks.get_mut(number) {
            None => assert!(matches!(marked, Err(MachineError::NoSuch))),
            Some(block) if offset + len > block.bytes.len() => assert!(matches!(marked, Err(MachineError::BadRange))),
            Some(block) => {
                marked.unwrap();
                (offset..offset + len).for_each(|at| block.dirty[at / PAGE] = true);
            }
        }
        let memory = numbers.below(self.memories.len());
        let address = 0x1_0000 + numbers.below((self.end() - 0x1_0000 + GAP) as usize) as u64;
        let path = self.path(memory, address, 1 + len);
        let guest_memory = machine.memory(MemoryId::new(memory)).unwrap();
        let reached = guest_memory.mark_reached(GuestAddress(address), 1 + len);
        assert_eq!(reached.unwrap_or(0), path.len());
        for (block, offset) in path {
            self.blocks[block].dirty[offset / PAGE] = true;
        }
    }

    // The guest writes into a block that it has, too, and sees what the machine wrote.
    fn guest_writes(&mut self, numbers: &mut Numbers) {
        let number = numbers.below(self.blocks.len());
        let block = &mut self.blocks[number];
        let Some((_, guest)) = &block.file else { return };
        assert_eq!(guest.read(0, block.bytes.len()), block.bytes);
        let offset = numbers.below(block.bytes.len() - 16);
        let bytes: [u8; 16] = std::array::from_fn(|_| numbers.any() as u8);
        guest.write(offset, &bytes);
        block.bytes[offset..offset + 16].copy_from_slice(&bytes);
    }

    fn harvest(&mut self, machine: &Machine, numbers: &mut Numbers) {
        let number = numbers.below(self.blocks.len());
        let dirty = &mut self.blocks[number].dirty;
        let pages: Vec<usize> = (0..dirty.len()).filter(|&page| dirty[page]).collect();
        assert_eq!(machine.harvest_block(BlockId::new(number)).unwrap(), pages);
        dirty.fill(false);
    }
}

// Each step plugs memory in, accesses some memory, old or new, has the guest write, marks pages, or takes dirty ones.
#[test]
fn memory_is_plugged_in_while_a_machine_runs() {
    let mut numbers = Numbers(0x600d_1dea);
    for _ in 0..20 {
        let machine = Machine::new().unwrap();
        let mut model = Model::default();
        model.plug(&machine, &mut numbers);
        for _ in 0..1_500 {
            match numbers.below(60) {
                0 if model.blocks.len() < 24 => model.plug(&machine, &mut numbers),
                1..=5 => model.harvest(&machine, &mut numbers),
                6..=9 => model.mark(&machine, &mut numbers),
                10..=20 => model.guest_writes(&mut numbers),
                _ => model.access(&machine, &mut numbers),
            }
        }
        assert!(model.blocks.len() > 4);
    }
}

// What is refused changes nothing: the next of each kind gets the next number.
#[test]
fn refusals_after_a_command_make_nothing() {
    let machine = Machine::new().unwrap();
    let block = machine.block(2 * PAGE, PAGE).unwrap();
    let region = machine.region(block, GuestAddress(0)).unwrap();
    let memory = machine.plain(machine.layout(&[region]).unwrap()).unwrap();
    machine
        .memory(memory)
        .unwrap()
        .write_slice(&[7; 3], GuestAddress(5))
        .unwrap();
    assert!(matches!(machine.block(0, PAGE), Err(MachineError::InvalidSize)));
    assert!(matches!(machine.block(PAGE, 0), Err(MachineError::BadCall)));
    let next = BlockId::new(1);
    assert!(matches!(
        machine.region(next, GuestAddress(0)),
        Err(MachineError::NoSuch)
    ));
    assert!(matches!(
        machine.region(block, GuestAddress(u64::MAX - PAGE as u64)),
        Err(MachineError::InvalidRegion)
    ));
    assert!(matches!(machine.translator(TableId::new(0)), Err(MachineError::NoSuch)));
    assert!(matches!(machine.table(Some(0)), Err(MachineError::BadCall)));
    assert!(matches!(machine.space(PAGE, 0), Err(MachineError::BadCall)));
    assert_eq!(machine.block(PAGE, PAGE).unwrap(), next);
    let region = machine.region(next, GuestAddress(2 * PAGE as u64));
    assert_eq!(region.unwrap(), RegionId::new(1));
    assert_eq!(machine.table(Some(3)).unwrap(), TableId::new(0));
    assert_eq!(machine.translator(TableId::new(0)).unwrap(), TranslatorId::new(0));
    assert_eq!(machine.space(PAGE, PAGE).unwrap().number(), 0);
    let mut bytes = [0; 3];
    machine
        .memory(memory)
        .unwrap()
        .read_slice(&mut bytes, GuestAddress(5))
        .unwrap();
    assert_eq!(bytes, [7; 3]);
    assert_eq!(machine.harvest_block(block).unwrap(), [0]);
}
