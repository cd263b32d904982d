//! Calls far past small sizes, with memory for all: each succeeds, whatever came before.

mod ring;

use ring::{at, memory_of, Driver};
use vm_memory_proved::script::{SinkStep, SourceStep};
use vm_memory_proved::{Machine, MappedRange, Permissions};

// More than a word, 64, 512 and 600 have.
const MANY: usize = 700;

#[test]
fn many_of_each_kind() {
    let machine = Machine::new().unwrap();
    let (mut regions, mut tables, mut memories) = (Vec::new(), Vec::new(), Vec::new());
    for number in 0..MANY {
        let block = machine.block(16, 16).unwrap();
        regions.push((machine.region(block, at(16 * number as u64)).unwrap(), block));
        tables.push(machine.table((number % 2 == 0).then_some(3)).unwrap());
    }
    let all: Vec<_> = regions.iter().map(|(region, _)| *region).collect();
    let mut layout = machine.layout(&all).unwrap();
    // Layouts that grow by one region: the first has the last, and the last all.
    let mut grown = machine.layout(&all[MANY - 1..]).unwrap();
    for region in all[..MANY - 1].iter().rev() {
        grown = machine.insert(grown, *region).unwrap();
    }
    for (number, table) in tables.iter().enumerate() {
        let space = machine.space(0x1000, 16).unwrap();
        let translator = machine.translator(*table).unwrap();
        memories.push((machine.new_memory(layout, translator, space, true).unwrap(), space));
        let to = at(16 * number as u64);
        machine
            .set_mapping(*table, at(0x100), to, 16, Permissions::ReadWrite)
            .unwrap();
    }
    // Each memory has a region of its own behind its table, and marks its own space.
    for (number, (id, space)) in memories.iter().enumerate() {
        let memory = machine.memory(*id).unwrap();
        memory.write_slice(&(number as u64).to_le_bytes(), at(0x100)).unwrap();
        assert_eq!(machine.harvest_space(*space).unwrap(), [0x10]);
    }
    for whole in [layout, grown] {
        let memory = machine.memory(machine.plain(whole).unwrap()).unwrap();
        for (number, (_, block)) in regions.iter().enumerate() {
            let place = at(16 * number as u64);
            assert_eq!(memory.read_obj::<u64>(place).unwrap(), number as u64);
            memory.write_obj(number as u64, place).unwrap();
            assert_eq!(machine.harvest_block(*block).unwrap(), [0]);
        }
    }
    for number in 0..MANY - 1 {
        layout = machine.remove(layout, at(16 * number as u64), 16).unwrap();
    }
    let memory = machine.memory(machine.plain(layout).unwrap()).unwrap();
    assert!(memory.check_range(at(16 * (MANY as u64 - 1)), 16, Permissions::ReadWrite));
    assert!(!memory.check_range(at(16 * (MANY as u64 - 2)), 16, Permissions::ReadWrite));
}

#[test]
fn many_queues() {
    let machine = Machine::new().unwrap();
    let memory = machine.memory(memory_of(&machine, 0, 0x10_0000)).unwrap();
    let mut queues = Vec::new();
    for number in 0..MANY as u64 {
        let driver = Driver::new(memory, 0x400 * number, 4);
        driver.put_chain(0, &[(0xf_0000 + number, 1, false), (0xf_8000 + number, 1, true)]);
        queues.push((driver.queue(4), driver));
    }
    for (number, (queue, driver)) in queues.iter_mut().enumerate() {
        driver.publish(0);
        let chain = queue.pop_descriptor_chain(&memory).unwrap().unwrap();
        assert_eq!(chain.write_at(&memory, 0, &[number as u8]).unwrap(), 1);
        queue.add_used(&memory, 0, 1).unwrap();
    }
    for (number, (queue, driver)) in queues.iter_mut().enumerate() {
        assert_eq!((driver.take(), queue.next_used()), (Some((0, 1)), 1));
        let byte: u8 = memory.read_obj(at(0xf_8000 + number as u64)).unwrap();
        assert_eq!(byte, number as u8);
    }
}

// Each descriptor of a queue is a chain, and all are in flight at once. They are returned from the last to the first.
#[test]
fn many_chains_in_flight() {
    let machine = Machine::new().unwrap();
    for size in [64_u16, 512, 1024, 4096, 32_768] {
        let memory = machine.memory(memory_of(&machine, 0, 0x18_0000)).unwrap();
        let mut driver = Driver::new(memory, 0, size);
        let queue = driver.queue(size.into());
        for head in 0..size {
            driver.put_chain(head, &[(0x10_0000 + u64::from(head), 1, true)]);
            driver.publish(head);
        }
        let mut chains = Vec::new();
        while let Some(chain) = queue.pop_descriptor_chain(&memory).unwrap() {
            chains.push(chain);
        }
        assert_eq!(chains.len(), usize::from(size));
        for (head, chain) in chains.iter().enumerate().rev() {
            assert_eq!(usize::from(chain.head_index()), head);
            chain.complete_at(&memory, 0, &[head as u8], 1).unwrap();
        }
        for head in (0..u32::from(size)).rev() {
            assert_eq!(driver.take(), Some((head, 1)));
            let byte: u8 = memory.read_obj(at(0x10_0000 + u64::from(head))).unwrap();
            assert_eq!(byte, head as u8);
        }
        assert_eq!(driver.take(), None);
    }
}

// Dirty pages past 2^12 and 2^16, and bitmaps of one more than a word and than that.
#[test]
fn many_dirty_pages() {
    for pages in [65_usize, 4097, 0x1_0001, 0x10_0001] {
        let machine = Machine::new().unwrap();
        let block = machine.block(pages, 1).unwrap();
        let region = machine.region(block, at(0)).unwrap();
        let layout = machine.layout(&[region]).unwrap();
        let (space, table) = (machine.space(pages, 1).unwrap(), machine.table(None).unwrap());
        let translator = machine.translator(table).unwrap();
        machine
            .set_mapping(table, at(0), at(0), pages, Permissions::ReadWrite)
            .unwrap();
        let plain = machine.memory(machine.plain(layout).unwrap()).unwrap();
        let behind = machine.new_memory(layout, translator, space, true).unwrap();
        let behind = machine.memory(behind).unwrap();
        let all: Vec<usize> = (0..pages).collect();
        // A write by I/O addresses marks their space, and another one the block.
        plain.write_slice(&vec![7; pages], at(0)).unwrap();
        assert!(machine.dirty_block(block).unwrap() == all && machine.dirty_space(space).unwrap().is_empty());
        behind.write_slice(&vec![7; pages], at(0)).unwrap();
        assert!(machine.dirty_space(space).unwrap() == all);
        assert!(machine.harvest_block(block).unwrap() == all && machine.harvest_space(space).unwrap() == all);
        assert!(machine.dirty_block(block).unwrap().is_empty() && machine.harvest_space(space).unwrap().is_empty());
        machine.mark_block(block, 1, pages - 1).unwrap();
        assert!(machine.harvest_block(block).unwrap() == all[1..]);
        assert_eq!(behind.mark_reached(at(0), pages).unwrap(), pages);
        assert!(machine.harvest_block(block).unwrap() == all && machine.dirty_space(space).unwrap().is_empty());
    }
}

// A table of many ranges: where they lead, what is missed between them, and what they forbid.
#[test]
fn many_ranges() {
    for count in [17_u64, 65, 513, 5000] {
        let machine = Machine::new().unwrap();
        let table = machine.table(None).unwrap();
        for number in 0..count {
            let (iova, to) = (at(32 * number), at(0x1_0000_0000 + 64 * number));
            machine.set_mapping(table, iova, to, 16, Permissions::Read).unwrap();
        }
        let length = 32 * count as usize;
        let fails = machine
            .lookup(table, at(0), length, Permissions::Write)
            .unwrap()
            .unwrap_err();
        let (misses, forbidden) = (&fails.misses, &fails.access_fails);
        assert_eq!((misses.len() as u64, forbidden.len() as u64), (count, count));
        for number in 0..count {
            let (miss, fail) = (&misses[number as usize], &forbidden[number as usize]);
            assert_eq!((miss.base, miss.length), (at(32 * number + 16), 16));
            assert_eq!((fail.base, fail.length), (at(32 * number), 16));
        }
        for number in 0..count {
            let (iova, to) = (at(32 * number + 16), at(64 * number));
            machine.set_mapping(table, iova, to, 16, Permissions::Read).unwrap();
        }
        let pieces = machine
            .lookup(table, at(0), length, Permissions::Read)
            .unwrap()
            .unwrap();
        let wanted: Vec<_> = (0..count)
            .flat_map(|number| [at(0x1_0000_0000 + 64 * number), at(64 * number)])
            .map(|base| MappedRange { base, length: 16 })
            .collect();
        assert!(pieces == wanted);
    }
}

// Sources and sinks of many steps, and of steps of many bytes.
#[test]
fn many_steps() {
    for (steps, len) in [
        (17_usize, 3_usize),
        (65, 1),
        (600, 7),
        (5000, 2),
        (3, 0x1_0001),
        (2, 0x4_0000),
    ] {
        let machine = Machine::new().unwrap();
        let count = steps * len;
        let memory = memory_of(&machine, 0x1000, count);
        let bytes: Vec<u8> = (0..count).map(|place| (place % 251) as u8 + 1).collect();
        let gives: Vec<_> = bytes.chunks(len).map(|part| SourceStep::Give(part.to_vec())).collect();
        machine.receive(memory, at(0x1000), count, &gives, true).unwrap();
        let mut read = vec![0; count];
        machine
            .memory(memory)
            .unwrap()
            .read_slice(&mut read, at(0x1000))
            .unwrap();
        assert!(read == bytes, "{steps} of {len}");
        let sent = machine
            .send(memory, at(0x1000), count, &vec![SinkStep::Take(len); steps], true)
            .unwrap();
        assert!(sent.ending.is_ok() && sent.taken == bytes, "{steps} of {len}");
    }
}

// A call is made again after 64 interruptions in a row, and gives up after 65.
#[test]
fn interruptions_one_after_another() {
    for count in [1_usize, 63, 64, 65, 66, 100] {
        let machine = Machine::new().unwrap();
        let memory = memory_of(&machine, 0, 16);
        let mut steps = vec![SourceStep::Interrupted(Vec::new()); count];
        steps.push(SourceStep::Give(vec![5; 8]));
        let received = machine.receive(memory, at(0), 8, &steps, true);
        assert_eq!(received.is_ok(), count < 65, "{count}: {received:?}");
        let mut steps = vec![SinkStep::Interrupted; count];
        steps.push(SinkStep::Take(8));
        let sent = machine.send(memory, at(0), 8, &steps, true).unwrap();
        assert_eq!(sent.ending.is_ok(), count < 65, "{count}: {sent:?}");
        let bytes = if count < 65 { vec![5; 8] } else { Vec::new() };
        assert_eq!(sent.taken, bytes, "{count}");
    }
}
