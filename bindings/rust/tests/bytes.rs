//! The calls of guest memory: first accesses, accesses that cross regions and end with memory, values, transfers, and
//! memory behind an IOMMU.

use std::io::{self, Cursor, ErrorKind, Read, Write};
use std::sync::atomic::Ordering::{Relaxed, SeqCst};
use vm_memory_proved::{
    BlockId, GuestAddress, GuestMemoryError, GuestRegionCollectionError, IommuError, IotlbFails, IovaRange, Machine,
    MachineError, MappedRange, MemoryId, Miss, Permissions, Reason, RegionId,
};

fn at(addr: u64) -> GuestAddress {
    GuestAddress(addr)
}

// A machine with regions of these sizes and addresses, pages of 16 bytes, and a memory of all.
fn machine_of(regions: &[(usize, u64)]) -> (Machine, MemoryId) {
    let machine = Machine::new().unwrap();
    let regions: Vec<RegionId> = regions
        .iter()
        .map(|(size, addr)| {
            let block = machine.block(*size, 16).unwrap();
            machine.region(block, at(*addr)).unwrap()
        })
        .collect();
    let layout = machine.layout(&regions).unwrap();
    let memory = machine.plain(layout).unwrap();
    (machine, memory)
}

// The first accesses that the guide of this repository shows, with the values that it prints.
#[test]
fn first_accesses() {
    let (machine, memory) = machine_of(&[(0x2000, 0x1000)]);
    let memory = machine.memory(memory).unwrap();
    assert_eq!(memory.write(&[1, 2, 3], at(0x1ffe)).unwrap(), 3);
    let mut buf = [0xff; 2];
    assert_eq!(memory.read(&mut buf, at(0x1ffe)).unwrap(), 2);
    assert_eq!(buf, [1, 2]);
    let refused = memory.read(&mut buf, at(0x3000)).unwrap_err();
    assert!(matches!(refused, GuestMemoryError::InvalidGuestAddress(addr) if addr == at(0x3000)));
    assert_eq!(refused.to_string(), "Guest memory error: invalid guest address 12288");
    assert!(machine.memory(MemoryId::new(1)).is_none());
}

#[test]
fn accesses_end_with_memory() {
    let (machine, memory) = machine_of(&[(0x10, 0x1000), (0x10, 0x1010)]);
    let memory = machine.memory(memory).unwrap();
    // Two regions in a row are one range.
    assert_eq!(memory.write(&[7; 0x20], at(0x1000)).unwrap(), 0x20);
    assert_eq!(memory.write(&[9; 8], at(0x101c)).unwrap(), 4);
    let mut buf = [0; 8];
    assert_eq!(memory.read(&mut buf, at(0x101c)).unwrap(), 4);
    assert_eq!(buf, [9, 9, 9, 9, 0, 0, 0, 0]);
    let refused = memory.write_slice(&[3; 8], at(0x101a)).unwrap_err();
    assert!(matches!(
        refused,
        GuestMemoryError::PartialBuffer {
            expected: 8,
            completed: 6
        }
    ));
    assert_eq!(
        refused.to_string(),
        "Guest memory error: only used 6 bytes in 8 long buffer"
    );
    let mut buf = [0; 8];
    let refused = memory.read_slice(&mut buf, at(0x101a)).unwrap_err();
    assert!(matches!(
        refused,
        GuestMemoryError::PartialBuffer {
            expected: 8,
            completed: 6
        }
    ));
    assert_eq!(buf, [3, 3, 3, 3, 3, 3, 0, 0]);
    // No bytes are accessed anywhere.
    assert_eq!(memory.write(&[], at(u64::MAX)).unwrap(), 0);
    memory.read_slice(&mut [], at(5)).unwrap();
}

#[test]
fn objects_are_their_bytes() {
    let (machine, memory) = machine_of(&[(0x10, 0x1000), (0x10, 0x1010)]);
    let memory = machine.memory(memory).unwrap();
    memory.write_obj(0x0102_0304_0506_0708_u64, at(0x100c)).unwrap();
    assert_eq!(memory.read_obj::<u64>(at(0x100c)).unwrap(), 0x0102_0304_0506_0708);
    assert_eq!(memory.read_obj::<[u8; 3]>(at(0x100f)).unwrap(), [5, 4, 3]);
    memory.write_obj(-2_i16, at(0x1001)).unwrap();
    assert_eq!(memory.read_obj::<i16>(at(0x1001)).unwrap(), -2);
    let refused = [
        memory.read_obj::<u32>(at(0x101d)).map(drop),
        memory.write_obj(7_u32, at(0x101d)),
        memory.read_slice(&mut [0; 4], at(0x101d)),
        memory.write_slice(&[0; 4], at(0x101d)),
    ];
    for error in refused.map(Result::unwrap_err) {
        assert!(matches!(
            error,
            GuestMemoryError::PartialBuffer {
                expected: 4,
                completed: 3
            }
        ));
    }
}

#[test]
fn integers_are_loaded_and_stored_as_one() {
    let (machine, memory) = machine_of(&[(0x12, 0x1000), (0x10, 0x1012)]);
    let memory = machine.memory(memory).unwrap();
    memory.store(0x0304_u16, at(0x1002), SeqCst).unwrap();
    assert_eq!(memory.load::<u16>(at(0x1002), Relaxed).unwrap(), 0x0304);
    assert_eq!(memory.load::<u8>(at(0x1002), SeqCst).unwrap(), 4);
    memory.store(-1_i64, at(0x1008), SeqCst).unwrap();
    assert_eq!(memory.load::<u64>(at(0x1008), SeqCst).unwrap(), u64::MAX);
    // Across regions, off its multiple, and past the end.
    for addr in [0x1010, 0x1001] {
        let refused = memory.load::<u32>(at(addr), SeqCst).unwrap_err();
        assert!(
            matches!(refused, GuestMemoryError::InvalidBackendAddress),
            "{addr:#x}: {refused}"
        );
    }
    assert!(matches!(
        memory.store(0_u8, at(0x1022), SeqCst).unwrap_err(),
        GuestMemoryError::InvalidGuestAddress(addr) if addr == at(0x1022)
    ));
}

// A source that gives a fixed number of bytes at each try, or is interrupted, or fails.
struct Tries(Vec<Result<usize, ErrorKind>>);

impl Read for Tries {
    fn read(&mut self, buf: &mut [u8]) -> io::Result<usize> {
        if self.0.is_empty() {
            return Ok(0);
        }
        match self.0.remove(0) {
            Ok(count) => {
                let count = count.min(buf.len());
                buf[..count].fill(7);
                Ok(count)
            }
            Err(kind) => Err(io::Error::from(kind)),
        }
    }
}

impl Write for Tries {
    fn write(&mut self, buf: &[u8]) -> io::Result<usize> {
        if self.0.is_empty() {
            return Ok(buf.len());
        }
        match self.0.remove(0) {
            Ok(count) => Ok(count.min(buf.len())),
            Err(kind) => Err(io::Error::from(kind)),
        }
    }

    fn flush(&mut self) -> io::Result<()> {
        Ok(())
    }
}

#[test]
fn sources_are_asked_for_what_the_access_reaches() {
    let (machine, memory) = machine_of(&[(0x3_0000, 0x1000)]);
    let memory = machine.memory(memory).unwrap();
    let bytes: Vec<u8> = (0..0x4_0000_u32).map(|i| (i % 251) as u8).collect();
    // More than a piece, and more than is there: the source keeps what does not fit.
    let mut source = Cursor::new(&bytes);
    assert_eq!(
        memory.read_volatile_from(at(0x1000), &mut source, 0x4_0000).unwrap(),
        0x3_0000
    );
    assert_eq!(source.position(), 0x3_0000);
    let mut buf = vec![0; 0x3_0000];
    memory.read_slice(&mut buf, at(0x1000)).unwrap();
    assert_eq!(buf, bytes[..0x3_0000]);
    let mut source = Cursor::new(&bytes);
    let refused = memory
        .read_exact_volatile_from(at(0x3_0ffe), &mut source, 5)
        .unwrap_err();
    assert!(matches!(
        refused,
        GuestMemoryError::PartialBuffer {
            expected: 5,
            completed: 2
        }
    ));
    assert_eq!(source.position(), 2);
    // None is taken where the access reaches none.
    let mut source = Cursor::new(&bytes);
    let refused = memory.read_volatile_from(at(0x500), &mut source, 5).unwrap_err();
    assert!(matches!(refused, GuestMemoryError::InvalidGuestAddress(addr) if addr == at(0x500)));
    assert_eq!(source.position(), 0);
}

#[test]
fn sources_end_and_fail() {
    let (machine, memory) = machine_of(&[(0x100, 0x1000)]);
    let memory = machine.memory(memory).unwrap();
    memory.write_slice(&[0xaa; 0x100], at(0x1000)).unwrap();
    let interrupted = Err(ErrorKind::Interrupted);
    let mut source = Tries(vec![interrupted, interrupted, Ok(3), Ok(5)]);
    assert_eq!(memory.read_volatile_from(at(0x1000), &mut source, 8).unwrap(), 3);
    assert_eq!(source.0.len(), 1);
    // What a source does not give stays as it was.
    assert_eq!(
        memory.read_obj::<[u8; 8]>(at(0x1000)).unwrap(),
        [7, 7, 7, 0xaa, 0xaa, 0xaa, 0xaa, 0xaa]
    );
    let mut source = Tries(vec![Ok(3), Ok(5)]);
    memory.read_exact_volatile_from(at(0x1010), &mut source, 8).unwrap();
    let mut source = Tries(vec![Ok(3)]);
    let refused = memory.read_exact_volatile_from(at(0x1020), &mut source, 8).unwrap_err();
    assert!(matches!(
        refused,
        GuestMemoryError::PartialBuffer {
            expected: 8,
            completed: 3
        }
    ));
    // Those before a failure are there.
    let mut source = Tries(vec![Ok(2), Err(ErrorKind::TimedOut)]);
    let refused = memory.read_exact_volatile_from(at(0x1030), &mut source, 8).unwrap_err();
    assert!(matches!(refused, GuestMemoryError::IOError(error) if error.kind() == ErrorKind::TimedOut));
    assert_eq!(memory.read_obj::<[u8; 4]>(at(0x1030)).unwrap(), [7, 7, 0xaa, 0xaa]);
    let mut source = Tries(vec![interrupted; 65]);
    let refused = memory.read_volatile_from(at(0x1000), &mut source, 8).unwrap_err();
    assert!(matches!(refused, GuestMemoryError::IOError(error) if error.kind() == ErrorKind::Interrupted));
}

#[test]
fn sinks_take_what_the_access_reaches() {
    let (machine, memory) = machine_of(&[(0x100, 0x1000)]);
    let memory = machine.memory(memory).unwrap();
    memory.write_slice(&[1, 2, 3, 4], at(0x10fc)).unwrap();
    let mut sink = Vec::new();
    assert_eq!(memory.write_volatile_to(at(0x10fc), &mut sink, 9).unwrap(), 4);
    assert_eq!(sink, [1, 2, 3, 4]);
    let mut sink = Vec::new();
    let refused = memory.write_all_volatile_to(at(0x10fe), &mut sink, 9).unwrap_err();
    assert!(matches!(
        refused,
        GuestMemoryError::PartialBuffer {
            expected: 9,
            completed: 2
        }
    ));
    assert_eq!(sink, [3, 4]);
    memory
        .write_all_volatile_to(at(0x1000), &mut Tries(vec![Err(ErrorKind::Interrupted), Ok(1)]), 9)
        .unwrap();
    let refused = memory
        .write_volatile_to(at(0x1000), &mut Tries(vec![Ok(1), Ok(0)]), 9)
        .unwrap_err();
    assert!(matches!(refused, GuestMemoryError::IOError(error) if error.kind() == ErrorKind::WriteZero));
}

#[test]
fn an_iommu_maps_and_marks() {
    let machine = Machine::new().unwrap();
    let block = machine.block(0x40, 16).unwrap();
    let space = machine.space(0x10000, 0x1000).unwrap();
    let table = machine.table(None).unwrap();
    let region = machine.region(block, at(0x1000)).unwrap();
    let translator = machine.translator(table).unwrap();
    let layout = machine.layout(&[region]).unwrap();
    let number = machine.new_memory(layout, translator, space, true).unwrap();
    let memory = machine.memory(number).unwrap();
    let range = IovaRange {
        base: at(0x8000),
        length: 4,
    };
    let refused = memory.write_obj(5_u32, at(0x8000)).unwrap_err();
    assert!(matches!(
        refused,
        GuestMemoryError::IommuError(IommuError::CannotResolve { iova_range, reason: Reason::MissingMapping })
            if iova_range == range
    ));
    let missed = |base, length, access| {
        let iova_range = IovaRange { base: at(base), length };
        Some(Miss { iova_range, access })
    };
    assert_eq!(machine.take_miss(), missed(0x8000, 4, Permissions::Write));
    assert_eq!(machine.take_miss(), None);
    machine
        .set_mapping(table, at(0x8000), at(0x1020), 0x10, Permissions::Read)
        .unwrap();
    let refused = memory.store(5_u32, at(0x8000), SeqCst).unwrap_err();
    assert_eq!(
        refused.to_string(),
        "IOMMU failed to translate guest address: \
        Cannot translate I/O virtual address range 0x8000+4: access not allowed"
    );
    assert_eq!(machine.take_miss(), missed(0x8000, 4, Permissions::Write));
    // A read over the end of what is mapped misses what lies beyond. So does a write that is forbidden before that.
    memory.read_obj::<[u8; 8]>(at(0x800c)).unwrap_err();
    assert_eq!(machine.take_miss(), missed(0x8010, 4, Permissions::Read));
    memory.write_obj([0_u8; 8], at(0x800c)).unwrap_err();
    assert_eq!(machine.take_miss(), missed(0x8010, 4, Permissions::Write));
    // What lies before it is missed first, and a call that is not refused leaves what was told.
    memory.write_obj([0_u8; 24], at(0x7ffc)).unwrap_err();
    memory.read_obj::<u32>(at(0x8000)).unwrap();
    assert_eq!(machine.take_miss(), missed(0x7ffc, 4, Permissions::Write));
    machine
        .set_mapping(table, at(0x8000), at(0x1020), 0x10, Permissions::ReadWrite)
        .unwrap();
    memory.store(5_u32, at(0x8000), SeqCst).unwrap();
    // Its writes mark the space, and not the block.
    assert_eq!(machine.dirty_block(block).unwrap(), [0usize; 0]);
    assert_eq!(machine.harvest_space(space).unwrap(), [8]);
    assert_eq!(machine.dirty_space(space).unwrap(), [0usize; 0]);
    assert_eq!(
        machine
            .lookup(table, at(0x8004), 4, Permissions::Read)
            .unwrap()
            .unwrap(),
        [MappedRange {
            base: at(0x1024),
            length: 4
        }]
    );
    let fails = machine
        .lookup(table, at(0x800c), 8, Permissions::Read)
        .unwrap()
        .unwrap_err();
    let misses = vec![IovaRange {
        base: at(0x8010),
        length: 4,
    }];
    assert_eq!(
        fails,
        IotlbFails {
            misses,
            access_fails: Vec::new()
        }
    );
    // A source is asked for nothing where a part is not mapped.
    let mut source = Cursor::new([1_u8; 32]);
    assert!(memory.read_volatile_from(at(0x8008), &mut source, 16).is_err());
    assert_eq!(source.position(), 0);
    assert_eq!(memory.read_volatile_from(at(0x8008), &mut source, 8).unwrap(), 8);
    // Off, addresses are physical.
    machine.set_iommu_enabled(number, false).unwrap();
    assert_eq!(memory.load::<u32>(at(0x1020), SeqCst).unwrap(), 5);
    machine.invalidate_mapping(table, at(0x8000), 8).unwrap();
    machine.invalidate_all(table).unwrap();
}

// What is missed and what is forbidden, at addresses and of lengths past 2^31, 2^32 and 2^40, up to the last address.
#[test]
fn misses_are_told_wherever_they_lie() {
    let machine = Machine::new().unwrap();
    let region = machine.region(machine.block(0x40, 16).unwrap(), at(0x1000)).unwrap();
    let table = machine.table(None).unwrap();
    let translator = machine.translator(table).unwrap();
    let layout = machine.layout(&[region]).unwrap();
    let space = machine.space(0x1000, 0x1000).unwrap();
    let number = machine.new_memory(layout, translator, space, true).unwrap();
    let memory = machine.memory(number).unwrap();
    let missed = |base, length, access| {
        let iova_range = IovaRange { base: at(base), length };
        Some(Miss { iova_range, access })
    };
    for base in [
        0,
        0x7fff_fff0,
        0x8000_0000,
        0xffff_fff0,
        0x1_0000_0000,
        0x100_0000_0000,
        0x8000_0000_0000_0000,
        u64::MAX - 16,
    ] {
        memory.write_slice(&[1; 16], at(base)).unwrap_err();
        assert_eq!(machine.take_miss(), missed(base, 16, Permissions::Write));
        memory.read_obj::<u64>(at(base)).unwrap_err();
        assert_eq!(machine.take_miss(), missed(base, 8, Permissions::Read));
        machine
            .set_mapping(table, at(base), at(0x1000), 4, Permissions::Read)
            .unwrap();
        memory.write_obj(1_u64, at(base)).unwrap_err();
        assert_eq!(machine.take_miss(), missed(base + 4, 4, Permissions::Write));
        memory.read_obj::<u64>(at(base)).unwrap_err();
        assert_eq!(machine.take_miss(), missed(base + 4, 4, Permissions::Read));
        machine.invalidate_all(table).unwrap();
    }
    for length in [
        0x7fff_ffff,
        0x8000_0000,
        0xffff_ffff,
        0x1_0000_0001,
        1 << 40,
        usize::MAX - 1,
    ] {
        memory.mark_reached(at(0), length).unwrap_err();
        assert_eq!(machine.take_miss(), missed(0, length, Permissions::Write));
    }
}

#[test]
fn lists_are_as_long_as_they_have_to_be() {
    let (machine, memory) = machine_of(&[(0x8000, 0)]);
    let memory = machine.memory(memory).unwrap();
    memory.write_slice(&[1; 0x8000], at(0)).unwrap();
    let all: Vec<usize> = (0..0x800).collect();
    let block = BlockId::new(0);
    assert_eq!(machine.dirty_block(block).unwrap(), all);
    assert_eq!(machine.harvest_block(block).unwrap(), all);
    assert_eq!(machine.harvest_block(block).unwrap(), [0usize; 0]);
}

#[test]
fn setups_and_layouts_are_refused() {
    let machine = Machine::new().unwrap();
    assert!(matches!(machine.block(0, 16), Err(MachineError::InvalidSize)));
    assert!(matches!(machine.block(16, 0), Err(MachineError::BadCall)));
    assert!(matches!(machine.table(Some(0)), Err(MachineError::BadCall)));
    let block = machine.block(16, 16).unwrap();
    assert!(matches!(
        machine.region(block, at(u64::MAX - 8)),
        Err(MachineError::InvalidRegion)
    ));
    assert!(matches!(
        machine.region(BlockId::new(3), at(0)),
        Err(MachineError::NoSuch)
    ));
    let (low, high) = (
        machine.region(block, at(0)).unwrap(),
        machine.region(block, at(8)).unwrap(),
    );
    let far = machine.region(block, at(0x100)).unwrap();
    let layout_error = |regions: &[RegionId]| match machine.layout(regions) {
        Err(MachineError::Layout(error)) => error,
        other => panic!("{other:?}"),
    };
    assert_eq!(layout_error(&[]), GuestRegionCollectionError::NoMemoryRegion);
    assert_eq!(
        layout_error(&[low, high]),
        GuestRegionCollectionError::MemoryRegionOverlap
    );
    assert_eq!(
        layout_error(&[far, low]),
        GuestRegionCollectionError::UnsortedMemoryRegions
    );
    let layout = machine.layout(&[low]).unwrap();
    let more = machine.insert(layout, far).unwrap();
    let memory = machine.plain(more).unwrap();
    machine.memory(memory).unwrap().write_slice(&[1; 4], at(0x104)).unwrap();
    machine.copy((block, 4, 4), (block, 0, 16)).unwrap();
    assert_eq!(
        machine.memory(memory).unwrap().read_obj::<[u8; 5]>(at(0)).unwrap(),
        [1, 1, 1, 1, 1]
    );
    assert!(matches!(
        machine.copy((block, 4, 13), (block, 0, 1)),
        Err(MachineError::BadRange)
    ));
    let fewer = machine.remove(more, at(0), 16).unwrap();
    let replaced = machine.replace_backend(memory, fewer);
    assert!(matches!(replaced, Err(MachineError::NoSuch)), "the memory has no IOMMU");
}

#[test]
fn a_machine_goes_to_another_thread() {
    let (machine, memory) = machine_of(&[(0x10, 0)]);
    let machine = std::thread::spawn(move || {
        machine.memory(memory).unwrap().write_obj(3_u8, at(5)).unwrap();
        machine
    })
    .join()
    .unwrap();
    assert_eq!(machine.memory(memory).unwrap().read_obj::<u8>(at(5)).unwrap(), 3);
}

#[test]
fn permissions_are_sets_of_two_accesses() {
    use Permissions::{No, Read, ReadWrite, Write};
    let all = [No, Read, Write, ReadWrite];
    for (has, allowed) in [
        (No, &[No][..]),
        (Read, &[No, Read]),
        (Write, &[No, Write]),
        (ReadWrite, &all),
    ] {
        for access in all {
            assert_eq!(has.allow(access), allowed.contains(&access), "{has:?} {access:?}");
        }
    }
    for (one, other, both) in [
        (No, No, No),
        (Read, No, Read),
        (Write, Write, Write),
        (Read, Write, ReadWrite),
    ] {
        assert_eq!((one | other, other | one), (both, both));
    }
}
