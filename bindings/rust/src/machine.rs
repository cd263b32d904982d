//! The machine: what is made for it, and what commands make and change.

use crate::error::{error_of, MachineError};
use crate::ffi::Session;
use crate::memory::{GuestAddress, GuestMemory};
use crate::number::{BlockId, LayoutId, MemoryId, RegionId, SpaceId, TableId, TranslatorId};
use crate::raw::{code, kind, Answer, Call};
use std::fmt;
use std::ops::BitOr;

/// The accesses that are permitted, or asked for.
#[derive(Clone, Copy, Debug, PartialEq, Eq)]
#[repr(u8)]
pub enum Permissions {
    /// None.
    No = 0,
    /// To read.
    Read = 1,
    /// To write.
    Write = 2,
    /// Both.
    ReadWrite = 3,
}

impl Permissions {
    /// Whether these permissions include an access.
    pub fn allow(&self, access: Permissions) -> bool {
        *self as u8 & access as u8 == access as u8
    }
}

impl BitOr for Permissions {
    type Output = Permissions;

    fn bitor(self, other: Permissions) -> Permissions {
        match self as u8 | other as u8 {
            0 => Permissions::No,
            1 => Permissions::Read,
            2 => Permissions::Write,
            _ => Permissions::ReadWrite,
        }
    }
}

/// A range of I/O addresses: `length` of them from `base` on.
#[derive(Clone, Copy, Debug, PartialEq, Eq)]
pub struct IovaRange {
    /// Where it begins.
    pub base: GuestAddress,
    /// How many there are.
    pub length: usize,
}

/// What a call that a table refused has to have first: addresses for an access.
#[derive(Clone, Copy, Debug, PartialEq, Eq)]
pub struct Miss {
    /// The first of the call's addresses that the table misses, or the first that it forbids if it misses none.
    pub iova_range: IovaRange,
    /// How the call accesses them.
    pub access: Permissions,
}

/// A range that I/O addresses lead to.
#[derive(Clone, Copy, Debug, PartialEq, Eq)]
pub struct MappedRange {
    /// Where it begins.
    pub base: GuestAddress,
    /// How many addresses it has.
    pub length: usize,
}

/// Why a look-up failed, by parts of the range that was asked for.
#[derive(Clone, Debug, Default, PartialEq, Eq)]
pub struct IotlbFails {
    /// The parts that are not mapped.
    pub misses: Vec<IovaRange>,
    /// The parts that are mapped, but without the access.
    pub access_fails: Vec<IovaRange>,
}

/// A machine, for which blocks, spaces, tables, regions and translators are made at any time.
///
/// These, layouts, memories and queues go by number, from 0 in the order of making, each kind by itself. A number means
/// nothing to another machine.
///
/// A machine moves to another thread, and no two threads have it at once:
///
/// ```
/// let machine = vm_memory_proved::Machine::new()?;
/// std::thread::scope(|scope| drop(scope.spawn(move || machine.table(None))));
/// # Ok::<(), vm_memory_proved::MachineError>(())
/// ```
///
/// ```compile_fail,E0277
/// let machine = vm_memory_proved::Machine::new()?;
/// std::thread::scope(|scope| drop(scope.spawn(|| machine.table(None))));
/// # Ok::<(), vm_memory_proved::MachineError>(())
/// ```
pub struct Machine {
    session: Session,
}

impl fmt::Debug for Machine {
    fn fmt(&self, f: &mut fmt::Formatter<'_>) -> fmt::Result {
        f.write_str("Machine")
    }
}

impl Machine {
    /// A machine with nothing made yet. `Memory` if an allocation fails.
    pub fn new() -> Result<Machine, MachineError> {
        match Session::open() {
            Some(session) => Ok(Machine { session }),
            None => Err(MachineError::Memory),
        }
    }

    /// Makes a call of plain numbers.
    #[inline]
    pub fn call(&self, call: &Call, input: &[u8], output: &mut [u8]) -> Answer {
        let mut answer = Answer::default();
        self.call_into(call, input, output, &mut answer);
        answer
    }

    // Makes a call, and puts its answer where it is wanted.
    #[inline]
    pub(crate) fn call_into(&self, call: &Call, input: &[u8], output: &mut [u8], answer: &mut Answer) {
        self.session.call(call, input, output, answer);
    }

    /// Takes what the last call missed first that a table refused, with `CannotResolve` or `TableTooSmall`, whatever it
    /// was a call of. `None` if none was refused since it was last taken, or if there was no memory to look it up.
    ///
    /// A device asks for a mapping of just this, and makes the call again after it came, with the same bytes:
    /// [`apply_iotlb`](Machine::apply_iotlb).
    pub fn take_miss(&self) -> Option<Miss> {
        let miss = self.session.take_miss();
        let access = match miss.access {
            1 => Permissions::Read,
            2 => Permissions::Write,
            3 => Permissions::ReadWrite,
            _ => return None,
        };
        let iova_range = IovaRange {
            base: GuestAddress(miss.address),
            length: miss.length,
        };
        Some(Miss { iova_range, access })
    }

    pub(crate) fn session(&self) -> &Session {
        &self.session
    }

    // A call without input and output.
    #[inline]
    pub(crate) fn ask(&self, call: Call) -> Result<Answer, MachineError> {
        let answer = self.call(&call, &[], &mut []);
        answered(answer)
    }

    // The number of what a call makes.
    fn made(&self, call: Call) -> Result<usize, MachineError> {
        Ok(self.ask(call)?.value as usize)
    }

    // ---- setup

    /// Makes a block of `size` bytes, all zero, with dirty pages of `page_size` bytes. `BadCall` if that is 0.
    pub fn block(&self, size: usize, page_size: usize) -> Result<BlockId, MachineError> {
        self.made(Call {
            kind: kind::BLOCK,
            length: size,
            other_length: page_size,
            ..Call::default()
        })
        .map(BlockId::new)
    }

    /// Makes a space: a bitmap for `size` I/O addresses, with pages of `page_size`. `BadCall` if that is 0.
    pub fn space(&self, size: usize, page_size: usize) -> Result<SpaceId, MachineError> {
        self.made(Call {
            kind: kind::SPACE,
            length: size,
            other_length: page_size,
            ..Call::default()
        })
        .map(SpaceId::new)
    }

    /// Makes an I/O table that maps nothing, with a limit of its ranges, or with none. `BadCall` if the limit is 0.
    pub fn table(&self, limit: Option<usize>) -> Result<TableId, MachineError> {
        self.made(Call {
            kind: if limit.is_some() {
                kind::LIMITED_TABLE
            } else {
                kind::TABLE
            },
            length: limit.unwrap_or(0),
            ..Call::default()
        })
        .map(TableId::new)
    }

    /// Makes a region of a whole block at an address.
    pub fn region(&self, block: BlockId, addr: GuestAddress) -> Result<RegionId, MachineError> {
        self.made(Call {
            kind: kind::REGION,
            first: block.number(),
            address: addr.0,
            ..Call::default()
        })
        .map(RegionId::new)
    }

    /// Makes a translator over a table.
    pub fn translator(&self, table: TableId) -> Result<TranslatorId, MachineError> {
        self.made(Call {
            kind: kind::TRANSLATOR,
            first: table.number(),
            ..Call::default()
        })
        .map(TranslatorId::new)
    }

    // ---- layouts and memories

    /// Makes the layout of these regions, which have to ascend.
    pub fn layout(&self, regions: &[RegionId]) -> Result<LayoutId, MachineError> {
        let call = Call {
            kind: kind::LAYOUT,
            ..Call::default()
        };
        let input = list(regions.iter().map(|region| region.number() as u64));
        let answer = answered(self.call(&call, &input, &mut []))?;
        Ok(LayoutId::new(answer.value as usize))
    }

    /// Makes a layout of one with a region more.
    pub fn insert(&self, layout: LayoutId, region: RegionId) -> Result<LayoutId, MachineError> {
        self.made(Call {
            kind: kind::INSERT,
            first: layout.number(),
            second: region.number(),
            ..Call::default()
        })
        .map(LayoutId::new)
    }

    /// Makes a layout of one without its region of `size` bytes at `base`.
    pub fn remove(&self, layout: LayoutId, base: GuestAddress, size: usize) -> Result<LayoutId, MachineError> {
        self.made(Call {
            kind: kind::REMOVE,
            first: layout.number(),
            address: base.0,
            length: size,
            ..Call::default()
        })
        .map(LayoutId::new)
    }

    /// Makes a memory of a layout, without an IOMMU.
    pub fn plain(&self, layout: LayoutId) -> Result<MemoryId, MachineError> {
        self.made(Call {
            kind: kind::PLAIN,
            first: layout.number(),
            ..Call::default()
        })
        .map(MemoryId::new)
    }

    /// Makes a memory of a layout behind a translator, whose writes mark a space. The IOMMU is on or off.
    pub fn new_memory(
        &self,
        layout: LayoutId,
        translator: TranslatorId,
        space: SpaceId,
        on: bool,
    ) -> Result<MemoryId, MachineError> {
        self.made(Call {
            kind: kind::MEMORY,
            first: layout.number(),
            second: translator.number(),
            third: space.number(),
            value: on.into(),
            ..Call::default()
        })
        .map(MemoryId::new)
    }

    /// Makes a memory of a layout with the translator, the space and the switch of another.
    pub fn replace_backend(&self, memory: MemoryId, layout: LayoutId) -> Result<MemoryId, MachineError> {
        self.made(Call {
            kind: kind::REPLACE,
            first: memory.number(),
            second: layout.number(),
            ..Call::default()
        })
        .map(MemoryId::new)
    }

    /// Turns the IOMMU of a memory on or off.
    pub fn set_iommu_enabled(&self, memory: MemoryId, on: bool) -> Result<(), MachineError> {
        let call = Call {
            kind: kind::ENABLE,
            first: memory.number(),
            value: on.into(),
            ..Call::default()
        };
        self.ask(call).map(drop)
    }

    /// A memory, if there is one of this number. It lends the machine.
    pub fn memory(&self, id: MemoryId) -> Option<GuestMemory<'_>> {
        let call = Call {
            kind: kind::CHECK_RANGE,
            first: id.number(),
            ..Call::default()
        };
        self.ask(call).ok().map(|_| GuestMemory::new(self, id))
    }

    // ---- blocks

    /// Copies the first bytes of a range of a block, as block, offset and length, to the front of another, up to the
    /// length of the shorter.
    pub fn copy(&self, from: (BlockId, usize, usize), to: (BlockId, usize, usize)) -> Result<(), MachineError> {
        let call = Call {
            kind: kind::COPY,
            first: from.0.number(),
            address: from.1 as u64,
            length: from.2,
            second: to.0.number(),
            target: to.1 as u64,
            other_length: to.2,
            ..Call::default()
        };
        self.ask(call).map(drop)
    }

    // ---- I/O tables

    /// Maps `length` I/O addresses of a table, from `iova` on, to those from `map_to` on.
    pub fn set_mapping(
        &self,
        table: TableId,
        iova: GuestAddress,
        map_to: GuestAddress,
        length: usize,
        perm: Permissions,
    ) -> Result<(), MachineError> {
        let call = Call {
            kind: kind::SET,
            first: table.number(),
            address: iova.0,
            target: map_to.0,
            length,
            access: perm as u32,
            ..Call::default()
        };
        self.ask(call).map(drop)
    }

    /// Takes back the mappings of `length` I/O addresses of a table, from `iova` on.
    pub fn invalidate_mapping(&self, table: TableId, iova: GuestAddress, length: usize) -> Result<(), MachineError> {
        let call = Call {
            kind: kind::INVALIDATE,
            first: table.number(),
            address: iova.0,
            length,
            ..Call::default()
        };
        self.ask(call).map(drop)
    }

    /// Takes back all mappings of a table.
    pub fn invalidate_all(&self, table: TableId) -> Result<(), MachineError> {
        let call = Call {
            kind: kind::INVALIDATE_ALL,
            first: table.number(),
            ..Call::default()
        };
        self.ask(call).map(drop)
    }

    /// Where `length` I/O addresses of a table lead, from `iova` on, for an access: the pieces in order, or what is
    /// missed and what fails.
    pub fn lookup(
        &self,
        table: TableId,
        iova: GuestAddress,
        length: usize,
        access: Permissions,
    ) -> Result<Result<Vec<MappedRange>, IotlbFails>, MachineError> {
        let call = Call {
            kind: kind::LOOKUP,
            first: table.number(),
            address: iova.0,
            length,
            access: access as u32,
            ..Call::default()
        };
        let (answer, words) = self.listed(&call)?;
        let mut ranges = words
            .chunks_exact(2)
            .map(|pair| (GuestAddress(pair[0]), pair[1] as usize));
        if answer.code == code::FAILS {
            let mut ranges = ranges.map(|(base, length)| IovaRange { base, length });
            return Ok(Err(IotlbFails {
                misses: ranges.by_ref().take(answer.count).collect(),
                access_fails: ranges.take(answer.value as usize).collect(),
            }));
        }
        Ok(Ok(ranges
            .by_ref()
            .take(answer.count)
            .map(|(base, length)| MappedRange { base, length })
            .collect()))
    }

    // ---- dirty pages

    /// The numbers of the dirty pages of a block, ascending.
    pub fn dirty_block(&self, block: BlockId) -> Result<Vec<usize>, MachineError> {
        self.pages(kind::DIRTY_BLOCK, block.number())
    }

    /// The numbers of the dirty pages of a space, ascending.
    pub fn dirty_space(&self, space: SpaceId) -> Result<Vec<usize>, MachineError> {
        self.pages(kind::DIRTY_SPACE, space.number())
    }

    /// Takes the dirty pages of a block: none of them is dirty then.
    pub fn harvest_block(&self, block: BlockId) -> Result<Vec<usize>, MachineError> {
        self.pages(kind::HARVEST_BLOCK, block.number())
    }

    /// Takes the dirty pages of a space: none of them is dirty then.
    pub fn harvest_space(&self, space: SpaceId) -> Result<Vec<usize>, MachineError> {
        self.pages(kind::HARVEST_SPACE, space.number())
    }

    /// Marks the pages of `len` bytes of a block from `offset` on as dirty, as a write of these bytes would. It reads
    /// and writes none of them: it is for bytes of a shared block that a guest wrote. `NoSuch` if there is no such
    /// block, `BadRange` if the range passes its end.
    pub fn mark_block(&self, block: BlockId, offset: usize, len: usize) -> Result<(), MachineError> {
        let call = Call {
            kind: kind::MARK_BLOCK,
            first: block.number(),
            address: offset as u64,
            length: len,
            ..Call::default()
        };
        self.ask(call).map(drop)
    }

    fn pages(&self, kind: u32, number: usize) -> Result<Vec<usize>, MachineError> {
        let call = Call {
            kind,
            first: number,
            ..Call::default()
        };
        let (answer, words) = self.listed(&call)?;
        Ok(words.into_iter().take(answer.count).map(|word| word as usize).collect())
    }

    // A call that lists numbers. One whose list is too long for the first output is made again, as it changed nothing.
    fn listed(&self, call: &Call) -> Result<(Answer, Vec<u64>), MachineError> {
        let mut output = vec![0; 512];
        let mut answer = self.call(call, &[], &mut output);
        if answer.code == code::SHORT {
            output = zeroed(answer.count)?;
            answer = self.call(call, &[], &mut output);
        }
        let answer = answered(answer)?;
        let words = output
            .chunks_exact(8)
            .map(|word| u64::from_le_bytes(word.try_into().expect("a word has eight bytes")))
            .collect();
        Ok((answer, words))
    }
}

// An answer that is no refusal.
pub(crate) fn answered(answer: Answer) -> Result<Answer, MachineError> {
    match error_of(&answer) {
        None => Ok(answer),
        Some(error) => Err(error),
    }
}

// Numbers as an input.
pub(crate) fn list(numbers: impl Iterator<Item = u64>) -> Vec<u8> {
    numbers.flat_map(u64::to_le_bytes).collect()
}

// Room for a number of bytes.
pub(crate) fn zeroed(size: usize) -> Result<Vec<u8>, MachineError> {
    let mut bytes = Vec::new();
    if bytes.try_reserve_exact(size).is_err() {
        return Err(MachineError::Memory);
    }
    bytes.resize(size, 0);
    Ok(bytes)
}
