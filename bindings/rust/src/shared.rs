//! Blocks whose bytes the caller shares with a guest.

use crate::error::{error_of, MachineError};
use crate::machine::{answered, Machine};
use crate::mapping::{self, Mapping};
use crate::number::BlockId;
use crate::raw::Answer;
use std::error;
use std::fmt;
use std::fs::File;
use std::io;
use std::os::fd::{BorrowedFd, OwnedFd};

/// A block of a machine, whose bytes are a mapping that a guest may have, too.
#[derive(Clone, Copy, Debug, PartialEq, Eq)]
pub struct SharedBlock {
    id: BlockId,
    address: usize,
    len: usize,
    mapping: (usize, usize),
}

impl SharedBlock {
    /// Its number, as of every block.
    pub fn id(&self) -> BlockId {
        self.id
    }

    /// Where its bytes lie, as long as its machine is there and has not given it back. No input or output of a call may
    /// lie in them. A guest may write them while a call runs: docs/BINDINGS.md of the repository says what holds then.
    pub fn as_ptr(&self) -> *mut u8 {
        self.address as *mut u8
    }

    /// How many bytes it has.
    #[allow(clippy::len_without_is_empty)]
    pub fn len(&self) -> usize {
        self.len
    }

    /// Where the whole pages of its mapping begin, and how many bytes these are. On huge pages the block may be a part
    /// of them.
    pub fn mapping(&self) -> (*mut u8, usize) {
        (self.mapping.0 as *mut u8, self.mapping.1)
    }
}

/// Memory that a guest may have, too, and that is mapped here: bytes of a file, or private memory. A machine takes it
/// as a block and gives it back, so that another machine can have it without mapping it again.
pub struct SharedMemory {
    mapping: Mapping,
}

impl SharedMemory {
    /// Maps `size` bytes of a file, from an offset on, or private memory, as [`Machine::shared_block`] does.
    pub fn new(size: usize, file: Option<(BorrowedFd<'_>, u64)>) -> Result<SharedMemory, SharedBlockError> {
        check(size, file)?;
        let mapping = match file {
            Some((file, offset)) => Mapping::of_file(size, file, offset),
            None => Mapping::private(size),
        };
        let mapping = mapping.map_err(SharedBlockError::NotMapped)?;
        Ok(SharedMemory { mapping })
    }

    /// How many bytes it has.
    #[allow(clippy::len_without_is_empty)]
    pub fn len(&self) -> usize {
        self.mapping.len()
    }
}

impl fmt::Debug for SharedMemory {
    fn fmt(&self, f: &mut fmt::Formatter<'_>) -> fmt::Result {
        write!(f, "SharedMemory({} bytes)", self.len())
    }
}

/// Why a shared block was not made. Nothing changed.
#[derive(Debug)]
pub enum SharedBlockError {
    /// The size or the offset is not a multiple of the system's page.
    NotPaged,
    /// The descriptor is not one of a regular file, so how many bytes it has is not known.
    NoFile,
    /// The file ends before the block.
    FileShort,
    /// Another region has bytes of the same file.
    Shared,
    /// The system does not map it.
    NotMapped(io::Error),
    /// The machine makes no block.
    Machine(MachineError),
}

impl fmt::Display for SharedBlockError {
    fn fmt(&self, f: &mut fmt::Formatter<'_>) -> fmt::Result {
        match self {
            SharedBlockError::NotPaged => write!(f, "a size or an offset is no multiple of a page"),
            SharedBlockError::NoFile => write!(f, "not a regular file"),
            SharedBlockError::Shared => write!(f, "two regions share bytes of a file"),
            SharedBlockError::FileShort => write!(f, "the file ends before the block"),
            SharedBlockError::NotMapped(error) => write!(f, "the file could not be mapped: {error}"),
            SharedBlockError::Machine(error) => error.fmt(f),
        }
    }
}

impl error::Error for SharedBlockError {}

/// A file in memory, all zero, which cannot shrink. A guest in another process gets its descriptor.
pub fn memfd(size: u64) -> io::Result<OwnedFd> {
    mapping::memfd(size)
}

impl Machine {
    /// Makes a block whose bytes are those of a file, from an offset on, or private memory, which a thread may have and
    /// another process not. `size` and the offset are multiples of the system's page, also on huge pages, which are
    /// then mapped whole; `page_size` is that of the dirty pages, as for [`Machine::block`]. The file may be closed
    /// afterwards. Its bytes are mapped until the block is given back or the machine is dropped. If the file shrinks
    /// meanwhile, an access ends the process by SIGBUS.
    pub fn shared_block(
        &self,
        size: usize,
        page_size: usize,
        file: Option<(BorrowedFd<'_>, u64)>,
    ) -> Result<SharedBlock, SharedBlockError> {
        self.shared_block_of(SharedMemory::new(size, file)?, page_size)
    }

    /// Makes a block whose bytes are those of this memory, as they are. All its pages are clean. If it is refused, the
    /// memory is unmapped.
    pub fn shared_block_of(&self, memory: SharedMemory, page_size: usize) -> Result<SharedBlock, SharedBlockError> {
        let mapping = memory.mapping;
        let len = mapping.len();
        let (address, whole) = (mapping.bytes().as_ptr() as usize, mapping.whole());
        let answer = answered(self.session().lend(mapping, page_size)).map_err(SharedBlockError::Machine)?;
        Ok(SharedBlock {
            id: BlockId::new(answer.value as usize),
            address,
            len,
            mapping: whole,
        })
    }

    /// Gives a block back: the machine forgets its bytes and its dirty pages, and returns the memory of a shared block.
    /// Its number stays, and each later call that names it is `NoSuch`. `NoSuch` if there is no such block, `InUse` if
    /// a region, a layout or a memory is there, `Memory` if an allocation fails, and nothing changed then.
    pub fn give_back(&self, block: BlockId) -> Result<Option<SharedMemory>, MachineError> {
        match self.session().give_back(block.number()) {
            Ok(mapping) => Ok(mapping.map(|mapping| SharedMemory { mapping })),
            Err(code) => Err(error_of(&Answer {
                code,
                ..Answer::default()
            })
            .expect("the block was not given back")),
        }
    }

    /// Forgets all regions, layouts and memories, whose numbers begin at 0 again. Everything else stays. Nothing that
    /// the machine lent is used after it:
    ///
    /// ```compile_fail,E0502
    /// let mut machine = vm_memory_proved::Machine::new().unwrap();
    /// let queue = machine.queue(16, 16).unwrap();
    /// machine.forget_regions();
    /// queue.reset();
    /// ```
    pub fn forget_regions(&mut self) {
        self.session().forget_regions();
    }
}

pub(crate) fn check(size: usize, file: Option<(BorrowedFd<'_>, u64)>) -> Result<(), SharedBlockError> {
    if size == 0 || size > isize::MAX as usize {
        return Err(SharedBlockError::Machine(MachineError::InvalidSize));
    }
    let page = mapping::system_page();
    let offset = file.map_or(0, |(_, offset)| offset);
    if size % page != 0 || offset % page as u64 != 0 {
        return Err(SharedBlockError::NotPaged);
    }
    if let Some((fd, _)) = file {
        let file = fd.try_clone_to_owned().map(File::from);
        let data = file.and_then(|file| file.metadata());
        let data = data.map_err(SharedBlockError::NotMapped)?;
        if !data.is_file() {
            return Err(SharedBlockError::NoFile);
        }
        if data.len().checked_sub(offset).is_none_or(|left| left < size as u64) {
            return Err(SharedBlockError::FileShort);
        }
    }
    Ok(())
}
