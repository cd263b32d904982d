//! Mappings of files and of private memory, of whole pages.

use crate::system;
use std::ffi::c_int;
use std::fs::File;
use std::io;
use std::mem::MaybeUninit;
use std::os::fd::{AsRawFd, BorrowedFd, FromRawFd, OwnedFd};
use std::ptr::{null_mut, NonNull};

/// How many bytes a page of the system has.
pub(crate) fn system_page() -> usize {
    // SAFETY: the declaration fits the function, which any number may be given.
    let size = unsafe { system::sysconf(system::SC_PAGESIZE) };
    usize::try_from(size).unwrap_or(4096)
}

// How many bytes a page of a mapping of a file has: a huge page on hugetlbfs, and otherwise one of the system.
fn page_of(file: BorrowedFd<'_>) -> io::Result<u64> {
    let mut about = MaybeUninit::<system::FileSystem>::uninit();
    // SAFETY: the declaration fits the function, which writes one such record there.
    if unsafe { system::fstatfs(file.as_raw_fd(), about.as_mut_ptr()) } != 0 {
        return Err(io::Error::last_os_error());
    }
    // SAFETY: the system has written it.
    let about = unsafe { about.assume_init() };
    match u64::try_from(about.block_size) {
        Ok(size) if about.kind == system::HUGETLBFS && size != 0 => Ok(size),
        _ => Ok(system_page() as u64),
    }
}

/// A file in memory, all zero. It cannot shrink.
pub(crate) fn memfd(size: u64) -> io::Result<OwnedFd> {
    // SAFETY: the declaration fits the function, and the name is a text that ends with 0.
    let fd = unsafe { system::memfd_create(c"vm_memory".as_ptr(), system::MFD_CLOEXEC | system::MFD_ALLOW_SEALING) };
    if fd < 0 {
        return Err(io::Error::last_os_error());
    }
    // SAFETY: the system has just opened this descriptor, and nothing else has it.
    let file = File::from(unsafe { OwnedFd::from_raw_fd(fd) });
    file.set_len(size)?;
    // SAFETY: the declaration fits the function, and this command takes a number.
    if unsafe { system::fcntl(fd, system::F_ADD_SEALS, system::F_SEAL_SHRINK) } != 0 {
        return Err(io::Error::last_os_error());
    }
    Ok(file.into())
}

/// A mapping of whole pages, of which nothing else knows, and the bytes in it that are wanted. It is unmapped when it
/// is dropped.
pub(crate) struct Mapping {
    at: NonNull<u8>,
    mapped: usize,
    from: usize,
    size: usize,
}

// SAFETY: a mapping is tied to no thread.
unsafe impl Send for Mapping {}

impl Mapping {
    fn new(mapped: usize, flags: c_int, fd: c_int, offset: i64) -> io::Result<Mapping> {
        let access = system::PROT_READ | system::PROT_WRITE;
        // SAFETY: the declaration fits the function. Without `MAP_FIXED` the system takes addresses that nothing has.
        let at = unsafe { system::mmap(null_mut(), mapped, access, flags, fd, offset) };
        match NonNull::new(at) {
            Some(at) if at.as_ptr() as isize != -1 => Ok(Mapping {
                at,
                mapped,
                from: 0,
                size: mapped,
            }),
            _ => Err(io::Error::last_os_error()),
        }
    }

    /// Private memory of whole pages, all zero.
    pub(crate) fn private(size: usize) -> io::Result<Mapping> {
        Mapping::new(size, system::MAP_PRIVATE | system::MAP_ANONYMOUS, -1, 0)
    }

    /// `size` bytes of a file from an offset on. A page that they have in part is mapped whole.
    pub(crate) fn of_file(size: usize, file: BorrowedFd<'_>, offset: u64) -> io::Result<Mapping> {
        let page = page_of(file)?;
        let from = offset % page;
        let mapped = from
            .checked_add(size as u64)
            .and_then(|end| end.checked_next_multiple_of(page));
        let (Some(Ok(mapped)), Ok(first)) = (mapped.map(usize::try_from), i64::try_from(offset - from)) else {
            return Err(io::ErrorKind::InvalidInput.into());
        };
        let mut mapping = Mapping::new(mapped, system::MAP_SHARED, file.as_raw_fd(), first)?;
        mapping.from = from as usize;
        mapping.size = size;
        Ok(mapping)
    }

    /// Where the bytes that are wanted lie.
    pub(crate) fn bytes(&self) -> NonNull<u8> {
        // SAFETY: they lie in the mapping.
        unsafe { self.at.add(self.from) }
    }

    /// Where the mapping begins, and how many bytes it has.
    pub(crate) fn whole(&self) -> (usize, usize) {
        (self.at.as_ptr() as usize, self.mapped)
    }

    /// How many bytes are wanted.
    pub(crate) fn len(&self) -> usize {
        self.size
    }
}

impl Drop for Mapping {
    fn drop(&mut self) {
        // SAFETY: the declaration fits the function, and nothing has the bytes of this mapping any more.
        unsafe { system::munmap(self.at.as_ptr(), self.mapped) };
    }
}
