//! The disk: a file or a block device.

use crate::direct::Blocks;
use crate::options::Options;
use crate::say;
use crate::system::{self, Buffers};
use std::cell::Cell;
use std::ffi::OsStr;
use std::fs::{File, OpenOptions};
use std::io::{self, ErrorKind::WouldBlock, Seek, SeekFrom};
use std::os::unix::ffi::OsStrExt;
use std::os::unix::fs::OpenOptionsExt;
use std::path::Path;
use std::rc::Rc;
use std::sync::Arc;
use std::thread;
use std::time::Duration;
use vm_memory_proved::block::SECTOR_LEN;

// How often the lock is tried, and how long each try waits. Who looks at a device has it for a moment, and a program
// that was killed until the last of its reads and writes has ended: with those a successor would share guest memory and
// the image. After a moment it is said.
const TRIES: u32 = 210;
const MOMENT: u32 = 10;
const PAUSE: Duration = Duration::from_millis(50);

pub struct Disk {
    /// What has the lock, and reads and writes.
    pub file: Arc<File>,
    pub sectors: Cell<u64>,
    /// How what is read and written past the page cache has to lie.
    pub blocks: Option<Blocks>,
    /// The file's name, cut or filled up with zeros.
    pub name: [u8; 20],
    sync: fn(&File) -> io::Result<()>,
    pub syncs: Rc<Syncs>,
}

/// Whether a sync failed. Then each later flush fails: the system may have dropped what it could not write, and the
/// next sync would succeed without it.
#[derive(Default)]
pub struct Syncs {
    has_failed: Cell<bool>,
}

impl Syncs {
    pub fn has_failed(&self) -> bool {
        self.has_failed.get()
    }

    /// No sync failed.
    pub fn expect_good(&self) -> io::Result<()> {
        match self.has_failed.get() {
            true => Err(io::Error::other("an earlier sync failed")),
            false => Ok(()),
        }
    }

    /// A sync ended so.
    pub fn ended(&self, done: io::Result<()>) -> io::Result<()> {
        done.inspect_err(|error| {
            self.has_failed.set(true);
            say!("the image cannot be made stable: {error}; until the program is started again, each flush fails");
        })
    }
}

impl Disk {
    /// Opens the image, and locks it if that is asked for. Bytes after its last whole sector are not part of the disk.
    pub fn open(path: &Path, options: &Options) -> io::Result<Disk> {
        let mut how = OpenOptions::new();
        how.read(true).write(!options.read_only);
        if options.is_direct {
            how.custom_flags(libc::O_DIRECT);
        }
        let file = how.open(path).map_err(|error| match error.raw_os_error() {
            Some(libc::EINVAL) if options.is_direct => no_direct(),
            _ => error,
        })?;
        if options.is_locked {
            lock(&file, path, options.read_only)?;
        }
        let mut disk = Disk::new(file, path.file_name().unwrap_or_default(), File::sync_data)?;
        if options.is_direct {
            let blocks = blocks_of(&disk.file)?;
            expect_whole(disk.sectors.get(), blocks)?;
            disk.blocks = Some(blocks);
        }
        Ok(disk)
    }

    fn new(file: File, base: &OsStr, sync: fn(&File) -> io::Result<()>) -> io::Result<Disk> {
        let mut name = [0; 20];
        name.iter_mut().zip(base.as_bytes()).for_each(|(to, from)| *to = *from);
        let sectors = Cell::new(sectors_of(&file)?);
        Ok(Disk {
            file: Arc::new(file),
            sectors,
            blocks: None,
            name,
            sync,
            syncs: Rc::default(),
        })
    }

    /// Looks at the size of the image again, and returns whether it is another one.
    pub fn measure(&self) -> bool {
        let sectors = sectors_of(&self.file).and_then(|sectors| match self.blocks {
            Some(blocks) => expect_whole(sectors, blocks).map(|()| sectors),
            None => Ok(sectors),
        });
        match sectors {
            Ok(sectors) if self.sectors.replace(sectors) != sectors => {
                say!("the image has {sectors} sectors now");
                return true;
            }
            Ok(_) => (),
            Err(error) => say!("the disk keeps its size: {error}"),
        }
        false
    }

    /// Makes what was written stable. If that failed once, it always fails.
    pub fn flush(&self) -> io::Result<()> {
        self.syncs.expect_good()?;
        self.syncs.ended((self.sync)(&self.file))
    }
}

fn sectors_of(mut file: &File) -> io::Result<u64> {
    // A block device has its length here alone.
    Ok(file.seek(SeekFrom::End(0))? / SECTOR_LEN as u64)
}

fn no_direct() -> io::Error {
    io::Error::other("--direct: its file system has no O_DIRECT")
}

// How what is read and written past the page cache has to lie.
fn blocks_of(file: &File) -> io::Result<Blocks> {
    match system::blocks_of(file) {
        Some((0, _) | (_, 0)) => Err(no_direct()),
        Some((memory, disk)) => Ok(Blocks { memory, disk }),
        // The system does not say. A read tells.
        None => {
            let fits = |&len: &u64| {
                Buffers::new(1, len as usize)
                    .and_then(|it| it.read_first(file, len as usize))
                    .is_ok()
            };
            let len = [512, 1024, 2048, 4096].into_iter().find(fits).ok_or_else(no_direct)?;
            Ok(Blocks { memory: len, disk: len })
        }
    }
}

// A part of a block at the end of the disk could not be written without the rest of it.
fn expect_whole(sectors: u64, blocks: Blocks) -> io::Result<()> {
    match sectors * SECTOR_LEN as u64 % blocks.disk {
        0 => Ok(()),
        _ => Err(io::Error::other(format!(
            "--direct: its {sectors} sectors are no whole blocks of {} bytes",
            blocks.disk
        ))),
    }
}

// Locks the image against other programs that lock it, by the descriptor that reads and writes it.
fn lock(file: &File, path: &Path, read_only: bool) -> io::Result<()> {
    let mut done = system::lock(file, !read_only);
    for number in 1..TRIES {
        if !matches!(&done, Err(error) if error.kind() == WouldBlock) {
            break;
        }
        if number == MOMENT {
            let (image, seconds) = (path.display(), (PAUSE * (TRIES - MOMENT)).as_secs());
            eprintln!("vhost-user-blk: {image}: another program has locked it: waiting {seconds} s for its end");
        }
        thread::sleep(PAUSE);
        done = system::lock(file, !read_only);
    }
    done.map_err(|error| match error.kind() {
        WouldBlock => io::Error::other("another program has locked it (--no-lock serves it anyway)"),
        _ => io::Error::other(format!("it cannot be locked (--no-lock serves it anyway): {error}")),
    })
}

#[cfg(test)]
mod tests {
    use super::*;
    use std::cell::RefCell;

    thread_local! {
        // What the next syncs return, the last one first.
        static SYNCS: RefCell<Vec<Option<i32>>> = const { RefCell::new(Vec::new()) };
    }

    fn sync(_file: &File) -> io::Result<()> {
        let next = SYNCS.with_borrow_mut(|syncs| syncs.pop().expect("no sync is made"));
        next.map_or(Ok(()), |number| Err(io::Error::from_raw_os_error(number)))
    }

    #[test]
    fn a_disk_has_whole_blocks() {
        let blocks = |disk| Blocks { memory: 512, disk };
        for (sectors, disk, is_whole) in [(9, 512, true), (8, 4096, true), (9, 4096, false), (15, 4096, false)] {
            let done = expect_whole(sectors, blocks(disk));
            assert_eq!(done.is_ok(), is_whole, "{sectors} {disk}");
        }
        let text = expect_whole(9, blocks(4096)).unwrap_err().to_string();
        assert_eq!(text, "--direct: its 9 sectors are no whole blocks of 4096 bytes");
    }

    #[test]
    fn after_a_sync_that_failed_no_flush_succeeds() {
        // The system would succeed again: it has dropped the data.
        SYNCS.set(vec![None, Some(libc::EIO), None]);
        let file = File::open("/dev/null").unwrap();
        let disk = Disk::new(file, OsStr::new("null"), sync).unwrap();
        assert!(disk.flush().is_ok());
        assert!(!disk.syncs.has_failed());
        assert_eq!(disk.flush().unwrap_err().raw_os_error(), Some(libc::EIO));
        assert!(disk.syncs.has_failed());
        for _ in 0..3 {
            assert!(disk.flush().is_err());
        }
        assert!(disk.syncs.has_failed());
    }
}
