//! What the descriptors of a front end are. It shares their open files, and their flags: it can change these at any
//! time.

use std::fs;
use std::io;
use std::os::fd::{AsRawFd, OwnedFd};
use std::os::unix::fs::FileTypeExt;

/// What a descriptor is of.
#[derive(Clone, Copy, Debug, PartialEq, Eq)]
pub enum Kind {
    /// A counter.
    Eventfd,
    /// A pipe, also one with a path.
    Pipe,
    /// A socket.
    Socket,
    /// It has a path, or could have one.
    File,
    /// Something else.
    Other,
}

impl Kind {
    /// The kind of a descriptor, as `/proc` has it.
    pub fn of(descriptor: &OwnedFd) -> io::Result<Kind> {
        let path = format!("/proc/self/fd/{}", descriptor.as_raw_fd());
        let name = fs::read_link(&path)?;
        let name = name.to_string_lossy();
        Ok(match name.split_once(':') {
            _ if name.starts_with('/') && fs::metadata(&path)?.file_type().is_fifo() => Kind::Pipe,
            _ if name.starts_with('/') => Kind::File,
            Some(("anon_inode", "[eventfd]")) => Kind::Eventfd,
            Some(("pipe", _)) => Kind::Pipe,
            Some(("socket", _)) => Kind::Socket,
            _ => Kind::Other,
        })
    }

    /// Refuses a descriptor of another kind than these, and returns its kind.
    pub fn expect(descriptor: &OwnedFd, kinds: &[Kind]) -> io::Result<Kind> {
        let kind = Kind::of(descriptor)?;
        if kinds.contains(&kind) {
            return Ok(kind);
        }
        let wanted: Vec<_> = kinds.iter().map(|it| it.name()).collect();
        let text = format!("it is {}, and has to be {}", kind.name(), wanted.join(" or "));
        Err(io::Error::new(io::ErrorKind::InvalidInput, text))
    }

    /// Whether it may keep descriptors that somebody put into it: a socket those of messages, for example.
    pub fn may_hold_others(self) -> bool {
        matches!(self, Kind::Socket | Kind::Other)
    }

    fn name(self) -> &'static str {
        match self {
            Kind::Eventfd => "an eventfd",
            Kind::Pipe => "a pipe",
            Kind::Socket => "a socket",
            Kind::File => "a file or a device",
            Kind::Other => "of an unknown kind",
        }
    }
}
