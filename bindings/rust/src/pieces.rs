//! Pieces of guest memory as bytes that the system, and no code of this process, reads and writes in place.
//!
//! If many requests are under way at once, the system may still have pieces to read when memory goes away and zeros are
//! mapped in its place. So these pieces lie in a mapping of their own, where that leaves nothing to read.

use crate::back_end::{BackEnd, Piece};
use crate::system;
pub use crate::system::Vector;
use std::ffi::c_int;
use std::fs::File;
use std::io;
use std::os::fd::AsRawFd;

// The system takes so many at once.
const MOST: usize = 1024;

/// Bytes of guest memory, where they are mapped: none is empty.
#[derive(Debug, Default)]
pub struct Vectors(Vec<Vector>);

// SAFETY: they are tied to no thread, and what uses them answers for that.
unsafe impl Send for Vectors {}

/// Pieces of guest memory, as long as it is borrowed. A guest may read and write them at any moment.
pub struct Pieces<'a> {
    back_end: &'a mut BackEnd,
}

impl BackEnd {
    /// The bytes of these pieces, in order.
    #[inline]
    pub fn pieces(&mut self, pieces: &[Piece]) -> Pieces<'_> {
        self.pieces_of(pieces, |it, number| it.region(number))
    }

    /// The same, after [`keep_apart`](BackEnd::keep_apart): if memory goes away, nothing takes its place there.
    #[inline]
    pub fn pieces_apart(&mut self, pieces: &[Piece]) -> Pieces<'_> {
        self.pieces_of(pieces, |it, number| it.region_apart(number))
    }

    #[inline]
    fn pieces_of(&mut self, pieces: &[Piece], of: impl Fn(&BackEnd, u64) -> Option<(*mut u8, usize)>) -> Pieces<'_> {
        self.vectors.0.clear();
        for it in pieces.iter().filter(|it| it.len > 0) {
            let (at, size) = of(self, it.region).expect("a piece lies in a region that is mapped");
            assert!(it.offset <= size as u64 && it.len <= size as u64 - it.offset);
            self.vectors.0.push(Vector {
                at: at.wrapping_add(it.offset as usize),
                len: it.len as usize,
            });
        }
        Pieces { back_end: self }
    }

    // Takes note if the system finds no memory where a piece is mapped.
    pub(crate) fn look_for_loss(&mut self, error: &io::Error) {
        self.lacks_memory |= error.raw_os_error() == Some(system::EFAULT);
    }
}

impl Pieces<'_> {
    /// Fills them by the bytes of a file from a place on.
    #[inline]
    pub fn read_file(self, file: &File, place: u64) -> io::Result<()> {
        self.move_all(file, place, true)
    }

    /// Writes them to a file from a place on.
    #[inline]
    pub fn write_file(self, file: &File, place: u64) -> io::Result<()> {
        self.move_all(file, place, false)
    }

    /// Fills them by these bytes, as far as both go.
    pub fn fill(self, mut bytes: &[u8]) {
        for it in &self.back_end.vectors.0 {
            let (here, rest) = bytes.split_at(it.len.min(bytes.len()));
            // SAFETY: the vector has these bytes in a region that is mapped, in which no `&[u8]` lies.
            unsafe { std::ptr::copy_nonoverlapping(here.as_ptr(), it.at, here.len()) };
            bytes = rest;
        }
    }

    /// Leaves them in `room`, in place of what that had.
    ///
    /// # Safety
    ///
    /// They are used only as long as guest memory is mapped: until the end of their part is told to the connection, and
    /// before that is dropped.
    #[inline]
    pub unsafe fn keep(self, room: &mut Vectors) {
        std::mem::swap(&mut self.back_end.vectors, room);
    }

    #[inline]
    fn move_all(self, file: &File, mut place: u64, fills: bool) -> io::Result<()> {
        let BackEnd {
            vectors, lacks_memory, ..
        } = self.back_end;
        let mut from = 0;
        while from < vectors.0.len() {
            match usize::try_from(vectors.move_some(from, file, place, fills)) {
                Ok(0) => return Err(io::ErrorKind::UnexpectedEof.into()),
                Ok(moved) => {
                    place += moved as u64;
                    from = vectors.passed(from, moved);
                }
                Err(_) => {
                    let error = io::Error::last_os_error();
                    // The system finds no memory where a piece is mapped.
                    *lacks_memory |= error.raw_os_error() == Some(system::EFAULT);
                    if error.kind() != io::ErrorKind::Interrupted {
                        return Err(error);
                    }
                }
            }
        }
        Ok(())
    }
}

impl Vectors {
    /// These bytes, none of them empty.
    ///
    /// # Safety
    ///
    /// They are memory, and used only as long as that is there.
    pub unsafe fn new(vectors: Vec<Vector>) -> Vectors {
        Vectors(vectors)
    }

    /// All of them.
    pub fn all(&self) -> &[Vector] {
        &self.0
    }

    /// Those from one on, as many as the system takes at once.
    #[inline]
    pub fn from(&self, from: usize) -> &[Vector] {
        let left = &self.0[from..];
        &left[..left.len().min(MOST)]
    }

    /// How many there are.
    pub fn len(&self) -> usize {
        self.0.len()
    }

    /// Whether there is none.
    pub fn is_empty(&self) -> bool {
        self.0.is_empty()
    }

    /// For how many there is room.
    pub fn room(&self) -> usize {
        self.0.capacity()
    }

    // How many bytes one call of the system moves.
    #[inline]
    fn move_some(&self, from: usize, file: &File, place: u64, fills: bool) -> isize {
        let (file, left) = (file.as_raw_fd(), &self.0[from..]);
        let (place, count) = (place as i64, left.len().min(MOST) as c_int);
        // SAFETY: the declarations fit the functions. So many vectors are there, and each is bytes of a region that is
        // mapped, as long as the pieces are borrowed. This process has no reference to them, and no call of the library
        // runs. If the memory is lost the call fails, as it does for a place that is no offset.
        unsafe {
            match left {
                // The call for one takes the system 5 % less.
                [it] if fills => system::pread64(file, it.at, it.len, place),
                [it] => system::pwrite64(file, it.at, it.len, place),
                all if fills => system::preadv(file, all.as_ptr(), count, place),
                all => system::pwritev(file, all.as_ptr(), count, place),
            }
        }
    }

    /// The first one that has bytes after so many of those from one on. These are gone.
    pub fn passed(&mut self, mut from: usize, mut count: usize) -> usize {
        while let Some(it) = self.0.get_mut(from) {
            if count < it.len {
                it.at = it.at.wrapping_add(count);
                it.len -= count;
                break;
            }
            count -= it.len;
            from += 1;
        }
        from
    }
}
