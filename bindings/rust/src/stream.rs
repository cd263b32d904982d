//! Transfers between memories and the sources and sinks of `std::io`.

use crate::error::{GuestMemoryError, IommuError, Reason};
use crate::iotlb::PAYLOAD_LEN;
use crate::machine::{answered, IovaRange, Permissions};
use crate::memory::{GuestAddress, GuestMemory};
use crate::raw::{code, kind};
use crate::script::{sink_input, SinkStep};
use std::io::{self, ErrorKind, Read, Write};

// Bytes go in pieces of this size.
const PIECE: usize = 0x1_0000;

// How often in a row an interrupted try is made again.
const RETRIES: usize = 64;

impl GuestMemory<'_> {
    /// Receives at most `count` bytes from a source, up to the first piece that it does not fill at one try, and
    /// returns how many came. It takes no more from the source than the access reaches, and nothing if an IOMMU does
    /// not allow all of it.
    pub fn read_volatile_from<F: Read>(
        &self,
        addr: GuestAddress,
        src: &mut F,
        count: usize,
    ) -> Result<usize, GuestMemoryError> {
        self.receive(addr, src, count, false)
    }

    /// Receives `count` bytes from a source. If it ends before, or the memory does after the first byte, the error says
    /// how many came.
    pub fn read_exact_volatile_from<F: Read>(
        &self,
        addr: GuestAddress,
        src: &mut F,
        count: usize,
    ) -> Result<(), GuestMemoryError> {
        all_of(count, self.receive(addr, src, count, true)?)
    }

    /// Sends at most `count` bytes to a sink, and returns how many it took. It gets none if an IOMMU does not allow all
    /// of the access.
    pub fn write_volatile_to<F: Write>(
        &self,
        addr: GuestAddress,
        dst: &mut F,
        count: usize,
    ) -> Result<usize, GuestMemoryError> {
        let reach = self.reach(addr, count, Permissions::Read)?;
        let mut piece = vec![0; reach.min(PIECE)];
        let mut total = 0;
        while total < reach {
            let size = piece.len().min(reach - total);
            self.read_slice(&mut piece[..size], after(addr, total))?;
            write_all(dst, &piece[..size]).map_err(GuestMemoryError::IOError)?;
            total += size;
        }
        Ok(total)
    }

    /// Sends `count` bytes to a sink. If the memory ends after the first byte, the error says how many it took.
    pub fn write_all_volatile_to<F: Write>(
        &self,
        addr: GuestAddress,
        dst: &mut F,
        count: usize,
    ) -> Result<(), GuestMemoryError> {
        all_of(count, self.write_volatile_to(addr, dst, count)?)
    }

    fn receive<F: Read>(
        &self,
        addr: GuestAddress,
        src: &mut F,
        count: usize,
        until_full: bool,
    ) -> Result<usize, GuestMemoryError> {
        let reach = self.reach(addr, count, Permissions::Write)?;
        let mut piece = vec![0; reach.min(PIECE)];
        let mut total = 0;
        while total < reach {
            let size = piece.len().min(reach - total);
            let came = read_again(src, &mut piece[..size]).map_err(GuestMemoryError::IOError)?;
            self.write_slice(&piece[..came], after(addr, total))?;
            total += came;
            if came == 0 || (came < size && !until_full) {
                break;
            }
        }
        Ok(total)
    }

    // How many of these bytes an access reaches, or why it reaches none. Nothing moves.
    fn reach(&self, addr: GuestAddress, count: usize, access: Permissions) -> Result<usize, GuestMemoryError> {
        if count == 0 || self.check_range(addr, count, access) {
            return Ok(count);
        }
        match access {
            Permissions::Read => self.expect_read(addr, count)?,
            _ => self.expect_write(addr, count)?,
        }
        // The access reaches the bytes below the first that it does not, and each check of fewer holds.
        let (mut reached, mut not_reached) = (0, count);
        while not_reached - reached > 1 {
            let middle = reached + (not_reached - reached) / 2;
            if self.check_range(addr, middle, access) {
                reached = middle;
            } else {
                not_reached = middle;
            }
        }
        Ok(reached)
    }

    // Fails as a write of all these bytes does before it moves any: it is asked for from a source that gives nothing.
    fn expect_write(&self, addr: GuestAddress, count: usize) -> Result<(), GuestMemoryError> {
        let call = self.at(kind::READ_FROM, addr, count);
        answered(self.machine().call(&call, &[], &mut []))?;
        Ok(())
    }

    // Fails as a read of all these bytes does before it moves any.
    fn expect_read(&self, addr: GuestAddress, count: usize) -> Result<(), GuestMemoryError> {
        if !self.is_translated() {
            return self.expect_first(addr, &mut [0]);
        }
        // Which addresses are mapped is the same for a write, which is asked for by one call whatever the length.
        match self.expect_write(addr, count) {
            Err(error) if is_missing(&error) => return Err(error),
            _ => {}
        }
        self.expect_readable(addr, count)?;
        self.expect_first(addr, &mut [0])
    }

    // Fails if an IOMMU does not allow a read of all these bytes, each of which is mapped. A call that sends bytes has
    // to have room for them, so they are asked for in pieces.
    fn expect_readable(&self, addr: GuestAddress, count: usize) -> Result<(), GuestMemoryError> {
        let mut room = vec![0; count.min(PIECE)];
        let mut asked = 0;
        while asked < count {
            let size = room.len().min(count - asked);
            match self.expect_first(after(addr, asked), &mut room[..size]) {
                Err(error) if is_refusal(&error, Reason::AccessNotAllowed) => {
                    let iova_range = IovaRange {
                        base: addr,
                        length: count,
                    };
                    let reason = Reason::AccessNotAllowed;
                    return Err(GuestMemoryError::IommuError(IommuError::CannotResolve {
                        iova_range,
                        reason,
                    }));
                }
                Err(GuestMemoryError::Memory) => return Err(GuestMemoryError::Memory),
                _ => asked += size,
            }
        }
        Ok(())
    }

    // Fails as a read of that many bytes does before it moves any: it is asked for by a sink that fails at once.
    fn expect_first(&self, addr: GuestAddress, room: &mut [u8]) -> Result<(), GuestMemoryError> {
        let call = self.at(kind::WRITE_TO, addr, room.len());
        let answer = self.machine().call(&call, &sink_input(&[SinkStep::Fail]), room);
        if answer.code != code::IO_OTHER {
            answered(answer)?;
        }
        Ok(())
    }

    // Whether an IOMMU translates the addresses. If so its table refuses a message that is none, and nothing changes.
    fn is_translated(&self) -> bool {
        let call = self.at(kind::IOTLB_MESSAGE, GuestAddress(0), 0);
        let answer = self.machine().call(&call, &[0; PAYLOAD_LEN], &mut []);
        answer.code == code::MESSAGE_KIND
    }
}

// Whether an IOMMU refused the access for this reason.
fn is_refusal(error: &GuestMemoryError, wanted: Reason) -> bool {
    match error {
        GuestMemoryError::IommuError(IommuError::CannotResolve { reason, .. }) => *reason == wanted,
        _ => false,
    }
}

// Whether an IOMMU refused the access for a mapping that its table misses, or has no room for.
fn is_missing(error: &GuestMemoryError) -> bool {
    let is_too_small = matches!(error, GuestMemoryError::IommuError(IommuError::TableTooSmall { .. }));
    is_too_small || is_refusal(error, Reason::MissingMapping)
}

// The address a number of bytes further on.
fn after(addr: GuestAddress, total: usize) -> GuestAddress {
    GuestAddress(addr.0.wrapping_add(total as u64))
}

fn all_of(expected: usize, completed: usize) -> Result<(), GuestMemoryError> {
    if completed == expected {
        Ok(())
    } else {
        Err(GuestMemoryError::PartialBuffer { expected, completed })
    }
}

// One try of a source, made again if it is interrupted.
fn read_again<F: Read>(src: &mut F, buf: &mut [u8]) -> io::Result<usize> {
    for _ in 0..RETRIES {
        match src.read(buf) {
            Err(error) if error.kind() == ErrorKind::Interrupted => {}
            Ok(came) => return Ok(came.min(buf.len())),
            Err(error) => return Err(error),
        }
    }
    src.read(buf).map(|came| came.min(buf.len()))
}

fn write_all<F: Write>(dst: &mut F, mut bytes: &[u8]) -> io::Result<()> {
    while !bytes.is_empty() {
        match write_again(dst, bytes)? {
            0 => return Err(io::Error::from(ErrorKind::WriteZero)),
            took => bytes = &bytes[took.min(bytes.len())..],
        }
    }
    Ok(())
}

fn write_again<F: Write>(dst: &mut F, bytes: &[u8]) -> io::Result<usize> {
    for _ in 0..RETRIES {
        match dst.write(bytes) {
            Err(error) if error.kind() == ErrorKind::Interrupted => {}
            answer => return answer,
        }
    }
    dst.write(bytes)
}
