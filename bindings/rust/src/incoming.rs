//! Messages on a Unix socket, with the descriptors that come with their bytes. Nothing here waits.

use crate::connection::Ended;
use crate::descriptor::Kind;
use crate::system;
use crate::vhost_user::{self, Refusal, MAX_DESCRIPTORS, MAX_MESSAGE};
use std::io;
use std::os::fd::{AsRawFd, BorrowedFd, FromRawFd, OwnedFd, RawFd};
use std::os::unix::net::UnixStream;

// What stands before the descriptors: how many bytes all have, the level, and the kind.
const HEAD: usize = 16;

// Room for the descriptors of one message.
const ROOM: usize = (HEAD + MAX_DESCRIPTORS * size_of::<RawFd>()) / size_of::<u64>();

/// Reads at most `bytes.len()` bytes, and adds the descriptors that came with them. 0 bytes are the end.
pub(crate) fn receive(socket: &UnixStream, bytes: &mut [u8], descriptors: &mut Vec<OwnedFd>) -> io::Result<usize> {
    let mut part = system::Vector {
        at: bytes.as_mut_ptr(),
        len: bytes.len(),
    };
    let mut control = [0_u64; ROOM];
    let mut message = system::Message::new(&mut part, &mut control);
    let flags = system::MSG_DONTWAIT | system::MSG_CMSG_CLOEXEC;
    // SAFETY: the declaration fits the function. The message has one part, which is `bytes`, and room beside it that is
    // as long as it says.
    let count = unsafe { system::recvmsg(socket.as_raw_fd(), &mut message, flags) };
    if count < 0 {
        return Err(io::Error::last_os_error());
    }
    let (flags, mut rest) = (message.flags, bytes_of(&control, message.control_len));
    while let Some((head, _)) = rest.split_first_chunk::<HEAD>() {
        let number = |at: usize| c_int_at(head, at);
        let len = usize::from_ne_bytes(*head.first_chunk().expect("it has 8 bytes")).clamp(HEAD, rest.len());
        if (number(8), number(12)) == (system::SOL_SOCKET, system::SCM_RIGHTS) {
            // SAFETY: the system has just opened these descriptors for this process, and nothing else has them.
            let all = rest[HEAD..len]
                .chunks_exact(size_of::<RawFd>())
                .map(|it| c_int_at(it, 0));
            descriptors.extend(all.map(|it| unsafe { OwnedFd::from_raw_fd(it) }));
        }
        rest = &rest[len.next_multiple_of(size_of::<u64>()).min(rest.len())..];
    }
    if flags & system::MSG_CTRUNC != 0 {
        let text = "more descriptors than there is room for";
        return Err(io::Error::new(io::ErrorKind::InvalidData, text));
    }
    Ok(count as usize)
}

fn bytes_of(words: &[u64], len: usize) -> &[u8] {
    // SAFETY: these are the bytes of the words.
    let bytes = unsafe { std::slice::from_raw_parts(words.as_ptr().cast(), size_of_val(words)) };
    &bytes[..len.min(bytes.len())]
}

fn c_int_at(bytes: &[u8], at: usize) -> i32 {
    i32::from_ne_bytes(*bytes[at..].first_chunk().expect("it has 4 bytes"))
}

// What goes beside the bytes of a message that has a descriptor.
fn beside(descriptor: BorrowedFd<'_>) -> [u64; 3] {
    // The level and the kind are one word, whose lower half comes first.
    let kind = system::SOL_SOCKET as u64 | (system::SCM_RIGHTS as u64) << 32;
    let len = HEAD + size_of::<RawFd>();
    [len as u64, kind, descriptor.as_raw_fd() as u64]
}

/// Sends all bytes, or fails: a front end reads the replies that it asks for. A descriptor goes with them.
pub(crate) fn send(socket: &UnixStream, bytes: &[u8], descriptor: Option<BorrowedFd<'_>>) -> io::Result<()> {
    let mut part = system::Vector {
        at: bytes.as_ptr().cast_mut(),
        len: bytes.len(),
    };
    let mut control = descriptor.map(beside);
    let control = control.as_mut().map_or(&mut [][..], |it| it);
    let message = system::Message::new(&mut part, control);
    let flags = system::MSG_DONTWAIT | system::MSG_NOSIGNAL;
    // SAFETY: the declaration fits the function, which reads the message: one part, which is `bytes`, and as much
    // beside it as it says.
    let count = unsafe { system::sendmsg(socket.as_raw_fd(), &message, flags) };
    match usize::try_from(count) {
        Ok(count) if count == bytes.len() => Ok(()),
        Ok(_) => Err(io::Error::new(
            io::ErrorKind::WouldBlock,
            "the front end reads no replies",
        )),
        Err(_) => Err(io::Error::last_os_error()),
    }
}

/// A message of a front end as it comes. It is kept until it is done.
pub(crate) struct Incoming {
    bytes: [u8; MAX_MESSAGE],
    len: usize,
    descriptors: Vec<OwnedFd>,
    // It was taken as a whole, and is under way.
    is_whole: bool,
    // Those of the whole message that nothing took.
    left: Vec<Option<OwnedFd>>,
}

impl Default for Incoming {
    fn default() -> Incoming {
        Incoming {
            bytes: [0; MAX_MESSAGE],
            len: 0,
            descriptors: Vec::new(),
            is_whole: false,
            left: Vec::new(),
        }
    }
}

impl Incoming {
    /// Takes what has come of a message, and returns whether it is whole.
    pub(crate) fn receive(&mut self, socket: &UnixStream) -> Result<bool, Ended> {
        loop {
            let wanted = vhost_user::wanted(self.bytes()).map_err(|refusal| self.refused(refusal))?;
            if wanted.bytes == 0 {
                self.left = self.descriptors.drain(..).map(Some).collect();
                self.is_whole = true;
                return Ok(true);
            }
            let part = &mut self.bytes[self.len..self.len + wanted.bytes];
            match receive(socket, part, &mut self.descriptors) {
                Ok(0) => return Err(Ended::Gone),
                Ok(count) => self.len += count,
                Err(error) if error.kind() == io::ErrorKind::WouldBlock => return self.hold().map(|()| false),
                Err(error) => return Err(Ended::failed("receiving")(error)),
            }
            if self.descriptors.len() > MAX_DESCRIPTORS {
                return Err(self.refused(Refusal::Descriptors));
            }
        }
    }

    // The rest of a message has not come. What came may not be the front end's own end, or hold it: as long as this
    // process has it, the connection does not end. A message with such a descriptor has a header alone, and comes as a
    // whole.
    fn hold(&self) -> Result<(), Ended> {
        for descriptor in &self.descriptors {
            if Kind::of(descriptor)
                .map_err(Ended::failed("a descriptor"))?
                .may_hold_others()
            {
                return Err(self.refused(Refusal::Descriptors));
            }
        }
        Ok(())
    }

    fn refused(&self, refusal: Refusal) -> Ended {
        Ended::Refused(self.request(), refusal)
    }

    /// What has come of the message.
    pub(crate) fn bytes(&self) -> &[u8] {
        &self.bytes[..self.len]
    }

    /// The number of its request.
    pub(crate) fn request(&self) -> u32 {
        u32::from_le_bytes(*self.bytes.first_chunk().expect("a message has a header"))
    }

    /// How many queues the region of requests in flight has that a whole SET_INFLIGHT_FD describes.
    pub(crate) fn inflight_queues(&self) -> u32 {
        // They follow the header, and a size and an offset of 8 bytes.
        let bytes = self.bytes().get(28..30).unwrap_or(&[0; 2]);
        u32::from(u16::from_le_bytes([bytes[0], bytes[1]]))
    }

    /// How many descriptors came with the whole message.
    pub(crate) fn descriptors(&self) -> usize {
        self.left.len()
    }

    /// Takes the descriptor of a number that came with the whole message, once.
    pub(crate) fn take_descriptor(&mut self, number: u32) -> io::Result<OwnedFd> {
        let place = self.left.get_mut(number as usize);
        place.and_then(Option::take).ok_or(io::ErrorKind::NotFound.into())
    }

    /// No message is under way. If one was, what nothing took of it is closed, and the next one can come. A part of the
    /// next one may have come already.
    pub(crate) fn clear(&mut self) {
        if self.is_whole {
            self.is_whole = false;
            self.len = 0;
            self.left.clear();
        }
    }
}
