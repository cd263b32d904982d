//! The calls of the static library.

use crate::back_end::raw::{Action as RawAction, Counts};
use crate::back_end::{Disk, PartEnd, Piece, Room, TableCounts};
use crate::mapping::Mapping;
use crate::raw::{code, Answer, Call, Miss};
use crate::vhost_user::raw::{Negotiated, Request, Vring};
use crate::vhost_user::{LogPages, Offer, Region, Wanted};
use std::cell::{Cell, RefCell};
use std::ptr::{null_mut, NonNull};

// The handle of a session or a connection: where it lies.
#[repr(C)]
#[derive(Clone, Copy)]
struct Handle {
    at: *mut u8,
}

// Bytes that become a block's.
#[repr(C)]
struct Place {
    at: NonNull<u8>,
    size: usize,
}

// A `&mut [u8]` crosses as a pointer and then a length, and the allocator, which takes no bytes, not at all.
unsafe extern "C" {
    fn vmm_open(session: *mut Handle) -> u32;

    fn vmm_call(
        session: *mut Handle,
        call: *const Call,
        input: *const u8,
        input_size: usize,
        output: *mut u8,
        output_size: usize,
        answer: *mut Answer,
        miss: *mut Miss,
    );

    fn vmm_lend(session: *mut Handle, place: Place, page_size: usize, answer: *mut Answer);

    fn vmm_give_back(session: *mut Handle, block: usize) -> u32;

    fn vmm_forget_regions(session: *mut Handle);

    fn vmm_close(session: *mut Handle);

    fn vmm_vhost_open(connection: *mut Handle, offer: *const Offer, config: *const u8, config_size: usize) -> u32;

    fn vmm_vhost_wanted(start: *const u8, start_size: usize, wanted: *mut Wanted) -> u32;

    fn vmm_vhost_handle(
        connection: *mut Handle,
        message: *const u8,
        message_size: usize,
        descriptors: usize,
        request: *mut Request,
    ) -> u32;

    fn vmm_vhost_reply(
        connection: *mut Handle,
        message: *const u8,
        message_size: usize,
        output: *mut u8,
        output_size: usize,
    ) -> usize;

    fn vmm_vhost_refuse(
        connection: *mut Handle,
        message: *const u8,
        message_size: usize,
        output: *mut u8,
        output_size: usize,
    ) -> usize;

    fn vmm_vhost_change_config(connection: *mut Handle, offset: u32, bytes: *const u8, bytes_size: usize) -> u32;

    fn vmm_vhost_stop(connection: *mut Handle, index: u32, base: u32) -> u32;

    fn vmm_vhost_running(connection: *mut Handle, index: u32, vring: *mut Vring) -> u32;

    fn vmm_vhost_region(connection: *mut Handle, number: usize, region: *mut Region) -> u32;

    fn vmm_vhost_logged(connection: *mut Handle, address: u64, size: u64, pages: *mut LogPages) -> u32;

    fn vmm_vhost_miss(iova: u64, access: u32, output: *mut u8, output_size: usize) -> usize;

    fn vmm_vhost_access_fail(iova: u64, access: u32, output: *mut u8, output_size: usize) -> usize;

    fn vmm_vhost_config_change(output: *mut u8, output_size: usize) -> usize;

    fn vmm_vhost_answered(message: *const u8, message_size: usize, value: *mut u64) -> u32;

    fn vmm_vhost_state(connection: *mut Handle, state: *mut Negotiated);

    fn vmm_vhost_config(connection: *mut Handle, output: *mut u8, output_size: usize) -> usize;

    fn vmm_vhost_close(connection: *mut Handle);

    fn vmm_backend_open(
        back_end: *mut Handle,
        offer: *const Offer,
        config: *const u8,
        config_size: usize,
        disk: *const Disk,
    ) -> u32;

    fn vmm_backend_message(back_end: *mut Handle, message: *const u8, message_size: usize, descriptors: usize) -> u32;

    fn vmm_backend_mapped(back_end: *mut Handle, place: Place) -> u32;

    fn vmm_backend_track(back_end: *mut Handle, place: Place);

    fn vmm_backend_done(back_end: *mut Handle);

    fn vmm_backend_failed(back_end: *mut Handle);

    fn vmm_backend_answered(back_end: *mut Handle, message: *const u8, message_size: usize) -> u32;

    fn vmm_backend_channel_lost(back_end: *mut Handle);

    fn vmm_backend_kick(back_end: *mut Handle, ring: u32);

    fn vmm_backend_sent(back_end: *mut Handle, bytes: usize);

    fn vmm_backend_resize(back_end: *mut Handle, sectors: u64);

    fn vmm_backend_hang_up(back_end: *mut Handle);

    fn vmm_backend_run(
        back_end: *mut Handle,
        ends: *const PartEnd,
        ends_count: usize,
        turns: u32,
        actions: *mut RawAction,
        actions_count: usize,
        pieces: *mut Piece,
        pieces_count: usize,
        output: *mut u8,
        output_size: usize,
        counts: *mut Counts,
    );

    fn vmm_backend_state(back_end: *mut Handle, state: *mut Negotiated);

    fn vmm_backend_table(back_end: *mut Handle, counts: *mut TableCounts);

    fn vmm_backend_close(back_end: *mut Handle);
}

// Of the C library, as Linux on x86-64 has it.
unsafe extern "C" {
    pub(crate) fn malloc(size: usize) -> *mut u8;

    pub(crate) fn realloc(at: *mut u8, size: usize) -> *mut u8;

    pub(crate) fn free(at: *mut u8);
}

/// An open session. It is closed when it is dropped.
pub(crate) struct Session {
    handle: Cell<Handle>,
    // What the last call that a table refused missed first.
    miss: Cell<Miss>,
    // The numbers of its shared blocks, and their bytes. It is closed before they are unmapped, since fields are
    // dropped last.
    mappings: RefCell<Vec<(usize, Mapping)>>,
}

// SAFETY: the session owns all that its handle points to, shares none of it, and is tied to no thread: the library's
// type is `Send` too. A `&Session` stays on one thread, as `Cell` is not `Sync`.
unsafe impl Send for Session {}

impl Session {
    /// Opens a session, or returns `None` if its allocation fails.
    pub(crate) fn open() -> Option<Session> {
        let mut handle = Handle { at: null_mut() };
        // SAFETY: the declaration fits the library's function, and a handle that is null is a closed one, as it asks.
        let code = unsafe { vmm_open(&mut handle) };
        (code == 0).then(|| Session {
            handle: Cell::new(handle),
            miss: Cell::default(),
            mappings: RefCell::default(),
        })
    }

    /// Makes a call. The answer is read where the library puts it, as a copy of it would wait for these stores.
    #[inline]
    pub(crate) fn call(&self, call: &Call, input: &[u8], output: &mut [u8], answer: &mut Answer) {
        // SAFETY: the declaration fits the library's function. The handle is that of an open session, as each call
        // leaves it, and no other call of it runs: the session is on this thread alone, and the library calls nothing
        // back. So nothing else reads or writes what the cell has while the library does. The other pointers and the
        // lengths are those of a `&Call`, a `&[u8]`, a `&mut [u8]` and a `&mut Answer`, and all are borrowed for the
        // call; that of the miss is the other cell's, which the library alone writes meanwhile.
        unsafe {
            vmm_call(
                self.handle.as_ptr(),
                call,
                input.as_ptr(),
                input.len(),
                output.as_mut_ptr(),
                output.len(),
                answer,
                self.miss.as_ptr(),
            );
        }
    }

    /// Makes a block of the bytes of a mapping, which the session keeps then, and answers as to a call that makes one.
    pub(crate) fn lend(&self, mapping: Mapping, page_size: usize) -> Answer {
        let mut answer = Answer::default();
        let place = Place {
            at: mapping.bytes(),
            size: mapping.len(),
        };
        // The library takes no place of other lengths.
        if place.size == 0 || place.size > isize::MAX as usize {
            answer.code = code::INVALID_SIZE;
            return answer;
        }
        let mut mappings = self.mappings.borrow_mut();
        mappings.push((usize::MAX, mapping));
        // SAFETY: the declaration fits the library's function, the handle is that of an open session, of which no other
        // call runs, and the place is not null and has as many bytes as it says. They are the session's: nothing else
        // in this process has a reference to them, and they are unmapped after the session is closed, or not its bytes.
        unsafe { vmm_lend(self.handle.as_ptr(), place, page_size, &mut answer) };
        if answer.code != code::DONE {
            mappings.pop();
        } else if let Some((number, _)) = mappings.last_mut() {
            *number = answer.value as usize;
        }
        answer
    }

    /// Gives a block back, and the mapping of its bytes if it is a shared one, or a code.
    pub(crate) fn give_back(&self, block: usize) -> Result<Option<Mapping>, u32> {
        // SAFETY: the declaration fits the library's function, and the handle is that of an open session, of which no
        // other call runs.
        let code = unsafe { vmm_give_back(self.handle.as_ptr(), block) };
        done(code, ())?;
        let mut mappings = self.mappings.borrow_mut();
        let place = mappings.iter().position(|(number, _)| *number == block);
        Ok(place.map(|place| mappings.remove(place).1))
    }

    /// Forgets all regions, layouts and memories.
    pub(crate) fn forget_regions(&self) {
        // SAFETY: as `give_back`.
        unsafe { vmm_forget_regions(self.handle.as_ptr()) }
    }

    /// Takes what the last call that a table refused missed first.
    pub(crate) fn take_miss(&self) -> Miss {
        self.miss.take()
    }
}

impl Drop for Session {
    fn drop(&mut self) {
        // SAFETY: the declaration fits the library's function, the handle is that of an open session, and this is its
        // last use.
        unsafe { vmm_close(self.handle.get_mut()) }
    }
}

/// What is still to come of a message that begins so, or a code.
pub(crate) fn vhost_wanted(start: &[u8]) -> Result<Wanted, u32> {
    let mut wanted = Wanted::default();
    // SAFETY: the declaration fits the library's function, and the pointers and the length are those of a `&[u8]` and a
    // `&mut Wanted`, which are borrowed for the call.
    let code = unsafe { vmm_vhost_wanted(start.as_ptr(), start.len(), &mut wanted) };
    done(code, wanted)
}

/// Puts the message of a MISS to the front of the output, and returns how many bytes it has.
pub(crate) fn vhost_miss(iova: u64, access: u32, output: &mut [u8]) -> usize {
    // SAFETY: the declaration fits the library's function, and the pointer and the length are those of a `&mut [u8]`,
    // which is borrowed for the call.
    unsafe { vmm_vhost_miss(iova, access, output.as_mut_ptr(), output.len()) }
}

/// Puts the message of an ACCESS_FAIL to the front of the output, and returns how many bytes it has.
pub(crate) fn vhost_access_fail(iova: u64, access: u32, output: &mut [u8]) -> usize {
    // SAFETY: as `vhost_miss`.
    unsafe { vmm_vhost_access_fail(iova, access, output.as_mut_ptr(), output.len()) }
}

/// Puts the message that the configuration changed to the front of the output, and returns how many bytes it has.
pub(crate) fn vhost_config_change(output: &mut [u8]) -> usize {
    // SAFETY: as `vhost_miss`.
    unsafe { vmm_vhost_config_change(output.as_mut_ptr(), output.len()) }
}

/// The number in a reply that came on the back end's own channel, or a code.
pub(crate) fn vhost_answered(message: &[u8]) -> Result<u64, u32> {
    let mut value = 0;
    // SAFETY: the declaration fits the library's function, and the pointers and the length are those of a `&[u8]` and a
    // `&mut u64`, which are borrowed for the call.
    let code = unsafe { vmm_vhost_answered(message.as_ptr(), message.len(), &mut value) };
    done(code, value)
}

// What a call gave, if it was done.
fn done<T>(code: u32, given: T) -> Result<T, u32> {
    if code == 0 {
        Ok(given)
    } else {
        Err(code)
    }
}

/// An open connection of a back end. It is closed when it is dropped.
///
/// In each call the declaration fits the library's function, and the handle is that of an open connection, as each call
/// leaves it. No other call of it runs: only this thread has the connection, as it is not `Sync`, and the library calls
/// nothing back. Other pointers and lengths are those of references that are borrowed for the call.
pub(crate) struct Connection {
    handle: Cell<Handle>,
}

// SAFETY: the connection owns all that its handle points to, shares none of it, and is tied to no thread: the library's
// type is `Send` too.
unsafe impl Send for Connection {}

impl Connection {
    /// Opens a connection, or says why not by a code.
    pub(crate) fn open(offer: &Offer, config: &[u8]) -> Result<Connection, u32> {
        let mut handle = Handle { at: null_mut() };
        // SAFETY: the declaration fits the library's function, a handle that is null is a closed one, as it asks, and
        // the other pointers and the length are those of a `&Offer` and a `&[u8]`.
        let code = unsafe { vmm_vhost_open(&mut handle, offer, config.as_ptr(), config.len()) };
        done(code, ())?;
        Ok(Connection {
            handle: Cell::new(handle),
        })
    }

    pub(crate) fn handle(&self, message: &[u8], descriptors: usize) -> Result<Request, u32> {
        let (at, mut request) = (self.handle.as_ptr(), Request::default());
        // SAFETY: see `Connection`.
        let code = unsafe { vmm_vhost_handle(at, message.as_ptr(), message.len(), descriptors, &mut request) };
        done(code, request)
    }

    pub(crate) fn reply(&self, message: &[u8], output: &mut [u8]) -> usize {
        let at = self.handle.as_ptr();
        // SAFETY: see `Connection`.
        unsafe { vmm_vhost_reply(at, message.as_ptr(), message.len(), output.as_mut_ptr(), output.len()) }
    }

    pub(crate) fn refuse(&self, message: &[u8], output: &mut [u8]) -> usize {
        let at = self.handle.as_ptr();
        // SAFETY: see `Connection`.
        unsafe { vmm_vhost_refuse(at, message.as_ptr(), message.len(), output.as_mut_ptr(), output.len()) }
    }

    pub(crate) fn change_config(&self, offset: u32, bytes: &[u8]) -> Result<(), u32> {
        // SAFETY: see `Connection`.
        let code = unsafe { vmm_vhost_change_config(self.handle.as_ptr(), offset, bytes.as_ptr(), bytes.len()) };
        done(code, ())
    }

    pub(crate) fn stop(&self, index: u32, base: u32) -> Result<(), u32> {
        // SAFETY: see `Connection`.
        let code = unsafe { vmm_vhost_stop(self.handle.as_ptr(), index, base) };
        done(code, ())
    }

    pub(crate) fn running(&self, index: u32) -> Result<Vring, u32> {
        let mut vring = Vring::default();
        // SAFETY: see `Connection`.
        let code = unsafe { vmm_vhost_running(self.handle.as_ptr(), index, &mut vring) };
        done(code, vring)
    }

    pub(crate) fn region(&self, number: usize) -> Result<Region, u32> {
        let mut region = Region::default();
        // SAFETY: see `Connection`.
        let code = unsafe { vmm_vhost_region(self.handle.as_ptr(), number, &mut region) };
        done(code, region)
    }

    pub(crate) fn logged(&self, address: u64, size: u64) -> Result<LogPages, u32> {
        let mut pages = LogPages::default();
        // SAFETY: see `Connection`.
        let code = unsafe { vmm_vhost_logged(self.handle.as_ptr(), address, size, &mut pages) };
        done(code, pages)
    }

    pub(crate) fn state(&self) -> Negotiated {
        let mut state = Negotiated::default();
        // SAFETY: see `Connection`.
        unsafe { vmm_vhost_state(self.handle.as_ptr(), &mut state) };
        state
    }

    pub(crate) fn config(&self, output: &mut [u8]) -> usize {
        // SAFETY: see `Connection`.
        unsafe { vmm_vhost_config(self.handle.as_ptr(), output.as_mut_ptr(), output.len()) }
    }
}

impl Drop for Connection {
    fn drop(&mut self) {
        // SAFETY: see `Connection`. This is the handle's last use.
        unsafe { vmm_vhost_close(self.handle.get_mut()) }
    }
}

/// An open back end. It is closed when it is dropped.
///
/// In each call the declaration fits the library's function, and the handle is that of an open back end, as each call
/// leaves it. No other call of it runs: only this thread has it, as it is not `Sync`, and the library calls nothing
/// back. Other pointers and lengths are those of references that are borrowed for the call.
pub(crate) struct Device {
    handle: Cell<Handle>,
}

// SAFETY: the back end owns all that its handle points to, shares none of it, and is tied to no thread: the library's
// type is `Send` too.
unsafe impl Send for Device {}

impl Device {
    /// Opens a back end, or says why not by a code.
    pub(crate) fn open(offer: &Offer, config: &[u8], disk: &Disk) -> Result<Device, u32> {
        let mut handle = Handle { at: null_mut() };
        // SAFETY: the declaration fits the library's function, a handle that is null is a closed one, as it asks, and
        // the other pointers and the length are those of references.
        let code = unsafe { vmm_backend_open(&mut handle, offer, config.as_ptr(), config.len(), disk) };
        done(code, ())?;
        Ok(Device {
            handle: Cell::new(handle),
        })
    }

    pub(crate) fn message(&mut self, message: &[u8], descriptors: usize) -> u32 {
        // SAFETY: see `Device`.
        unsafe { vmm_backend_message(self.handle.as_ptr(), message.as_ptr(), message.len(), descriptors) }
    }

    /// Lends the bytes of a mapping. If that is refused they are the caller's again. Else the library has them until a
    /// run asks for all regions to be unmapped, or until this is dropped.
    pub(crate) fn mapped(&mut self, mapping: &Mapping) -> u32 {
        let place = Place {
            at: mapping.bytes(),
            size: mapping.len(),
        };
        // SAFETY: see `Device`. The place is not null, and has as many bytes as it says, at least one and no more than
        // an `isize` counts. Nothing in this process has a reference to them, and they stay mapped as long as the
        // library has them: `BackEnd` keeps the mapping.
        unsafe { vmm_backend_mapped(self.handle.as_ptr(), place) }
    }

    /// Lends the bytes of a mapping, which the library has until it is lent others or this is dropped.
    pub(crate) fn track(&mut self, mapping: &Mapping) {
        let place = Place {
            at: mapping.bytes(),
            size: mapping.len(),
        };
        // SAFETY: as `mapped`.
        unsafe { vmm_backend_track(self.handle.as_ptr(), place) }
    }

    pub(crate) fn done(&mut self) {
        // SAFETY: see `Device`.
        unsafe { vmm_backend_done(self.handle.as_ptr()) }
    }

    pub(crate) fn failed(&mut self) {
        // SAFETY: see `Device`.
        unsafe { vmm_backend_failed(self.handle.as_ptr()) }
    }

    pub(crate) fn answered(&mut self, message: &[u8]) -> u32 {
        // SAFETY: see `Device`.
        unsafe { vmm_backend_answered(self.handle.as_ptr(), message.as_ptr(), message.len()) }
    }

    pub(crate) fn channel_lost(&mut self) {
        // SAFETY: see `Device`.
        unsafe { vmm_backend_channel_lost(self.handle.as_ptr()) }
    }

    pub(crate) fn kick(&mut self, ring: u32) {
        // SAFETY: see `Device`.
        unsafe { vmm_backend_kick(self.handle.as_ptr(), ring) }
    }

    pub(crate) fn sent(&mut self, bytes: usize) {
        // SAFETY: see `Device`.
        unsafe { vmm_backend_sent(self.handle.as_ptr(), bytes) }
    }

    pub(crate) fn resize(&mut self, sectors: u64) {
        // SAFETY: see `Device`.
        unsafe { vmm_backend_resize(self.handle.as_ptr(), sectors) }
    }

    pub(crate) fn hang_up(&mut self) {
        // SAFETY: see `Device`.
        unsafe { vmm_backend_hang_up(self.handle.as_ptr()) }
    }

    pub(crate) fn state(&self) -> Negotiated {
        let mut state = Negotiated::default();
        // SAFETY: see `Device`.
        unsafe { vmm_backend_state(self.handle.as_ptr(), &mut state) };
        state
    }

    pub(crate) fn table(&self) -> TableCounts {
        let mut counts = TableCounts::default();
        // SAFETY: see `Device`.
        unsafe { vmm_backend_table(self.handle.as_ptr(), &mut counts) };
        counts
    }

    #[inline]
    pub(crate) fn run(&mut self, ends: &[PartEnd], turns: u32, room: &mut Room) {
        let Room {
            actions,
            pieces,
            output,
            counts,
        } = room;
        // SAFETY: see `Device`.
        unsafe {
            vmm_backend_run(
                self.handle.as_ptr(),
                ends.as_ptr(),
                ends.len(),
                turns,
                actions.as_mut_ptr(),
                actions.len(),
                pieces.as_mut_ptr(),
                pieces.len(),
                output.as_mut_ptr(),
                output.len(),
                counts,
            );
        }
    }
}

impl Drop for Device {
    fn drop(&mut self) {
        // SAFETY: see `Device`. This is the handle's last use.
        unsafe { vmm_backend_close(self.handle.get_mut()) }
    }
}
