//! What a program does for a [`Connection`](crate::connection::Connection).

use crate::at_once::Ticket;
use crate::back_end::{BackEnd, Part};
use crate::pieces::Pieces;
use std::io;
use std::os::fd::BorrowedFd;

/// What a descriptor says when it can be read.
#[derive(Clone, Copy, Debug, PartialEq, Eq)]
pub enum Event {
    /// A message came, or a part of one, or the end.
    Socket,
    /// The same on the back end's own channel.
    Channel,
    /// The driver of a ring notified: it is told once after each write, and what was written need not be read.
    Kick(u32),
}

/// What became of a part that began.
#[derive(Debug)]
pub enum Begun {
    /// It is served, or failed.
    Ended(Ticket, io::Result<()>),
    /// The connection has to be told once it [`ended`](crate::connection::Connection::ended).
    UnderWay,
}

/// What serves the requests of a connection, and watches its descriptors.
pub trait Device {
    /// Serves a part of a request, whose bytes are these pieces of guest memory, before it returns. If it fails, the
    /// request does.
    fn serve(&mut self, part: &Part<'_>, pieces: Pieces<'_>) -> io::Result<()>;

    /// Begins to serve a part, if many are [served at once](crate::connection::Connection::serve_at_once). This one
    /// serves it before it returns.
    fn begin(&mut self, part: &Part<'_>, pieces: Pieces<'_>, ticket: Ticket) -> Begun {
        Begun::Ended(ticket, self.serve(part, pieces))
    }

    /// Tells [`take`](crate::connection::Connection::take) what a descriptor says from now on.
    fn watch(&mut self, descriptor: BorrowedFd<'_>, event: Event) -> io::Result<()>;

    /// Watches a descriptor no more. Another process may have the same open file: it is not enough that it is closed.
    fn unwatch(&mut self, descriptor: BorrowedFd<'_>);

    /// A ring is started.
    fn started(&mut self, _back_end: &BackEnd, _ring: u32) {}

    /// A ring failed, and waits to be started again.
    fn broke(&mut self, _ring: u32) {}
}
