//! Parts of requests that are served, one after another or many at once.

use crate::at_once::{AtOnce, Ticket};
use crate::back_end::{Part, PartEnd, Piece};
use crate::in_order::InOrder;

pub(crate) enum Parts {
    InOrder(InOrder),
    AtOnce(AtOnce),
}

impl Parts {
    /// Nothing is served of so many rings. Each part ends before the next one begins.
    pub(crate) fn in_order(rings: usize) -> Parts {
        Parts::InOrder(InOrder::new(rings))
    }

    /// The same, and many are under way at once.
    pub(crate) fn at_once(rings: usize) -> Parts {
        Parts::AtOnce(AtOnce::new(rings))
    }

    /// No ring has a turn any more.
    pub(crate) fn close(&mut self) {
        if let Parts::AtOnce(parts) = self {
            parts.close();
        }
    }

    /// What the next run is told: the ends of parts, and how many turns rings may take.
    #[inline]
    pub(crate) fn told(&self) -> (&[PartEnd], u32) {
        match self {
            Parts::InOrder(order) => order.told(),
            Parts::AtOnce(parts) => parts.told(),
        }
    }

    /// A run took so many ends, and rings had their turns or not.
    #[inline]
    pub(crate) fn taken(&mut self, ends: usize, had_turns: bool) {
        match self {
            Parts::InOrder(order) => order.taken(ends),
            Parts::AtOnce(parts) => parts.taken(ends, had_turns),
        }
    }

    /// Whether ends wait for a run.
    pub(crate) fn has_ends(&self) -> bool {
        match self {
            Parts::InOrder(order) => order.has_ends(),
            Parts::AtOnce(parts) => parts.has_ends(),
        }
    }

    /// Whether parts wait for the end of others.
    pub(crate) fn are_waiting(&self) -> bool {
        matches!(self, Parts::InOrder(order) if order.are_waiting())
    }

    /// Whether the turn of a part has come. It is kept if not.
    #[inline]
    pub(crate) fn take(&mut self, part: &Part<'_>) -> bool {
        match self {
            Parts::InOrder(order) => order.take(part),
            Parts::AtOnce(_) => true,
        }
    }

    /// The actions of a run are over.
    #[inline]
    pub(crate) fn end_run(&mut self) {
        match self {
            Parts::InOrder(order) => order.end_run(),
            Parts::AtOnce(parts) => parts.end_run(),
        }
    }

    /// A part that was kept, with its pieces, whose turn has come.
    #[inline]
    pub(crate) fn take_kept(&mut self) -> Option<(Part<'static>, Vec<Piece>)> {
        match self {
            Parts::InOrder(order) => order.take_kept(),
            Parts::AtOnce(_) => None,
        }
    }

    /// What a ticket stands for ended. Returns whether its request failed by that.
    pub(crate) fn end(&mut self, ticket: &Ticket, is_served: bool) -> bool {
        match self {
            // Nothing had one.
            Parts::InOrder(_) => false,
            Parts::AtOnce(parts) => parts.end(ticket, is_served),
        }
    }
}
