//! How a connection ends.

use crate::vhost_user::Refusal;
use std::error::Error;
use std::fmt;

/// Why a connection ended.
#[derive(Debug)]
pub enum Ended {
    /// The front end closed it.
    Gone,
    /// The program was asked to stop.
    HungUp,
    /// The front end broke the protocol, by a message of this number.
    Refused(u32, Refusal),
    /// What the front end asked for failed.
    Failed(&'static str, Box<dyn Error>),
    /// Guest memory went away.
    MemoryLost,
    /// A notification of the front end had to wait, which had it wait.
    MadeToWait,
}

impl fmt::Display for Ended {
    fn fmt(&self, f: &mut fmt::Formatter<'_>) -> fmt::Result {
        match self {
            Ended::Gone => f.write_str("the front end closed it"),
            Ended::HungUp => f.write_str("the program was asked to stop"),
            Ended::Refused(request, refusal) => write!(f, "message {request} breaks the protocol: {refusal}"),
            Ended::Failed(what, error) => write!(f, "{what}: {error}"),
            Ended::MemoryLost => f.write_str("guest memory disappeared"),
            Ended::MadeToWait => f.write_str("a full descriptor of the front end made the program wait"),
        }
    }
}

impl Error for Ended {}

impl Ended {
    /// Names what failed.
    pub fn failed<E: Into<Box<dyn Error>>>(what: &'static str) -> impl FnOnce(E) -> Ended {
        move |error| Ended::Failed(what, error.into())
    }
}
