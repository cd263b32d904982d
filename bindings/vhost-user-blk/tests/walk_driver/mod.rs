//! A front end and a driver that were written from the protocol's text and the specification of virtio, beside a plain
//! model of the disk, of memory and of the log. Walks go through random states from a seed.
#![allow(dead_code)]

pub mod checks;
pub mod dirty;
pub mod iommu;
pub mod link;
pub mod memory;
pub mod request;
pub mod ring;
pub mod steps;
pub mod stream;
pub mod walk;

pub use crate::front_end::{Numbers, PAGE};
use std::time::Duration;

/// How long a walk waits for what has to come: `WALKS_PATIENCE` seconds.
pub fn patience() -> Duration {
    Duration::from_secs(number("WALKS_PATIENCE", 20))
}

/// A number of the environment.
pub fn number(name: &str, usual: u64) -> u64 {
    std::env::var(name).map_or(usual, |it| it.parse().expect("it is a number"))
}
