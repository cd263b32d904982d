//! A slow back end, a driver with random rings, and a front end with random messages.
#![allow(dead_code)]

pub mod acts;
pub mod driver;
pub mod memory;
pub mod messages;
pub mod model;
pub mod queue;
pub mod rings;
pub mod space;
pub mod table;
pub mod watch;
pub mod world;
