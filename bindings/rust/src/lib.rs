//! Guest memory for virtual machine monitors, by a machine that is proved in Rattle.
//!
//! A [`Machine`] is set up with blocks of host memory, regions, I/O tables and translators, and then makes layouts and
//! memories and accesses them. Its calls are a run of the machine's model, whatever they are: docs/BINDINGS.md of the
//! repository says what is proved, and what is trusted. [`Machine::shared_block`] makes a block whose bytes are shared
//! with a guest, and [`Machine::queue`] a virtqueue. [`block`] has the requests of a block device, and [`vhost_user`]
//! the messages of a front end that has such a device in another process.
//!
//! ```
//! use vm_memory_proved::{GuestAddress, Machine};
//!
//! let machine = Machine::new()?;
//! let block = machine.block(0x2000, 0x1000)?;
//! let region = machine.region(block, GuestAddress(0x1000))?;
//! let layout = machine.layout(&[region])?;
//! let memory = machine.memory(machine.plain(layout)?).unwrap();
//! memory.write_slice(&[1, 2, 3], GuestAddress(0x1ffe))?;
//! assert_eq!(memory.read_obj::<u16>(GuestAddress(0x1ffe))?, 0x0201);
//! assert_eq!(machine.harvest_block(block)?, [0, 1]);
//! # Ok::<(), Box<dyn std::error::Error>>(())
//! ```
#![deny(unsafe_code, unsafe_op_in_unsafe_fn)]
#![warn(missing_docs)]

mod at_once;
pub mod back_end;
pub mod block;
pub mod block_device;
pub mod connection;
mod descriptor;
mod device;
mod ended;
mod error;
#[allow(unsafe_code)]
mod ffi;
#[allow(unsafe_code)]
mod heap;
mod in_order;
#[allow(unsafe_code)]
mod incoming;
pub mod iotlb;
#[allow(unsafe_code)]
mod log;
#[allow(unsafe_code)]
mod lost;
mod machine;
#[allow(unsafe_code)]
mod mapping;
mod memory;
#[allow(unsafe_code)]
mod notify;
mod number;
mod parts;
#[allow(unsafe_code)]
mod pieces;
pub mod queue;
pub mod raw;
pub mod script;
mod shared;
mod stats;
mod stream;
#[allow(unsafe_code)]
mod system;
mod value;
pub mod vhost_user;

pub use error::{GuestMemoryError, GuestRegionCollectionError, IommuError, MachineError, Reason};
pub use lost::survive_lost_memory;
pub use machine::{IotlbFails, IovaRange, Machine, MappedRange, Miss, Permissions};
pub use memory::{GuestAddress, GuestMemory};
pub use notify::Watchdog;
pub use number::{BlockId, LayoutId, MemoryId, QueueId, RegionId, SpaceId, TableId, TranslatorId};
pub use pieces::{Pieces, Vector, Vectors};
pub use shared::{memfd, SharedBlock, SharedBlockError, SharedMemory};
pub use value::{AtomicAccess, ByteValued};
