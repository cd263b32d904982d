//! Calls and answers as plain numbers, as they cross to the library. [`Machine::call`](crate::Machine::call) makes
//! them.

/// A call: its kind, and the fields that its kind names.
#[repr(C)]
#[derive(Clone, Copy, Debug, Default, PartialEq, Eq)]
#[allow(missing_docs)]
pub struct Call {
    pub kind: u32,
    pub width: u32,
    pub access: u32,
    pub first: usize,
    pub second: usize,
    pub third: usize,
    pub address: u64,
    pub target: u64,
    pub length: usize,
    pub other_length: usize,
    pub value: u64,
}

/// An answer: 0 or why the call was refused, and up to three numbers.
#[repr(C)]
#[derive(Clone, Copy, Debug, Default, PartialEq, Eq)]
#[allow(missing_docs)]
pub struct Answer {
    pub code: u32,
    pub count: usize,
    pub value: u64,
    pub address: u64,
}

// What a call that a table refused missed first. The access is 0 if there was no memory to look it up.
#[repr(C)]
#[derive(Clone, Copy, Default)]
pub(crate) struct Miss {
    pub(crate) access: u32,
    pub(crate) address: u64,
    pub(crate) length: usize,
}

/// What is called, in the order of the lines of a script, and then what no script has a line for.
///
/// These are the rows of bindings/commands.txt.
#[allow(missing_docs)]
pub mod kind {
    pub const BLOCK: u32 = 0;
    pub const SPACE: u32 = 1;
    pub const TABLE: u32 = 2;
    pub const LIMITED_TABLE: u32 = 3;
    pub const REGION: u32 = 4;
    pub const TRANSLATOR: u32 = 5;
    pub const LAYOUT: u32 = 6;
    pub const INSERT: u32 = 7;
    pub const REMOVE: u32 = 8;
    pub const PLAIN: u32 = 9;
    pub const MEMORY: u32 = 10;
    pub const REPLACE: u32 = 11;
    pub const ENABLE: u32 = 12;
    pub const READ: u32 = 13;
    pub const WRITE: u32 = 14;
    pub const READ_SLICE: u32 = 15;
    pub const WRITE_SLICE: u32 = 16;
    pub const STORE: u32 = 17;
    pub const LOAD: u32 = 18;
    pub const READ_FROM: u32 = 19;
    pub const READ_EXACT_FROM: u32 = 20;
    pub const WRITE_TO: u32 = 21;
    pub const WRITE_ALL_TO: u32 = 22;
    pub const CHECK_RANGE: u32 = 23;
    pub const COPY: u32 = 24;
    pub const SET: u32 = 25;
    pub const INVALIDATE: u32 = 26;
    pub const INVALIDATE_ALL: u32 = 27;
    pub const LOOKUP: u32 = 28;
    pub const DIRTY_BLOCK: u32 = 29;
    pub const DIRTY_SPACE: u32 = 30;
    pub const HARVEST_BLOCK: u32 = 31;
    pub const HARVEST_SPACE: u32 = 32;
    pub const MARK_BLOCK: u32 = 33;
    pub const MARK_REACHED: u32 = 34;
    pub const QUEUE: u32 = 35;
    pub const SET_QUEUE: u32 = 36;
    pub const RESET_QUEUE: u32 = 37;
    pub const QUEUE_STATE: u32 = 38;
    pub const FORGET: u32 = 39;
    pub const QUEUE_IS_VALID: u32 = 40;
    pub const AVAIL_IDX: u32 = 41;
    pub const USED_IDX: u32 = 42;
    pub const POP: u32 = 43;
    pub const READ_CHAIN: u32 = 44;
    pub const WRITE_CHAIN: u32 = 45;
    pub const ADD_USED: u32 = 46;
    pub const NEEDS_NOTIFICATION: u32 = 47;
    pub const ENABLE_NOTIFICATION: u32 = 48;
    pub const DISABLE_NOTIFICATION: u32 = 49;
    pub const BEGIN_REQUEST: u32 = 50;
    pub const FINISH_REQUEST: u32 = 51;
    pub const IOTLB_MESSAGE: u32 = 52;
    pub const COMPLETE_CHAIN: u32 = 53;
    pub const PACKED_QUEUE: u32 = 54;
    pub const LIST_SEGMENTS: u32 = 55;
}

/// The parts of a queue that `SET_QUEUE` sets.
#[allow(missing_docs)]
pub mod part {
    pub const SIZE: usize = 0;
    pub const DESC_TABLE: usize = 1;
    pub const AVAIL_RING: usize = 2;
    pub const USED_RING: usize = 3;
    pub const READY: usize = 4;
    pub const EVENT_IDX: usize = 5;
    pub const NEXT_AVAIL: usize = 6;
    pub const NEXT_USED: usize = 7;
    pub const VRING_BASE: usize = 8;
}

/// What `BEGIN_REQUEST` returns: what a request asks a block device for.
#[allow(missing_docs)]
pub mod request {
    pub const READ: u64 = 0;
    pub const WRITE: u64 = 1;
    pub const WRITE_STABLE: u64 = 2;
    pub const FLUSH: u64 = 4;
    pub const GET_ID: u64 = 8;
    pub const REFUSED: u64 = 16;
    pub const UNSERVED: u64 = 17;
}

/// Why a call was refused, or `DONE`.
#[allow(missing_docs)]
pub mod code {
    pub const DONE: u32 = 0;
    pub const NO_SUCH: u32 = 1;
    pub const BAD_RANGE: u32 = 2;
    pub const MEMORY: u32 = 3;
    pub const FAILS: u32 = 4;
    pub const INVALID_SIZE: u32 = 5;
    pub const INVALID_REGION: u32 = 6;
    pub const IN_USE: u32 = 7;
    pub const BAD_CALL: u32 = 16;
    pub const SHORT: u32 = 18;
    pub const NO_CHAIN: u32 = 19;
    pub const IN_FLIGHT: u32 = 20;
    pub const TOO_MANY: u32 = 21;
    pub const NOT_IN_FLIGHT: u32 = 22;
    pub const INVALID_GUEST_ADDRESS: u32 = 32;
    pub const IO_INTERRUPTED: u32 = 33;
    pub const IO_WRITE_ZERO: u32 = 34;
    pub const IO_UNEXPECTED_EOF: u32 = 35;
    pub const IO_OTHER: u32 = 36;
    pub const PARTIAL_BUFFER: u32 = 37;
    pub const INVALID_BACKEND_ADDRESS: u32 = 38;
    pub const HOST_ADDRESS_NOT_AVAILABLE: u32 = 39;
    pub const CALLBACK_OUT_OF_RANGE: u32 = 40;
    pub const GUEST_ADDRESS_OVERFLOW: u32 = 41;
    pub const IOMMU_MISSING: u32 = 42;
    pub const IOMMU_NOT_ALLOWED: u32 = 43;
    pub const IOMMU_NOT_CONFIGURED: u32 = 44;
    pub const IOMMU_FRAGMENTED: u32 = 45;
    pub const MISCONFIGURED_MISSING: u32 = 46;
    pub const MISCONFIGURED_NOT_ALLOWED: u32 = 47;
    pub const MISCONFIGURED_NOT_CONFIGURED: u32 = 48;
    pub const IOMMU_MEMORY: u32 = 49;
    pub const NO_MEMORY_REGION: u32 = 50;
    pub const MEMORY_REGION_OVERLAP: u32 = 51;
    pub const UNSORTED_MEMORY_REGIONS: u32 = 52;
    pub const IOTLB_TOO_SMALL: u32 = 53;
    pub const NO_IOTLB: u32 = 54;
    pub const MESSAGE_KIND: u32 = 57;
    pub const MESSAGE_EMPTY_RANGE: u32 = 58;
    pub const MESSAGE_RANGE: u32 = 59;
    pub const MESSAGE_PERMISSIONS: u32 = 60;
    pub const MESSAGE_USER_ADDRESS: u32 = 61;
    pub const INVALID_MAX_SIZE: u32 = 70;
    pub const INVALID_QUEUE_SIZE: u32 = 71;
    pub const INVALID_DESC_TABLE_ALIGN: u32 = 72;
    pub const INVALID_AVAIL_RING_ALIGN: u32 = 73;
    pub const INVALID_USED_RING_ALIGN: u32 = 74;
    pub const QUEUE_NOT_READY: u32 = 75;
    pub const ADDRESS_OVERFLOW: u32 = 76;
    pub const INVALID_AVAIL_RING_INDEX: u32 = 77;
    pub const INVALID_DESCRIPTOR_INDEX: u32 = 78;
    pub const DESCRIPTOR_LOOP: u32 = 79;
    pub const INDIRECT_WITH_NEXT: u32 = 80;
    pub const NESTED_INDIRECT: u32 = 81;
    pub const INVALID_INDIRECT_TABLE: u32 = 82;
    pub const CHAIN_ORDER: u32 = 83;
    pub const CHAIN_TOO_LONG: u32 = 84;
    pub const CHAIN_RANGE: u32 = 85;
    pub const INVALID_USED_ENTRY: u32 = 86;
    pub const VHOST_OFFER: u32 = 100;
    pub const VHOST_HEADER: u32 = 101;
    pub const VHOST_VERSION: u32 = 102;
    pub const VHOST_DIRECTION: u32 = 103;
    pub const VHOST_REQUEST: u32 = 104;
    pub const VHOST_PAYLOAD_SIZE: u32 = 105;
    pub const VHOST_DESCRIPTORS: u32 = 106;
    pub const VHOST_NOT_NEGOTIATED: u32 = 107;
    pub const VHOST_FEATURES: u32 = 108;
    pub const VHOST_INDEX: u32 = 109;
    pub const VHOST_QUEUE_SIZE: u32 = 110;
    pub const VHOST_BASE: u32 = 111;
    pub const VHOST_FLAGS: u32 = 112;
    pub const VHOST_ALIGNMENT: u32 = 113;
    pub const VHOST_STARTED: u32 = 114;
    pub const VHOST_REGION_RANGE: u32 = 115;
    pub const VHOST_REGION_OVERLAP: u32 = 116;
    pub const VHOST_CONFIG_RANGE: u32 = 117;
    pub const VHOST_CONFIG_READ_ONLY: u32 = 118;
    pub const VHOST_STOPPED: u32 = 120;
    pub const VHOST_DISABLED: u32 = 121;
    pub const VHOST_NO_SIZE: u32 = 122;
    pub const VHOST_NO_ADDRESS: u32 = 123;
    pub const VHOST_USER_ADDRESS: u32 = 124;
    pub const VHOST_LOG: u32 = 125;
}
