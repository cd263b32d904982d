//! What crosses to the library and back.

#[repr(C)]
#[derive(Clone, Copy, Default)]
pub(crate) struct Request {
    pub(crate) request: u32,
    pub(crate) index: u32,
    pub(crate) flag: u32,
    pub(crate) queue_size: u32,
    pub(crate) value: u64,
    pub(crate) size: u64,
}

#[repr(C)]
#[derive(Clone, Copy, Default)]
pub(crate) struct Vring {
    pub(crate) size: u32,
    pub(crate) base: u32,
    pub(crate) descriptor: u64,
    pub(crate) available: u64,
    pub(crate) used: u64,
    pub(crate) used_len: u64,
    pub(crate) log: u64,
    pub(crate) is_logged: u32,
    pub(crate) kick: u32,
    pub(crate) call: u32,
}

#[repr(C)]
#[derive(Clone, Copy, Default)]
pub(crate) struct Negotiated {
    pub(crate) features: u64,
    pub(crate) protocol_features: u64,
    pub(crate) queues: usize,
    pub(crate) regions: usize,
    pub(crate) is_owned: u32,
}
