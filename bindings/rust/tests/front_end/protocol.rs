//! Messages of vhost-user, by the protocol's text: their numbers, features, and bytes.
#![allow(dead_code)]

pub const GET_FEATURES: u32 = 1;
pub const SET_FEATURES: u32 = 2;
pub const SET_OWNER: u32 = 3;
pub const RESET_OWNER: u32 = 4;
pub const SET_MEM_TABLE: u32 = 5;
pub const SET_LOG_BASE: u32 = 6;
pub const SET_LOG_FD: u32 = 7;
pub const SET_VRING_NUM: u32 = 8;
pub const SET_VRING_ADDR: u32 = 9;
pub const SET_VRING_BASE: u32 = 10;
pub const GET_VRING_BASE: u32 = 11;
pub const SET_VRING_KICK: u32 = 12;
pub const SET_VRING_CALL: u32 = 13;
pub const SET_VRING_ERR: u32 = 14;
pub const GET_PROTOCOL_FEATURES: u32 = 15;
pub const SET_PROTOCOL_FEATURES: u32 = 16;
pub const GET_QUEUE_NUM: u32 = 17;
pub const SET_VRING_ENABLE: u32 = 18;
pub const SET_BACKEND_REQ_FD: u32 = 21;
pub const IOTLB_MSG: u32 = 22;
pub const GET_CONFIG: u32 = 24;
pub const SET_CONFIG: u32 = 25;
pub const GET_INFLIGHT_FD: u32 = 31;
pub const SET_INFLIGHT_FD: u32 = 32;

pub const REPLY: u32 = 4;
pub const NEED_REPLY: u32 = 8;

pub const FLUSH: u64 = 1 << 9;
pub const BLK_MQ: u64 = 1 << 12;
pub const LOG_ALL: u64 = 1 << 26;
pub const INDIRECT_DESC: u64 = 1 << 28;
pub const EVENT_IDX: u64 = 1 << 29;
pub const PROTOCOL_FEATURES: u64 = 1 << 30;
pub const VERSION_1: u64 = 1 << 32;
pub const ACCESS_PLATFORM: u64 = 1 << 33;
pub const RING_PACKED: u64 = 1 << 34;

pub const MQ: u64 = 1;
pub const LOG_SHMFD: u64 = 1 << 1;
pub const REPLY_ACK: u64 = 1 << 3;
pub const BACKEND_REQ: u64 = 1 << 5;
pub const CONFIG: u64 = 1 << 9;
pub const INFLIGHT_SHMFD: u64 = 1 << 12;

/// No descriptor comes with a SET_VRING_KICK, CALL or ERR.
pub const NO_DESCRIPTOR: u64 = 1 << 8;

/// The bytes of a message of the version 1 with these other flags.
pub fn message(request: u32, flags: u32, payload: &[u8]) -> Vec<u8> {
    let header = [request, 1 | flags, payload.len() as u32];
    [&words(&header), payload].concat()
}

pub fn words(numbers: &[u32]) -> Vec<u8> {
    numbers.iter().flat_map(|it| it.to_le_bytes()).collect()
}

pub fn longs(numbers: &[u64]) -> Vec<u8> {
    numbers.iter().flat_map(|it| it.to_le_bytes()).collect()
}

/// The payload of a SET_MEM_TABLE: of each region its guest address, size, user address and offset.
pub fn table(regions: &[[u64; 4]]) -> Vec<u8> {
    let count = words(&[regions.len() as u32, 0]);
    [count, longs(&regions.concat())].concat()
}

/// The payload of a SET_VRING_ADDR: the descriptor table, the used ring, the available ring and the log.
pub fn addresses(index: u32, flags: u32, parts: [u64; 4]) -> Vec<u8> {
    [words(&[index, flags]), longs(&parts)].concat()
}

/// The payload of an IOTLB_MSG.
pub fn iotlb(iova: u64, size: u64, user: u64, permissions: u8, kind: u8) -> Vec<u8> {
    [longs(&[iova, size, user]), vec![permissions, kind, 0, 0, 0, 0, 0, 0]].concat()
}

/// The payload of a GET_CONFIG or a SET_CONFIG.
pub fn config(offset: u32, flags: u32, bytes: &[u8]) -> Vec<u8> {
    [&words(&[offset, bytes.len() as u32, flags]), bytes].concat()
}

/// The payload of a GET_INFLIGHT_FD or a SET_INFLIGHT_FD, without padding: of the region its size and offset, and how
/// many rings it is for, of how many descriptors.
pub fn inflight(size: u64, offset: u64, rings: u16, descriptors: u16) -> Vec<u8> {
    [
        longs(&[size, offset]),
        [rings.to_le_bytes(), descriptors.to_le_bytes()].concat(),
    ]
    .concat()
}

/// The bytes of a reply.
pub fn reply(request: u32, payload: &[u8]) -> Vec<u8> {
    [&words(&[request, 5, payload.len() as u32]), payload].concat()
}

/// The reply to a message that asks for one: 0 if it was done.
pub fn acknowledged(request: u32, number: u64) -> Vec<u8> {
    reply(request, &longs(&[number]))
}
