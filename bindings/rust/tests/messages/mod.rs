//! Messages of a vhost front end on an I/O table, as their 32 bytes.
#![allow(dead_code)]

use vm_memory_proved::Permissions;

pub const MISS: u8 = 1;
pub const UPDATE: u8 = 2;
pub const INVALIDATE: u8 = 3;
pub const ACCESS_FAIL: u8 = 4;

/// The address, the size and the user address, each of eight bytes, the permissions, the kind, and six bytes that mean
/// nothing.
pub fn message(iova: u64, size: u64, user: u64, permissions: u8, kind: u8) -> [u8; 32] {
    let mut bytes = [0xa5; 32];
    for (place, number) in [iova, size, user].into_iter().enumerate() {
        bytes[8 * place..8 * (place + 1)].copy_from_slice(&number.to_le_bytes());
    }
    bytes[24] = permissions;
    bytes[25] = kind;
    bytes
}

pub fn update(iova: u64, size: u64, user: u64, access: Permissions) -> [u8; 32] {
    message(iova, size, user, access as u8, UPDATE)
}

pub fn invalidate(iova: u64, size: u64) -> [u8; 32] {
    message(iova, size, 0x55, 0x77, INVALIDATE)
}
