//! Messages of a vhost-user front end, and a slow reading of them: each rule of the protocol by itself, in the words of
//! crates/vhost_user/README.md.
#![allow(dead_code)]

pub mod protocol;

pub use protocol::*;
use vm_memory_proved::vhost_user::{ConfigSpace, Inflight, Notifier, Offer, Refusal, Region, Request, Vring, Wanted};

fn word(bytes: &[u8], at: usize) -> u32 {
    u32::from_le_bytes(bytes[at..at + 4].try_into().unwrap())
}

fn half(bytes: &[u8], at: usize) -> u16 {
    u16::from_le_bytes(bytes[at..at + 2].try_into().unwrap())
}

fn long(bytes: &[u8], at: usize) -> u64 {
    u64::from_le_bytes(bytes[at..at + 8].try_into().unwrap())
}

// Whether the end of a range of addresses is an address.
fn has_end(from: u64, size: u64) -> bool {
    u128::from(from) + u128::from(size) < 1 << 64
}

// The size of the payload, from and to, and how many descriptors come at most.
fn shape(request: u32) -> Option<(usize, usize, usize)> {
    match request {
        GET_FEATURES | SET_OWNER | RESET_OWNER | GET_PROTOCOL_FEATURES | GET_QUEUE_NUM => Some((0, 0, 0)),
        SET_LOG_FD | SET_BACKEND_REQ_FD => Some((0, 0, 1)),
        SET_FEATURES | SET_PROTOCOL_FEATURES => Some((8, 8, 0)),
        SET_VRING_NUM | SET_VRING_BASE | GET_VRING_BASE | SET_VRING_ENABLE => Some((8, 8, 0)),
        SET_VRING_KICK | SET_VRING_CALL | SET_VRING_ERR => Some((8, 8, 1)),
        SET_MEM_TABLE => Some((8, 8 + 32 * 8, 8)),
        SET_LOG_BASE => Some((16, 16, 1)),
        SET_VRING_ADDR => Some((40, 40, 0)),
        IOTLB_MSG => Some((32, 32, 0)),
        GET_CONFIG | SET_CONFIG => Some((12, 12 + 256, 0)),
        GET_INFLIGHT_FD => Some((20, 24, 0)),
        SET_INFLIGHT_FD => Some((20, 24, 1)),
        _ => None,
    }
}

// What is wrong with a header.
fn broken_header(bytes: &[u8]) -> Vec<Refusal> {
    let (request, flags, size) = (word(bytes, 0), word(bytes, 4), word(bytes, 8) as usize);
    let mut broken = Vec::new();
    if flags & 3 != 1 {
        broken.push(Refusal::Version);
    }
    if flags & REPLY != 0 {
        broken.push(Refusal::Direction);
    }
    match shape(request) {
        None => broken.push(Refusal::Request),
        Some((least, most, _)) if size < least || size > most => broken.push(Refusal::PayloadSize),
        Some(_) => (),
    }
    broken
}

/// What is still to come of a message, or what is wrong with its header.
pub fn wanted(start: &[u8]) -> Result<Wanted, Vec<Refusal>> {
    if start.len() < 12 {
        return Ok(Wanted {
            bytes: 12 - start.len(),
            descriptors: 8,
        });
    }
    let broken = broken_header(start);
    if !broken.is_empty() {
        return Err(broken);
    }
    Ok(Wanted {
        bytes: (12 + word(start, 8) as usize).saturating_sub(start.len()),
        descriptors: shape(word(start, 0)).unwrap().2,
    })
}

#[derive(Clone, Debug, Default)]
struct Ring {
    size: u32,
    base: u32,
    // The flags, and where the descriptor table, the used ring, the available ring and the log lie.
    placed: Option<(u32, [u64; 4])>,
    kick: Notifier,
    call: Notifier,
    is_enabled: bool,
}

impl Ring {
    fn is_started(&self) -> bool {
        self.kick != Notifier::Unset
    }
}

/// A connection as the messages so far leave it.
pub struct Slow {
    offer: Offer,
    pub config: Vec<u8>,
    pub is_owned: bool,
    pub features: u64,
    pub protocol_features: u64,
    pub regions: Vec<Region>,
    rings: Vec<Ring>,
}

impl Slow {
    pub fn new(offer: &Offer, config: &[u8]) -> Slow {
        Slow {
            offer: *offer,
            config: config.to_vec(),
            is_owned: false,
            features: 0,
            protocol_features: 0,
            regions: Vec::new(),
            rings: vec![Ring::default(); offer.queues as usize],
        }
    }

    /// All that is wrong with a message.
    pub fn broken(&self, message: &[u8], descriptors: usize) -> Vec<Refusal> {
        if message.len() < 12 {
            return vec![Refusal::Header];
        }
        let mut broken = broken_header(message);
        let (request, payload) = (word(message, 0), &message[12..]);
        if payload.len() != word(message, 8) as usize {
            broken.push(Refusal::PayloadSize);
        }
        // Without its payload no more can be said.
        if broken.contains(&Refusal::Request) || broken.contains(&Refusal::PayloadSize) {
            return broken;
        }
        let due = match request {
            SET_MEM_TABLE => (payload.len() - 8) / 32,
            SET_LOG_BASE | SET_LOG_FD | SET_BACKEND_REQ_FD | SET_INFLIGHT_FD => 1,
            SET_VRING_KICK | SET_VRING_CALL | SET_VRING_ERR => usize::from(long(payload, 0) & NO_DESCRIPTOR == 0),
            _ => 0,
        };
        if descriptors != due {
            broken.push(Refusal::Descriptors);
        }
        match request {
            SET_MEM_TABLE => self.test_table(payload, &mut broken),
            SET_VRING_NUM..=SET_VRING_ERR | SET_VRING_ENABLE => self.test_ring(request, payload, &mut broken),
            GET_CONFIG | SET_CONFIG => self.test_config(request, payload, &mut broken),
            GET_INFLIGHT_FD | SET_INFLIGHT_FD => self.test_inflight(request, payload, &mut broken),
            _ => self.test_features(request, payload, &mut broken),
        }
        broken
    }

    fn test_features(&self, request: u32, payload: &[u8], broken: &mut Vec<Refusal>) {
        let (offered, offered_of_protocol) = (self.offer.features, self.offer.protocol_features);
        let belongs_to = match request {
            GET_PROTOCOL_FEATURES | SET_PROTOCOL_FEATURES => offered & PROTOCOL_FEATURES,
            SET_LOG_FD => offered & LOG_ALL,
            GET_QUEUE_NUM => self.protocol_features & MQ,
            SET_LOG_BASE => self.protocol_features & LOG_SHMFD,
            SET_BACKEND_REQ_FD => self.protocol_features & BACKEND_REQ,
            IOTLB_MSG => self.features & ACCESS_PLATFORM,
            _ => 1,
        };
        if belongs_to == 0 {
            broken.push(Refusal::NotNegotiated);
        }
        match request {
            SET_FEATURES => {
                let bits = long(payload, 0);
                if bits & !offered != 0 {
                    broken.push(Refusal::Features);
                }
                if (bits ^ self.features) & !LOG_ALL != 0 && self.rings.iter().any(Ring::is_started) {
                    broken.push(Refusal::Started);
                }
            }
            SET_PROTOCOL_FEATURES if long(payload, 0) & !offered_of_protocol != 0 => broken.push(Refusal::Features),
            IOTLB_MSG => {
                let (iova, size, permissions, kind) = (long(payload, 0), long(payload, 8), payload[24], payload[25]);
                if kind != 2 && kind != 3 {
                    broken.push(Refusal::IotlbKind);
                }
                if kind != 3 && !(1..=3).contains(&permissions) {
                    broken.push(Refusal::IotlbPermissions);
                }
                if kind == 2 && size == 0 {
                    broken.push(Refusal::IotlbEmptyRange);
                }
                if kind == 2 && !has_end(iova, size) {
                    broken.push(Refusal::IotlbRange);
                }
            }
            _ => (),
        }
    }

    fn test_table(&self, payload: &[u8], broken: &mut Vec<Refusal>) {
        if payload.len() != 8 + 32 * word(payload, 0) as usize {
            broken.push(Refusal::PayloadSize);
            return;
        }
        let regions = regions_of(payload);
        for (place, it) in regions.iter().enumerate() {
            let begins = [it.guest_address, it.user_address, it.mmap_offset];
            if it.size == 0 || begins.iter().any(|from| !has_end(*from, it.size)) {
                broken.push(Refusal::RegionRange);
            }
            for other in &regions[..place] {
                let last = |it: &Region| u128::from(it.guest_address) + u128::from(it.size);
                if u128::from(it.guest_address) < last(other) && u128::from(other.guest_address) < last(it) {
                    broken.push(Refusal::RegionOverlap);
                }
            }
        }
    }

    fn test_ring(&self, request: u32, payload: &[u8], broken: &mut Vec<Refusal>) {
        let index = match request {
            SET_VRING_KICK | SET_VRING_CALL | SET_VRING_ERR => u32::from(payload[0]),
            _ => word(payload, 0),
        };
        let number = word(payload, 4);
        if request == SET_VRING_ENABLE && self.features & PROTOCOL_FEATURES == 0 {
            broken.push(Refusal::NotNegotiated);
        }
        if request == SET_VRING_ENABLE && number > 1 {
            broken.push(Refusal::Flags);
        }
        if request == SET_VRING_ADDR && number > 1 {
            broken.push(Refusal::Flags);
        }
        if request == SET_VRING_NUM && (number == 0 || number > self.offer.max_queue_size) {
            broken.push(Refusal::QueueSize);
        }
        if request == SET_VRING_BASE && self.features & RING_PACKED == 0 && number > 0xffff {
            broken.push(Refusal::Base);
        }
        let parts = |payload: &[u8]| [8, 16, 24, 32].map(|at| long(payload, at));
        if request == SET_VRING_ADDR {
            let [descriptor, used, available, _] = parts(payload);
            if descriptor % 16 != 0 || used % 4 != 0 || available % 2 != 0 {
                broken.push(Refusal::Alignment);
            }
        }
        let Some(ring) = self.rings.get(index as usize) else {
            broken.push(Refusal::Index);
            return;
        };
        let moves = match request {
            SET_VRING_NUM | SET_VRING_BASE => true,
            SET_VRING_ADDR => ring
                .placed
                .is_some_and(|(_, placed)| placed[..3] != parts(payload)[..3]),
            _ => false,
        };
        if ring.is_started() && moves {
            broken.push(Refusal::Started);
        }
    }

    fn test_config(&self, request: u32, payload: &[u8], broken: &mut Vec<Refusal>) {
        let (offset, size, flags) = (word(payload, 0), word(payload, 4), word(payload, 8));
        if payload.len() != 12 + size as usize {
            broken.push(Refusal::PayloadSize);
        }
        if flags > 1 {
            broken.push(Refusal::Flags);
        }
        if self.protocol_features & CONFIG == 0 {
            broken.push(Refusal::NotNegotiated);
        }
        let end = u64::from(offset) + u64::from(size);
        if end > self.config.len() as u64 {
            broken.push(Refusal::ConfigRange);
        }
        let from = u64::from(self.offer.writable_from);
        let is_writable = flags == 1 || u64::from(offset) >= from && end <= from + u64::from(self.offer.writable_len);
        if request == SET_CONFIG && !is_writable {
            broken.push(Refusal::ConfigReadOnly);
        }
    }

    // How many bytes a region has for so many rings of so many descriptors.
    fn inflight_len(&self, rings: u16, descriptors: u16) -> u64 {
        let entry = if self.features & RING_PACKED != 0 { 32 } else { 16 };
        u64::from(rings) * (entry * (1 + u64::from(descriptors))).next_multiple_of(64)
    }

    fn test_inflight(&self, request: u32, payload: &[u8], broken: &mut Vec<Refusal>) {
        if payload.len() != 20 && payload.len() != 24 {
            broken.push(Refusal::PayloadSize);
        }
        if self.protocol_features & INFLIGHT_SHMFD == 0 {
            broken.push(Refusal::NotNegotiated);
        }
        let region = region_of(payload);
        if region.num_queues == 0 || u32::from(region.num_queues) > self.offer.queues {
            broken.push(Refusal::Index);
        }
        if region.queue_size == 0 || u32::from(region.queue_size) > self.offer.max_queue_size {
            broken.push(Refusal::QueueSize);
        }
        let is_small = region.mmap_size < self.inflight_len(region.num_queues, region.queue_size);
        if request == SET_INFLIGHT_FD && (is_small || !has_end(region.mmap_offset, region.mmap_size)) {
            broken.push(Refusal::RegionRange);
        }
    }

    /// Does what a message asks for with which nothing is wrong.
    pub fn take(&mut self, message: &[u8], descriptors: usize) -> Request {
        let (request, payload) = (word(message, 0), &message[12..]);
        let space = |payload: &[u8]| ConfigSpace {
            offset: word(payload, 0),
            size: word(payload, 4),
            is_migration: word(payload, 8) == 1,
        };
        match request {
            GET_FEATURES => Request::GetFeatures,
            SET_FEATURES => {
                self.features = long(payload, 0);
                Request::SetFeatures(self.features)
            }
            SET_OWNER => {
                self.is_owned = true;
                Request::SetOwner
            }
            RESET_OWNER => Request::ResetOwner,
            SET_MEM_TABLE => {
                self.regions = regions_of(payload);
                Request::SetMemTable
            }
            SET_LOG_BASE => Request::SetLogBase {
                size: long(payload, 0),
                offset: long(payload, 8),
            },
            SET_LOG_FD => Request::SetLogFd,
            GET_PROTOCOL_FEATURES => Request::GetProtocolFeatures,
            SET_PROTOCOL_FEATURES => {
                self.protocol_features = long(payload, 0);
                Request::SetProtocolFeatures(self.protocol_features)
            }
            GET_QUEUE_NUM => Request::GetQueueNum,
            SET_BACKEND_REQ_FD => Request::SetBackendReqFd,
            IOTLB_MSG => Request::IotlbMsg,
            GET_CONFIG => Request::GetConfig(space(payload)),
            SET_CONFIG => {
                let from = word(payload, 0) as usize;
                self.config[from..from + payload.len() - 12].copy_from_slice(&payload[12..]);
                Request::SetConfig(space(payload))
            }
            GET_INFLIGHT_FD => Request::GetInflightFd(region_of(payload)),
            SET_INFLIGHT_FD => Request::SetInflightFd(region_of(payload)),
            _ => self.take_ring(request, payload, descriptors == 1),
        }
    }

    fn take_ring(&mut self, request: u32, payload: &[u8], descriptor: bool) -> Request {
        let (index, number) = match request {
            SET_VRING_KICK | SET_VRING_CALL | SET_VRING_ERR => (u32::from(payload[0]), 0),
            _ => (word(payload, 0), word(payload, 4)),
        };
        let notifier = if descriptor {
            Notifier::Descriptor
        } else {
            Notifier::Polled
        };
        let ring = &mut self.rings[index as usize];
        match request {
            SET_VRING_NUM => {
                ring.size = number;
                Request::SetVringNum { index, num: number }
            }
            SET_VRING_ADDR => {
                ring.placed = Some((number, [8, 16, 24, 32].map(|at| long(payload, at))));
                Request::SetVringAddr { index }
            }
            SET_VRING_BASE => {
                ring.base = number;
                Request::SetVringBase { index, base: number }
            }
            GET_VRING_BASE => {
                ring.kick = Notifier::Unset;
                Request::GetVringBase { index }
            }
            SET_VRING_KICK => {
                ring.kick = notifier;
                Request::SetVringKick { index, descriptor }
            }
            SET_VRING_CALL => {
                ring.call = notifier;
                Request::SetVringCall { index, descriptor }
            }
            SET_VRING_ERR => Request::SetVringErr { index, descriptor },
            _ => {
                ring.is_enabled = number == 1;
                Request::SetVringEnable {
                    index,
                    enable: ring.is_enabled,
                }
            }
        }
    }

    /// Says where a ring goes on, or what is wrong with that.
    pub fn stop(&mut self, index: u32, base: u32) -> Result<(), Refusal> {
        let ring = self.rings.get_mut(index as usize).ok_or(Refusal::Index)?;
        if ring.is_started() {
            return Err(Refusal::Started);
        }
        ring.base = base;
        Ok(())
    }

    /// What is sent for a message that was done, or was not.
    pub fn reply(&self, message: &[u8], is_done: bool) -> Vec<u8> {
        if message.len() < 12 {
            return Vec::new();
        }
        let (request, payload) = (word(message, 0), &message[12..]);
        let asks = word(message, 4) & NEED_REPLY != 0 && self.protocol_features & REPLY_ACK != 0;
        match request {
            GET_CONFIG if !is_done => reply(request, &[]),
            GET_FEATURES | GET_PROTOCOL_FEATURES | GET_QUEUE_NUM | GET_VRING_BASE | SET_LOG_BASE | GET_INFLIGHT_FD
                if !is_done =>
            {
                Vec::new()
            }
            GET_FEATURES => reply(request, &longs(&[self.offer.features])),
            GET_PROTOCOL_FEATURES => reply(request, &longs(&[self.offer.protocol_features])),
            GET_QUEUE_NUM => reply(request, &longs(&[self.offer.queues.into()])),
            GET_VRING_BASE => {
                let index = word(payload, 0);
                reply(request, &words(&[index, self.rings[index as usize].base]))
            }
            SET_LOG_BASE => reply(request, &[]),
            GET_INFLIGHT_FD => {
                let region = region_of(payload);
                let (rings, size) = (region.num_queues, region.queue_size);
                let mut answer = inflight(self.inflight_len(rings, size), 0, rings, size);
                answer.resize(payload.len(), 0);
                reply(request, &answer)
            }
            GET_CONFIG => {
                let (from, size) = (word(payload, 0) as usize, word(payload, 4) as usize);
                reply(request, &[&payload[..12], &self.config[from..from + size]].concat())
            }
            _ if asks => acknowledged(request, u64::from(!is_done)),
            _ => Vec::new(),
        }
    }

    // Where a part of a ring lies.
    fn place(&self, address: u64, len: u64) -> Option<u64> {
        if self.features & ACCESS_PLATFORM != 0 {
            return Some(address);
        }
        let region = self.regions.iter().find(|it| {
            it.user_address <= address
                && u128::from(address) + u128::from(len) <= u128::from(it.user_address) + u128::from(it.size)
        })?;
        Some(region.guest_address + (address - region.user_address))
    }

    /// A ring as it is to be served, or all that speaks against it.
    pub fn running(&self, index: u32) -> Result<Vring, Vec<Refusal>> {
        let ring = self.rings.get(index as usize).ok_or(vec![Refusal::Index])?;
        let mut against = Vec::new();
        if !ring.is_started() {
            against.push(Refusal::Stopped);
        }
        if self.features & PROTOCOL_FEATURES != 0 && !ring.is_enabled {
            against.push(Refusal::Disabled);
        }
        if ring.size == 0 {
            against.push(Refusal::NoSize);
        }
        let Some((flags, [descriptor, used, available, log])) = ring.placed else {
            against.push(Refusal::NoAddress);
            return Err(against);
        };
        let (size, event) = (u64::from(ring.size), self.features & EVENT_IDX != 0);
        let event = if event { 2 } else { 0 };
        let lengths = if self.features & RING_PACKED != 0 {
            [16 * size, 4, 4]
        } else {
            [16 * size, 4 + 8 * size + event, 4 + 2 * size + event]
        };
        let parts = [descriptor, used, available];
        let placed: Vec<u64> = parts
            .iter()
            .zip(lengths)
            .filter_map(|(at, len)| self.place(*at, len))
            .collect();
        if placed.len() < 3 {
            against.push(Refusal::UserAddress);
        }
        if !against.is_empty() {
            return Err(against);
        }
        Ok(Vring {
            size: ring.size,
            base: ring.base,
            descriptor: placed[0],
            used: placed[1],
            used_len: lengths[1],
            available: placed[2],
            log: (flags == 1).then_some(log),
            kick: ring.kick,
            call: ring.call,
        })
    }
}

fn region_of(payload: &[u8]) -> Inflight {
    Inflight {
        mmap_size: long(payload, 0),
        mmap_offset: long(payload, 8),
        num_queues: half(payload, 16),
        queue_size: half(payload, 18),
    }
}

fn regions_of(payload: &[u8]) -> Vec<Region> {
    let rows = payload[8..].chunks_exact(32);
    rows.map(|row| Region {
        guest_address: long(row, 0),
        size: long(row, 8),
        user_address: long(row, 16),
        mmap_offset: long(row, 24),
    })
    .collect()
}
