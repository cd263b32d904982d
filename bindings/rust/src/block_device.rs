//! A disk as the device of a [`BackEnd`]: what it offers, and its configuration.

use crate::back_end::{BackEnd, Disk};
use crate::vhost_user::{Offer, Refusal};

// The greatest size of a ring: QEMU's.
const MAX_QUEUE_SIZE: u32 = 1024;

// How many segments the data of a request have at most: with the header and the status a chain of 128 descriptors.
const SEG_MAX: u32 = 126;

// How many bytes a segment has at most.
const SIZE_MAX: u32 = 4 << 20;

// So many bytes of replies may wait for the front end.
const MAX_UNREAD: u32 = 4096;

const RO: u64 = 1 << 5;
const FLUSH: u64 = 1 << 9;
const MQ: u64 = 1 << 12;
const ACCESS_PLATFORM: u64 = 1 << 33;
pub(crate) const RING_PACKED: u64 = 1 << 34;

const FEATURES: [(u64, &str); 13] = [
    (1 << 1, "SIZE_MAX"),
    (1 << 2, "SEG_MAX"),
    (RO, "RO"),
    (1 << 6, "BLK_SIZE"),
    (FLUSH, "FLUSH"),
    (MQ, "MQ"),
    (1 << 26, "LOG_ALL"),
    (1 << 28, "INDIRECT_DESC"),
    (1 << 29, "EVENT_IDX"),
    (1 << 30, "PROTOCOL_FEATURES"),
    (1 << 32, "VERSION_1"),
    (ACCESS_PLATFORM, "ACCESS_PLATFORM"),
    (RING_PACKED, "RING_PACKED"),
];

/// A front end reads the device's configuration, of the protocol's features.
pub(crate) const CONFIG: u64 = 1 << 9;

const PROTOCOL_FEATURES: [(u64, &str); 6] = [
    (1, "MQ"),
    (1 << 1, "LOG_SHMFD"),
    (1 << 3, "REPLY_ACK"),
    (1 << 5, "BACKEND_REQ"),
    (CONFIG, "CONFIG"),
    (1 << 12, "INFLIGHT_SHMFD"),
];

/// A disk as a device. Its blocks are sectors of 512 bytes. What was written is stable after a FLUSH; if a driver does
/// not accept that, each write is stable before it completes.
#[derive(Clone, Copy, Debug, Default, PartialEq, Eq)]
pub struct BlockDevice {
    /// How many sectors it has.
    pub sectors: u64,
    /// How many queues it has.
    pub queues: u32,
    /// It is only read.
    pub read_only: bool,
    /// FLUSH is not offered.
    pub write_through: bool,
    /// How many ranges its I/O table keeps, if the guest may have an IOMMU: at least 8.
    pub iotlb_limit: Option<u32>,
}

impl BlockDevice {
    /// A back end with nothing negotiated.
    pub fn open(&self) -> Result<BackEnd, Refusal> {
        let disk = Disk {
            sectors: self.sectors,
            seg_max: SEG_MAX,
            size_max: SIZE_MAX,
            read_only: self.read_only.into(),
            unread: MAX_UNREAD,
            table_limit: self.iotlb_limit.unwrap_or(0),
        };
        BackEnd::new(&self.offer(), &self.config(), &disk)
    }

    fn offer(&self) -> Offer {
        let lacks = [
            (RO, !self.read_only),
            (FLUSH, self.write_through),
            (MQ, self.queues == 1),
            (ACCESS_PLATFORM, self.iotlb_limit.is_none()),
        ];
        let is_offered = |bit: u64| !lacks.contains(&(bit, true));
        Offer {
            features: FEATURES.iter().map(|it| it.0).filter(|bit| is_offered(*bit)).sum(),
            protocol_features: PROTOCOL_FEATURES.iter().map(|it| it.0).sum(),
            queues: self.queues,
            max_queue_size: MAX_QUEUE_SIZE,
            // A driver writes nothing of the configuration.
            writable_from: 0,
            writable_len: 0,
        }
    }

    // `virtio_blk_config`, and zeros after it.
    fn config(&self) -> [u8; 256] {
        let mut config = [0; 256];
        config[..8].copy_from_slice(&self.sectors.to_le_bytes());
        config[8..12].copy_from_slice(&SIZE_MAX.to_le_bytes());
        config[12..16].copy_from_slice(&SEG_MAX.to_le_bytes());
        config[20..24].copy_from_slice(&512_u32.to_le_bytes());
        config[34..36].copy_from_slice(&(self.queues as u16).to_le_bytes());
        config
    }
}

/// The names of the features that the front end of a [`BlockDevice`] accepted, and those of the protocol.
pub fn names_of_features(back_end: &BackEnd) -> [String; 2] {
    let of = |bits: u64, known: &[(u64, &'static str)]| {
        let names = known.iter().filter(|(bit, _)| bits & bit != 0).map(|(_, name)| *name);
        names.collect::<Vec<_>>().join(", ")
    };
    [
        of(back_end.features(), &FEATURES),
        of(back_end.protocol_features(), &PROTOCOL_FEATURES),
    ]
}
