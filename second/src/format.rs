//! The fixed numbers of the format.

/// The first eight bytes of a file, and its last eight.
pub const MAGIC: [u8; 8] = *b"TGEDGE\0\0";
pub const MAJOR: u8 = 1;

pub const HEADER: usize = 64;
/// Checksum of the footer body, footer length, magic.
pub const TRAILER: usize = 20;
/// A row of the section table without its name.
pub const ENTRY: usize = 28;
/// Key count, edge count and offset bits, the end of the footer body.
pub const COUNTS: usize = 17;

/// Stride and entry count, the beginning of the fence section.
pub const FENCE_HEAD: usize = 8;
/// A fence's key and offset.
pub const FENCE: usize = 24;
/// An entry of the start index.
pub const START: usize = 8;

pub const OFFSET_BITS: [u8; 4] = [24, 32, 40, 48];

pub mod kind {
    use std::ops::RangeInclusive;

    pub const KEYS: u16 = 1;
    pub const OFFSETS: u16 = 2;
    pub const PARTNERS: u16 = 3;
    pub const LOGS: u16 = 4;
    pub const TOMBSTONES: u16 = 5;
    pub const FENCES: u16 = 6;
    pub const PROPERTIES: u16 = 0x0100;
    pub const START_INDEX: u16 = 0x0200;

    /// The kinds that are read: always raw, without a name, and there once at
    /// most.
    pub const READ: [u16; 7] = [
        KEYS,
        OFFSETS,
        PARTNERS,
        LOGS,
        TOMBSTONES,
        FENCES,
        START_INDEX,
    ];
    /// Kept for sections that change what the others mean: no file with one opens.
    pub const RESERVED: RangeInclusive<u16> = 0x0007..=0x00FF;
}

pub mod flag {
    pub const PROPERTIES: u32 = 1 << 0;
    pub const TOMBSTONES: u32 = 1 << 1;
    pub const DENSE: u32 = 1 << 2;
    pub const INVERSE: u32 = 1 << 3;
}

pub mod bound {
    pub const FILE: u64 = 1 << 30;
    pub const KEYS: u64 = 1 << 24;
    pub const EDGES: u64 = 1 << 26;
    pub const SECTIONS: u64 = 64;
    pub const NAME: u8 = 63;
    /// Above this many keys a file must have fences.
    pub const KEYS_WITHOUT_FENCES: u64 = 65_536;
}
