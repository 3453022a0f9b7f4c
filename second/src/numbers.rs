//! Numbers of 1 to 8 bytes in both byte orders, and ids of 16 bytes.

use std::cmp::Ordering;

pub type Id = [u8; 16];

/// The little-endian number that these 1 to 8 bytes write.
pub fn read_le(bytes: &[u8]) -> u64 {
    assert!((1..=8).contains(&bytes.len()));
    bytes.iter().rev().fold(0, |n, &b| n * 256 + u64::from(b))
}

/// The big-endian number that these 1 to 8 bytes write.
pub fn read_be(bytes: &[u8]) -> u64 {
    assert!((1..=8).contains(&bytes.len()));
    bytes.iter().fold(0, |n, &b| n * 256 + u64::from(b))
}

/// The `width` low bytes of `x`, lowest first.
pub fn write_le(x: u64, width: usize) -> Vec<u8> {
    assert!((1..=8).contains(&width));
    (0..width).map(|i| (x >> (8 * i)) as u8).collect()
}

/// The `width` low bytes of `x`, lowest last.
pub fn write_be(x: u64, width: usize) -> Vec<u8> {
    assert!((1..=8).contains(&width));
    (0..width).rev().map(|i| (x >> (8 * i)) as u8).collect()
}

/// The id with these halves.
pub fn id_of(upper: u64, lower: u64) -> Id {
    (u128::from(upper) << 64 | u128::from(lower)).to_be_bytes()
}

/// An id as the one big-endian number by which ids are ordered.
pub fn id_number(id: &Id) -> u128 {
    id.iter().fold(0, |n, &b| n * 256 + u128::from(b))
}

pub fn compare_ids(a: &Id, b: &Id) -> Ordering {
    id_number(a).cmp(&id_number(b))
}

pub fn hex(bytes: &[u8]) -> String {
    bytes.iter().map(|b| format!("{b:02x}")).collect()
}
