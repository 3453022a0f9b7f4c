//! Files whose groups are bytes of any sort, right or wrong.

use crate::format::{flag, kind};
use crate::groups;
use crate::layout::{Header, Layout, Section};
use crate::numbers::{id_of, Id};
use crate::varint;

pub const SPLIT: &[u8] = &[0x01];
pub const DENSE: &[u8] = &[0x10];

/// The key of the group with this index. Neither the next key nor the one
/// before it is a neighbour.
pub fn key(index: u64) -> Id {
    id_of(3 + index / 4, 10 * (index + 1))
}

/// A group that begins with this degree.
pub fn group(degree: u64, rest: &[&[u8]]) -> Vec<u8> {
    [&varint::write(degree)[..], &rest.concat()].concat()
}

/// A partner in a split group.
pub fn halves(upper_difference: u64, lower: u64) -> Vec<u8> {
    [&varint::write(upper_difference)[..], &lower.to_le_bytes()].concat()
}

/// A group of one partner, 11 bytes.
pub fn single(upper: u8, lower: u64) -> Vec<u8> {
    group(1, &[SPLIT, &halves(u64::from(upper), lower)])
}

/// A file of these groups, and of this many edges whatever the groups say.
/// Each edge has another log number, and five of eight are dead.
pub fn layout(groups: &[Vec<u8>], edge_count: u64, offset_bits: u8) -> Layout {
    let mut place = 0;
    let mut offsets = vec![0];
    for group in groups {
        place += group.len() as u64;
        offsets.push(place);
    }
    let keys = (0..groups.len() as u64).flat_map(key);
    let logs = (0..edge_count).flat_map(|edge| (1_000_000 * edge + 77).to_le_bytes());
    let tombstones = (0..edge_count.div_ceil(8)).map(|i| 0b1011_0110 ^ i as u8);
    Layout {
        key_count: groups.len() as u64,
        edge_count,
        offset_bits,
        ..Layout::new(
            Header::new(flag::TOMBSTONES),
            vec![
                Section::new(kind::KEYS, keys.collect::<Vec<u8>>()),
                groups::offsets(&offsets, offset_bits),
                Section::new(kind::PARTNERS, groups.concat()),
                Section::new(kind::LOGS, logs.collect::<Vec<u8>>()),
                Section::new(kind::TOMBSTONES, tombstones.collect::<Vec<u8>>()),
            ],
        )
    }
}
