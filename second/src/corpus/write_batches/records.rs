//! Records of batches, right ones and such as are to be damaged, and the sizes
//! of the files that right ones make.

use crate::batch::{record, EDGE, HEADING};
use crate::numbers::{id_of, Id};

/// A heading whose ids show at a glance which is which.
pub fn heading(direction: u8) -> Vec<u8> {
    heading_with(direction, [0x11, 0x22, 0x33])
}

/// A heading with ids of one byte each, repeated.
pub fn heading_with(direction: u8, ids: [u8; 3]) -> Vec<u8> {
    let mut bytes = vec![record::HEADING, direction];
    bytes.extend(ids.map(|byte| [byte; 16]).concat());
    bytes
}

pub fn edge(kind: u8, key: Id, partner: Id, log: u64) -> Vec<u8> {
    let mut bytes = vec![kind];
    bytes.extend(key);
    bytes.extend(partner);
    bytes.extend(log.to_le_bytes());
    bytes
}

pub fn live(key: Id, partner: Id, log: u64) -> Vec<u8> {
    edge(record::LIVE, key, partner, log)
}

pub fn dead(key: Id, partner: Id, log: u64) -> Vec<u8> {
    edge(record::DEAD, key, partner, log)
}

/// A forward heading and these records.
pub fn batch(records: &[Vec<u8>]) -> Vec<u8> {
    [heading(0), records.concat()].concat()
}

/// Edges in order, one for each key, all of them different.
pub fn rising(count: u64) -> Vec<Vec<u8>> {
    (1..=count)
        .map(|i| live(id_of(i, 0), id_of(9, 100 - i), 50 + i))
        .collect()
}

/// Where the record with this index begins, if all before it are right. The
/// heading has index 0.
pub fn place(index: usize) -> usize {
    match index {
        0 => 0,
        _ => HEADING + (index - 1) * EDGE,
    }
}

/// The size of a file without dead edges: of these many keys and edges, with
/// these many bytes of partners, below 2^24.
pub fn size(keys: u64, partner_bytes: u64, edges: u64) -> u64 {
    // Header, four rows, counts and trailer; keys; offsets; partners; logs.
    64 + (2 + 4 * 28 + 17 + 20)
        + 16 * keys
        + 3 * (keys + 1)
        + partner_bytes
        + 8 * edges
        + start_index(keys)
}

/// From 1,025 keys on, a row and a number for each key and one more.
fn start_index(keys: u64) -> u64 {
    match keys {
        0..=1_024 => 0,
        _ => 28 + 8 * (keys + 1),
    }
}

/// The same with a dead edge: one row more, and a bit for each edge.
pub fn size_with_dead(keys: u64, partner_bytes: u64, edges: u64) -> u64 {
    size(keys, partner_bytes, edges) + 28 + edges.div_ceil(8)
}
