//! Refusal 21: what a lookup asks of a record before it reads by it. Any
//! numbers may stand in the record, so all sums and products are taken where
//! none can pass the end.

use crate::format::{bound, OFFSET_BITS, START};
use crate::open::OpenedRecord;
use crate::refusal::Refusal;

pub fn check(file: &[u8], record: &OpenedRecord) -> Result<(), Refusal> {
    let size = file.len() as u64;
    if size > bound::FILE
        || a_range_leaves(size, record)
        || counts_pass_bounds(record)
        || !OFFSET_BITS.contains(&record.offset_bits)
        || a_length_is_wrong(record)
    {
        return super::refuse(21, 0);
    }
    Ok(())
}

/// The six ranges alone are asked, and only whether they end in the file: not
/// where they begin, nor whether they overlap each other or the footer.
fn a_range_leaves(size: u64, record: &OpenedRecord) -> bool {
    [record.keys, record.offsets, record.partners, record.logs]
        .into_iter()
        .chain(record.tombstones)
        .chain(record.starts)
        .any(|range| range.end() > u128::from(size))
}

fn counts_pass_bounds(record: &OpenedRecord) -> bool {
    record.key_count > bound::KEYS || record.edge_count > bound::EDGES
}

/// The partner range may have any length.
fn a_length_is_wrong(record: &OpenedRecord) -> bool {
    let keys = u128::from(record.key_count);
    let edges = u128::from(record.edge_count);
    let bits = u128::from(record.offset_bits);
    u128::from(record.keys.length) != 16 * keys
        || u128::from(record.offsets.length) != (keys + 1) * bits / 8
        || u128::from(record.logs.length) != 8 * edges
        || record
            .tombstones
            .is_some_and(|range| u128::from(range.length) != edges.div_ceil(8))
        || record
            .starts
            .is_some_and(|range| u128::from(range.length) != START as u128 * (keys + 1))
}
