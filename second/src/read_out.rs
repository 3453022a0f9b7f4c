//! Read-out: a file that passes the full check becomes the batch of its edges,
//! in file order.

use crate::batch::{Batch, KeyedEdge};
use crate::full_check::{full_check, Contents};
use crate::open::refuse_at;
use crate::refusal::Refusal;

/// Writes the batch and says how many bytes it has. A refusal writes nothing,
/// and what lies past the batch stays.
pub fn read_out(file: &[u8], output: &mut [u8]) -> Result<u64, Refusal> {
    let batch = batch_of(full_check(file)?).bytes();
    put(&batch, output)
}

fn batch_of(contents: Contents) -> Batch {
    let mut edges = Vec::new();
    for group in contents.groups {
        let key = group.key;
        edges.extend(group.edges.into_iter().map(|edge| KeyedEdge { key, edge }));
    }
    Batch {
        inverse: contents.inverse,
        ids: contents.ids,
        edges,
    }
}

/// Puts these bytes at the beginning of an output that has room for them.
pub fn put(bytes: &[u8], output: &mut [u8]) -> Result<u64, Refusal> {
    let needed = bytes.len();
    refuse_at(20, (output.len() < needed).then_some(needed))?;
    output[..needed].copy_from_slice(bytes);
    Ok(needed as u64)
}
