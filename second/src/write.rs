//! The writer: a batch becomes a file, with the writer's own choices wherever
//! a reader would take several forms.

use crate::batch::{self, Batch, KeyedEdge};
use crate::format::{bound, flag};
use crate::groups::{self, Edge, Form, Group};
use crate::layout::Layout;
use crate::numbers::id_number;
use crate::open::refuse_if;
use crate::read_out::put;
use crate::refusal::Refusal;
use crate::varint;

/// Keys from one fence to the next.
const STRIDE: u32 = 256;
/// From this many keys on a file has a start index, and then minor version 1.
const KEYS_WITH_STARTS: usize = 1_025;
/// Up to this degree a group is dense only for its cost.
const DEGREE_BY_COST: u128 = 1_024;

/// Writes the file and says how many bytes it has. A refusal writes nothing,
/// and what lies past the file stays.
pub fn write(batch: &[u8], output: &mut [u8]) -> Result<u64, Refusal> {
    put(&layout(batch)?.bytes(), output)
}

/// How many bytes the file of a batch has.
pub fn needed(batch: &[u8]) -> Result<u64, Refusal> {
    Ok(layout(batch)?.size())
}

/// The first faulty record, then 26.
fn layout(batch: &[u8]) -> Result<Layout, Refusal> {
    let batch = batch::parse(batch)?;
    let groups = groups_of(&batch.edges);
    let layout = file_of(&batch, &groups);
    let edge_count = batch.edges.len() as u64;
    let over = over_bounds(groups.len() as u64, edge_count, layout.size());
    refuse_if(26, over)?;
    Ok(layout)
}

/// Check 26.
pub fn over_bounds(keys: u64, edges: u64, file: u64) -> bool {
    keys > bound::KEYS || edges > bound::EDGES || file > bound::FILE
}

/// Sections 1 to 6 and the start index without gaps: 5 only if an edge is dead,
/// 6 only above 65,536 keys, the start index only from 1,025 keys on.
fn file_of(batch: &Batch, groups: &[Group]) -> Layout {
    let partner_bytes = *groups::group_offsets(groups).last().expect("the end");
    let offset_bits = if partner_bytes < 1 << 24 { 24 } else { 32 };
    groups::layout(groups, offset_bits).with(|l| {
        if groups.len() as u64 > bound::KEYS_WITHOUT_FENCES {
            l.sections.push(groups::fences(groups, STRIDE));
        }
        if groups.len() >= KEYS_WITH_STARTS {
            l.sections.push(groups::starts(groups));
            l.header.minor = 1;
        }
        if batch.inverse {
            l.header.flags |= flag::INVERSE;
        }
        [l.header.edge_type, l.header.source, l.header.destination] = batch.ids;
    })
}

/// The edges by key, each group in the form that the writer chooses for it.
fn groups_of(edges: &[KeyedEdge]) -> Vec<Group> {
    let runs = || edges.chunk_by(|a, b| a.key == b.key);
    let key_count = runs().count();
    let group = |run: &[KeyedEdge]| {
        let edges: Vec<Edge> = run.iter().map(|keyed| keyed.edge).collect();
        Group {
            key: run[0].key,
            form: form(&edges, key_count),
            edges,
        }
    };
    runs().map(group).collect()
}

/// Dense if the split form costs no less, or if the degree is above 1,024 and
/// its square above 16 times the key count.
pub fn form(edges: &[Edge], key_count: usize) -> Form {
    let degree = edges.len() as u128;
    let forced = degree > DEGREE_BY_COST && degree * degree > 16 * key_count as u128;
    if forced || split_cost(edges) >= 16 * degree {
        Form::Dense
    } else {
        Form::Split
    }
}

/// For each partner the length of its upper half's varint, and 8. The first
/// upper half stands as it is, each next one as the difference.
pub fn split_cost(edges: &[Edge]) -> u128 {
    let uppers: Vec<u64> = edges
        .iter()
        .map(|edge| (id_number(&edge.partner) >> 64) as u64)
        .collect();
    let first = uppers.iter().take(1).copied();
    let differences = uppers.windows(2).map(|pair| pair[1] - pair[0]);
    let costs = first.chain(differences);
    costs.map(|upper| varint::length(upper) as u128 + 8).sum()
}
