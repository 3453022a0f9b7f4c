//! Batches: a heading, then edges, each a record of one byte of kind and a
//! body whose length the kind fixes.

use crate::groups::Edge;
use crate::numbers::{compare_ids, read_le, Id};
use crate::refusal::Refusal;
use std::cmp::Ordering;

/// Kind, direction and three ids.
pub const HEADING: usize = 50;
/// Kind, key, partner and log number.
pub const EDGE: usize = 41;

pub mod record {
    pub const LIVE: u8 = 1;
    pub const DEAD: u8 = 2;
    pub const HEADING: u8 = 3;
}

#[derive(Clone, Debug, PartialEq, Eq)]
pub struct Batch {
    pub inverse: bool,
    /// Of the edge type, the source label and the destination label.
    pub ids: [Id; 3],
    pub edges: Vec<KeyedEdge>,
}

#[derive(Clone, Copy, Debug, PartialEq, Eq)]
pub struct KeyedEdge {
    pub key: Id,
    pub edge: Edge,
}

impl KeyedEdge {
    /// By key, then by partner. Nothing else counts.
    fn order(&self, other: &KeyedEdge) -> Ordering {
        compare_ids(&self.key, &other.key)
            .then_with(|| compare_ids(&self.edge.partner, &other.edge.partner))
    }

    pub fn bytes(&self) -> Vec<u8> {
        let dead = self.edge.dead;
        let mut bytes = vec![if dead { record::DEAD } else { record::LIVE }];
        bytes.extend(self.key);
        bytes.extend(self.edge.partner);
        bytes.extend(self.edge.log.to_le_bytes());
        bytes
    }
}

impl Batch {
    pub fn bytes(&self) -> Vec<u8> {
        let mut bytes = vec![record::HEADING, u8::from(self.inverse)];
        bytes.extend(self.ids.concat());
        bytes.extend(self.edges.iter().flat_map(KeyedEdge::bytes));
        bytes
    }
}

/// Reads a batch. The first record that is unknown, cut or misplaced (24), or
/// not above the edge before it (25), gives the refusal, at its first byte.
pub fn parse(bytes: &[u8]) -> Result<Batch, Refusal> {
    let refuse = |number, place| {
        let place = place as u64;
        Err(Refusal::at(number, place))
    };
    let Some(mut batch) = heading(bytes) else {
        return refuse(24, 0);
    };
    let mut place = HEADING;
    while place < bytes.len() {
        let Some(edge) = edge(&bytes[place..]) else {
            return refuse(24, place);
        };
        let last = batch.edges.last();
        if last.is_some_and(|last| edge.order(last) != Ordering::Greater) {
            return refuse(25, place);
        }
        batch.edges.push(edge);
        place += EDGE;
    }
    Ok(batch)
}

/// The heading that these bytes begin with, as a batch without edges. Nothing
/// if they begin with no whole heading or with a direction that is none.
fn heading(bytes: &[u8]) -> Option<Batch> {
    let bytes = bytes.get(..HEADING)?;
    let right = bytes[0] == record::HEADING && bytes[1] <= 1;
    right.then(|| Batch {
        inverse: bytes[1] == 1,
        ids: [2, 18, 34].map(|at| id(bytes, at)),
        edges: Vec::new(),
    })
}

/// The edge that these bytes begin with. Nothing if they begin with no whole
/// edge; a heading is none.
fn edge(bytes: &[u8]) -> Option<KeyedEdge> {
    let bytes = bytes.get(..EDGE)?;
    let right = [record::LIVE, record::DEAD].contains(&bytes[0]);
    right.then(|| KeyedEdge {
        key: id(bytes, 1),
        edge: Edge {
            partner: id(bytes, 17),
            log: read_le(&bytes[33..]),
            dead: bytes[0] == record::DEAD,
        },
    })
}

fn id(bytes: &[u8], at: usize) -> Id {
    bytes[at..at + 16].try_into().expect("16 bytes")
}
