//! Edges in their groups, and the sections that hold them.

use crate::format::{flag, kind};
use crate::layout::{Header, Layout, Section};
use crate::numbers::{id_number, write_le, Id};
use crate::varint;

#[derive(Clone, Copy, Debug, PartialEq, Eq)]
pub struct Edge {
    pub partner: Id,
    pub log: u64,
    pub dead: bool,
}

/// How the partners of a group are written.
#[derive(Clone, Copy, Debug, PartialEq, Eq, PartialOrd, Ord)]
pub enum Form {
    /// Tag 0x01: upper halves as differences, lower halves as they are.
    Split,
    /// Tag 0x10: 16 bytes for each.
    Dense,
}

/// The edges of one key. Their partners increase.
#[derive(Clone, Debug, PartialEq, Eq)]
pub struct Group {
    pub key: Id,
    pub form: Form,
    pub edges: Vec<Edge>,
}

impl Group {
    fn bytes(&self) -> Vec<u8> {
        let mut bytes = varint::write(self.edges.len() as u64);
        match self.form {
            Form::Dense => {
                bytes.push(0x10);
                for edge in &self.edges {
                    bytes.extend(edge.partner);
                }
            }
            Form::Split => {
                bytes.push(0x01);
                let mut last_upper = 0;
                for edge in &self.edges {
                    let number = id_number(&edge.partner);
                    let (upper, lower) = ((number >> 64) as u64, number as u64);
                    bytes.extend(varint::write(upper - last_upper));
                    bytes.extend(lower.to_le_bytes());
                    last_upper = upper;
                }
            }
        }
        bytes
    }
}

pub fn edges(groups: &[Group]) -> impl Iterator<Item = &Edge> {
    groups.iter().flat_map(|group| &group.edges)
}

pub fn keys(groups: &[Group]) -> Section {
    let keys = groups.iter().flat_map(|group| group.key);
    Section::new(kind::KEYS, keys.collect::<Vec<u8>>())
}

/// Numbers of these many bits, as they stand in the offset section.
pub fn offsets(numbers: &[u64], bits: u8) -> Section {
    let width = usize::from(bits / 8);
    let bytes = numbers.iter().flat_map(|&number| write_le(number, width));
    Section::new(kind::OFFSETS, bytes.collect::<Vec<u8>>())
}

/// Where each group begins in the partner section, and where the last ends.
pub fn group_offsets(groups: &[Group]) -> Vec<u64> {
    let mut place = 0;
    let mut numbers = vec![0];
    for group in groups {
        place += group.bytes().len() as u64;
        numbers.push(place);
    }
    numbers
}

pub fn partners(groups: &[Group]) -> Section {
    let bytes = groups.iter().flat_map(Group::bytes);
    Section::new(kind::PARTNERS, bytes.collect::<Vec<u8>>())
}

pub fn logs(groups: &[Group]) -> Section {
    let bytes = edges(groups).flat_map(|edge| edge.log.to_le_bytes());
    Section::new(kind::LOGS, bytes.collect::<Vec<u8>>())
}

/// Edge e is bit e mod 8 of byte e/8.
pub fn tombstones(groups: &[Group]) -> Section {
    let mut bytes = vec![0; edges(groups).count().div_ceil(8)];
    for (e, edge) in edges(groups).enumerate() {
        bytes[e / 8] |= u8::from(edge.dead) << (e % 8);
    }
    Section::new(kind::TOMBSTONES, bytes)
}

/// Entry i is key i·stride and its place in the key section.
pub fn fences(groups: &[Group], stride: u32) -> Section {
    let fenced: Vec<usize> = (0..groups.len()).step_by(stride as usize).collect();
    let mut bytes = stride.to_le_bytes().to_vec();
    bytes.extend((fenced.len() as u32).to_le_bytes());
    for index in fenced {
        bytes.extend(groups[index].key);
        bytes.extend((16 * index as u64).to_le_bytes());
    }
    Section::new(kind::FENCES, bytes)
}

/// How many edges come before each group, and how many there are.
pub fn starts(groups: &[Group]) -> Section {
    let mut before = 0;
    let mut numbers = vec![0];
    for group in groups {
        before += group.edges.len() as u64;
        numbers.push(before);
    }
    start_index(&numbers)
}

/// These numbers as they stand in the start index.
pub fn start_index(numbers: &[u64]) -> Section {
    let bytes = numbers.iter().flat_map(|number| number.to_le_bytes());
    Section::new(kind::START_INDEX, bytes.collect::<Vec<u8>>())
}

/// A file of these groups: sections 1 to 4, then 5 if an edge is dead; without
/// gaps; flag bits 1 and 2 as the data.
pub fn layout(groups: &[Group], offset_bits: u8) -> Layout {
    let mut sections = vec![
        keys(groups),
        offsets(&group_offsets(groups), offset_bits),
        partners(groups),
        logs(groups),
    ];
    let mut flags = 0;
    if edges(groups).any(|edge| edge.dead) {
        sections.push(tombstones(groups));
        flags |= flag::TOMBSTONES;
    }
    if groups.iter().any(|group| group.form == Form::Dense) {
        flags |= flag::DENSE;
    }
    Layout {
        key_count: groups.len() as u64,
        edge_count: edges(groups).count() as u64,
        offset_bits,
        ..Layout::new(Header::new(flags), sections)
    }
}
