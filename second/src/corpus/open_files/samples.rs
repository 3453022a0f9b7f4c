//! Sound files from which the others are made.

use crate::format::{flag, kind};
use crate::groups::{self, Edge, Form, Group};
use crate::layout::{Layout, Section};
use crate::numbers::{id_of, write_le, Id};

/// A kind that is skipped. Its lower byte alone would be reserved.
pub const SKIPPED: u16 = 0x0107;

pub fn live(upper: u64, lower: u64, log: u64) -> Edge {
    Edge {
        partner: id_of(upper, lower),
        log,
        dead: false,
    }
}

pub fn dead(upper: u64, lower: u64, log: u64) -> Edge {
    Edge {
        dead: true,
        ..live(upper, lower, log)
    }
}

pub fn split(key: Id, edges: &[Edge]) -> Group {
    Group {
        key,
        form: Form::Split,
        edges: edges.to_vec(),
    }
}

pub fn dense(key: Id, edges: &[Edge]) -> Group {
    Group {
        form: Form::Dense,
        ..split(key, edges)
    }
}

/// No key at all: the smallest file that opens, 218 bytes.
pub fn heading_only() -> Layout {
    groups::layout(&[], 24)
}

/// The file of the format's printed example, 256 bytes.
pub fn one_edge() -> Layout {
    groups::layout(&[split(id_of(1, 2), &[live(5, 1, 7)])], 24)
}

/// Groups with one live edge each, under the keys (1, 0), (1, 1) and so on.
pub fn single_groups(count: u64) -> Vec<Group> {
    (0..count)
        .map(|i| split(id_of(1, i), &[live(5, i, 100 + i)]))
        .collect()
}

pub fn three_groups() -> Vec<Group> {
    vec![
        split(id_of(1, 2), &[live(5, 1, 7), dead(5, 2, 8)]),
        // A partner of the sort that time-ordered ids are.
        dense(
            id_of(1, 3),
            &[live(0x018F_6E2A_7C10_7ABC, 1 << 63, u64::MAX)],
        ),
        split(id_of(2, 0), &[live(0, 9, 1), live(300, 0, 0)]),
    ]
}

/// Three groups, and a section of each sort: all kinds that are read, a
/// skipped one and a property stream among them, so that no entry's index is
/// its kind and both kind and index go up to the table's end. A gap lies
/// before the log numbers and one before the footer.
///
/// Entries: 0 keys, 1 offsets, 2 skipped, 3 partners, 4 log numbers,
/// 5 properties, 6 tombstones, 7 fences of stride 2.
pub fn full() -> Layout {
    let groups = three_groups();
    let mut layout = groups::layout(&groups, 24);
    layout.section(kind::LOGS).gap = vec![0xA5; 3];
    layout.sections.push(groups::fences(&groups, 2));
    let weights = Section::new(kind::PROPERTIES, *b"5 5 5").named(*b"weight");
    layout.sections.insert(4, weights);
    let skipped = Section::new(SKIPPED, *b"????").named(*b"skipped");
    layout.sections.insert(2, skipped);
    layout.header.flags |= flag::PROPERTIES;
    layout.last_gap = vec![0x5A; 2];
    layout
}

/// `full` with a start index as its last entry, 8.
pub fn full_indexed() -> Layout {
    full().with(|l| l.sections.push(groups::starts(&three_groups())))
}

/// A file of these groups with their start index at its end.
pub fn indexed(groups: &[Group]) -> Layout {
    groups::layout(groups, 24).with(|l| l.sections.push(groups::starts(groups)))
}

/// The fewest keys for which our writer makes an index, with its minor version.
pub fn indexed_1025_keys() -> Layout {
    indexed(&single_groups(1_025)).with(|l| l.header.minor = 1)
}

/// The starts of `five_groups`.
pub const FIVE_STARTS: [u64; 6] = [0, 2, 3, 6, 7, 9];

/// Groups of 2, 1, 3, 1 and 2 edges.
pub fn five_groups() -> Vec<Group> {
    let edges = |group: u64, degree: u64| -> Vec<Edge> {
        let number = |i: u64| 10 * group + i;
        let edge = |i: u64| match number(i) % 4 {
            1 => dead(i, number(i), number(i)),
            _ => live(i, number(i), number(i)),
        };
        (0..degree).map(edge).collect()
    };
    let group = |(i, degree): (u64, u64)| {
        let form = if i == 3 { dense } else { split };
        form(id_of(7, 10 * i), &edges(i, degree))
    };
    (0..).zip([2, 1, 3, 1, 2]).map(group).collect()
}

/// The file of `five_groups` with these numbers as its start index, entry 5.
pub fn five_with_starts(starts: &[u64]) -> Layout {
    groups::layout(&five_groups(), 24).with(|l| l.sections.push(groups::start_index(starts)))
}

/// Puts another key in the place of the key with this index.
pub fn set_key(layout: &mut Layout, index: usize, key: Id) {
    layout.section(kind::KEYS).bytes[16 * index..][..16].copy_from_slice(&key);
}

/// Puts another number in the place of the offset with this index.
pub fn set_offset(layout: &mut Layout, index: usize, number: u64) {
    let width = usize::from(layout.offset_bits / 8);
    let bytes = &mut layout.section(kind::OFFSETS).bytes;
    bytes[width * index..][..width].copy_from_slice(&write_le(number, width));
}

/// Puts another number in the place of the start with this index.
pub fn set_start(layout: &mut Layout, index: usize, number: u64) {
    let bytes = &mut layout.section(kind::START_INDEX).bytes;
    bytes[8 * index..][..8].copy_from_slice(&number.to_le_bytes());
}
