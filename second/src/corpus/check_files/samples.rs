//! Sound files that are kept as samples too, and the makings of others.

use crate::corpus::lookup_calls::raw;
use crate::corpus::open_files::samples::{dense, live, one_edge, split};
use crate::format::{flag, kind};
use crate::groups::{self, Edge, Group};
use crate::layout::{Layout, Section};
use crate::numbers::id_of;

/// The format's printed example, 256 bytes.
pub fn example() -> Layout {
    one_edge().with(|l| {
        let header = &mut l.header;
        header.edge_type = [0x11; 16];
        header.source = [0x22; 16];
        header.destination = [0x33; 16];
    })
}

/// The larger sample: 12 keys and 40 edges of all sorts, a property stream and
/// a section of an unknown kind, minor 3.
pub fn board() -> Layout {
    let degrees = [1, 3, 2, 5, 1, 8, 4, 1, 6, 2, 3, 4];
    let mut number = 0;
    let mut group = |(index, degree): (usize, u64)| {
        let key = id_of(0x018F_6E2A_7C10_7000 + index as u64 / 3, 1 << (5 * index));
        let is_dense = index % 3 == 1;
        let edges: Vec<Edge> = (0..degree)
            .map(|i| {
                number += 1;
                board_edge(number, is_dense, i)
            })
            .collect();
        let group = if is_dense { dense } else { split };
        group(key, &edges)
    };
    let groups: Vec<Group> = degrees.into_iter().enumerate().map(&mut group).collect();
    groups::layout(&groups, 24).with(|l| {
        l.header.minor = 3;
        l.header.flags |= flag::PROPERTIES;
        let weights = Section::new(kind::PROPERTIES, *b"forty weights").named(*b"weight");
        l.sections.push(weights);
        l.sections
            .insert(2, Section::new(0x0777, *b"?").named(*b"later"));
    })
}

/// The partners of dense groups are time-ordered ids. Each seventh edge is dead.
fn board_edge(number: u64, is_dense: bool, i: u64) -> Edge {
    let (upper, lower) = if is_dense {
        (0x018F_6E2A_7C10_7ABC + i, 0x8000_0000_0000_0000 | number)
    } else {
        (number / 2, number * 1_000_003)
    };
    Edge {
        dead: number % 7 == 3,
        ..live(upper, lower, 1_000 + number)
    }
}

/// A file of these groups, of any bytes, and of this many edges whatever the
/// groups say. No edge is dead; bit 2 is set if a group begins as a dense one
/// of less than 128 partners.
pub fn of_bytes(groups: &[Vec<u8>], edge_count: u64) -> Layout {
    raw::layout(groups, edge_count, 24).with(|l| {
        let dense = groups.iter().any(|group| group.get(1) == Some(&0x10));
        l.sections
            .retain(|section| section.kind != kind::TOMBSTONES);
        l.header.flags = if dense { flag::DENSE } else { 0 };
    })
}

/// One split group of this many edges, live, each with another log number.
pub fn one_group(edge_count: u64) -> Layout {
    let edges: Vec<Edge> = (0..edge_count).map(|i| live(3 * i, i, 500 + i)).collect();
    groups::layout(&[split(id_of(1, 2), &edges)], 24)
}

/// The same with these edges dead, and bit 1 set if there are any.
pub fn one_group_dead(edge_count: u64, dead: &[u64]) -> Layout {
    one_group(edge_count).with(|l| {
        let mut bits = vec![0; edge_count.div_ceil(8) as usize];
        for &edge in dead {
            bits[edge as usize / 8] |= 1 << (edge % 8);
        }
        l.sections.push(Section::new(kind::TOMBSTONES, bits));
        if !dead.is_empty() {
            l.header.flags |= flag::TOMBSTONES;
        }
    })
}
