//! Refusal 23: what only the whole of the groups tells.

use super::samples::{board, example, of_bytes, one_group, one_group_dead};
use super::Files;
use crate::corpus::lookup_calls::raw::{group, halves, single, DENSE, SPLIT};
use crate::corpus::open_files::samples::{full, heading_only};
use crate::format::{flag, kind};
use crate::layout::{Layout, Section};
use crate::numbers::id_of;

pub fn add(files: &mut Files) {
    degree_sums(files);
    degree_sums_with_tombstones(files);
    bit_1(files);
    bit_2(files);
    unused_bits(files);
}

/// Degrees 2, 1 and 3 under every edge count that opening lets pass.
fn degree_sums(files: &mut Files) {
    let groups = [
        group(2, &[SPLIT, &halves(3, 1), &halves(1, 1)]),
        single(4, 4),
        group(3, &[SPLIT, &halves(0, 1), &halves(0, 2), &halves(9, 0)]),
    ];
    for edge_count in 3..=9 {
        let name = format!("check-degrees-6-edges-{edge_count}");
        let layout = of_bytes(&groups, edge_count);
        if edge_count == 6 {
            files.fine(name, layout);
        } else {
            files.refused(name, layout, 23, 0);
        }
    }
    let dense = [group(2, &[DENSE, &id_of(1, 2), &id_of(3, 4)]), single(1, 1)];
    for edge_count in [2, 4] {
        let name = format!("check-degrees-3-dense-edges-{edge_count}");
        files.refused(name, of_bytes(&dense, edge_count), 23, 0);
    }
    for (word, edge_count) in [("256-more", 257), ("one-more", 2)] {
        let layout = of_bytes(&[single(5, 1)], edge_count);
        files.refused(format!("check-degree-1-{word}"), layout, 23, 0);
    }
}

/// The tombstones are as the edge count says, and nothing else is wrong.
fn degree_sums_with_tombstones(files: &mut Files) {
    for (edges, said) in [(9, 8), (8, 9), (16, 17), (17, 16), (3, 2), (5, 6)] {
        let layout = one_group_dead(said, &[0]).with(|l| {
            let mut other = one_group_dead(edges, &[0]);
            for kind in [kind::PARTNERS, kind::OFFSETS] {
                *l.section(kind) = other.section(kind).clone();
            }
        });
        let name = format!("check-degree-{edges}-edges-{said}-first-dead");
        files.refused(name, layout, 23, 0);
    }
}

fn set(layout: Layout, flags: u32) -> Layout {
    layout.with(|l| l.header.flags |= flags)
}

fn clear(layout: Layout, flags: u32) -> Layout {
    layout.with(|l| l.header.flags &= !flags)
}

fn bit_1(files: &mut Files) {
    for count in [1, 5, 8, 9, 16] {
        let name = |word: &str| format!("check-{count}-edges-{word}");
        let none = set(one_group_dead(count, &[]), flag::TOMBSTONES);
        files.refused(name("bit-1-none-dead"), none, 23, 0);
        for (word, edge) in [("first", 0), ("middle", count / 2), ("last", count - 1)] {
            let layout = clear(one_group_dead(count, &[edge]), flag::TOMBSTONES);
            files.refused(name(&format!("{word}-dead-no-bit-1")), layout, 23, 0);
        }
    }
    for (word, layout) in [("full", full()), ("board", board())] {
        let layout = clear(layout, flag::TOMBSTONES);
        files.refused(format!("check-{word}-no-bit-1"), layout, 23, 0);
    }
    let empty = heading_only().with(|l| l.sections.push(Section::new(kind::TOMBSTONES, [])));
    let empty = set(empty, flag::TOMBSTONES);
    files.refused("check-no-edges-bit-1", empty, 23, 0);
}

fn bit_2(files: &mut Files) {
    for (word, layout) in [
        ("heading-only", heading_only()),
        ("example", example()),
        // A degree that reads like the tag.
        ("degree-16", one_group(16)),
        ("degree-128", one_group(128)),
    ] {
        let layout = set(layout, flag::DENSE);
        files.refused(format!("check-bit-2-{word}"), layout, 23, 0);
    }
    for (word, layout) in [("full", full()), ("board", board())] {
        let layout = clear(layout, flag::DENSE);
        files.refused(format!("check-no-bit-2-{word}"), layout, 23, 0);
    }
    for place in 0..3 {
        let mut groups = [0, 1, 2].map(|i| single(i, 1));
        groups[place] = group(1, &[DENSE, &id_of(2, 3)]);
        let layout = clear(of_bytes(&groups, 3), flag::DENSE);
        let name = format!("check-no-bit-2-dense-group-{place}");
        files.refused(name, layout, 23, 0);
    }
    let both = clear(set(example(), flag::DENSE), flag::TOMBSTONES);
    files.refused("check-bit-2-bit-1-clear", both, 23, 0);
}

/// Each unused bit alone, with a dead edge and without one. It is no dead edge,
/// whatever bit 1 says.
fn unused_bits(files: &mut Files) {
    for count in [1u64, 5, 7, 9, 15, 17] {
        let last = (count.div_ceil(8) - 1) as usize;
        for bit in count % 8..8 {
            let unused = |layout: Layout| {
                layout.with(|l| l.section(kind::TOMBSTONES).bytes[last] |= 1 << bit)
            };
            let name = |word: &str| format!("check-{count}-edges-unused-bit-{bit}-{word}");
            let with_dead = unused(one_group_dead(count, &[count / 2]));
            files.refused(name("one-dead"), with_dead, 23, 0);
            let alone = unused(one_group_dead(count, &[]));
            files.refused(name("none-dead"), alone.clone(), 23, 0);
            let said = set(alone, flag::TOMBSTONES);
            files.refused(name("none-dead-bit-1"), said, 23, 0);
        }
    }
}
