//! Sound files of every layout that the rules allow, but for those about
//! skipped kinds and property streams.

use super::samples::{
    dead, dense, full, heading_only, live, one_edge, single_groups, split, three_groups, SKIPPED,
};
use super::Files;
use crate::format::{flag, kind, OFFSET_BITS};
use crate::groups::{self, Edge};
use crate::layout::{Layout, Section};
use crate::numbers::id_of;

pub fn add(files: &mut Files) {
    files.opens("heading-only", heading_only());
    files.opens("one-edge", one_edge());
    files.opens("three-groups", groups::layout(&three_groups(), 24));
    files.opens("full", full());
    headers(files);
    group_forms(files);
    key_orders(files);
    offset_widths(files);
    section_orders(files);
    gaps(files);
    empty_sections(files);
    empty_read_kinds(files);
    tombstones(files);
    fences(files);
}

fn headers(files: &mut Files) {
    for minor in [1, 127, 128, 200, 255] {
        let layout = one_edge().with(|l| l.header.minor = minor);
        files.opens(format!("minor-{minor}"), layout);
    }
    for (word, byte) in [("zero", 0x00), ("ones", 0xFF)] {
        let layout = one_edge().with(|l| {
            let id = [byte; 16];
            (l.header.edge_type, l.header.source, l.header.destination) = (id, id, id);
        });
        files.opens(format!("ids-all-{word}"), layout);
    }
    let inverse = |layout: Layout| layout.with(|l| l.header.flags |= flag::INVERSE);
    files.opens("inverse-heading-only", inverse(heading_only()));
    files.opens("inverse-one-edge", inverse(one_edge()));
    // Sections 5 and 0x0100 are there just where their bits want them.
    for flags in 0..16 {
        let layout = groups::layout(&three_groups()[1..], 24).with(|l| {
            l.header.flags = flags;
            if flags & flag::TOMBSTONES != 0 {
                l.sections.push(Section::new(kind::TOMBSTONES, [0]));
            }
            if flags & flag::PROPERTIES != 0 {
                l.sections.push(Section::new(kind::PROPERTIES, *b"p"));
            }
        });
        files.opens(format!("flags-{flags:04b}"), layout);
    }
}

fn group_forms(files: &mut Files) {
    let key = id_of(1, 2);
    let mut one_group = |name: &str, group| files.opens(name, groups::layout(&[group], 24));
    one_group("one-edge-dense", dense(key, &[live(5, 1, 7)]));
    one_group("one-edge-dead", split(key, &[dead(5, 1, 7)]));
    one_group("one-edge-dense-dead", dense(key, &[dead(5, 1, 7)]));
    one_group(
        "one-edge-largest-numbers",
        split(
            id_of(u64::MAX, u64::MAX),
            &[live(u64::MAX, u64::MAX, u64::MAX)],
        ),
    );
    let all_zero = split(id_of(0, 0), &[live(0, 0, 0)]);
    one_group("one-edge-smallest-numbers", all_zero);
    one_group(
        "two-edges-of-one-key",
        split(key, &[live(5, 1, 7), live(5, 2, 8)]),
    );
    one_group(
        "three-dense-edges-of-one-key",
        dense(key, &[live(5, 1, 7), dead(5, 2, 8), live(6, 0, 9)]),
    );
    let many: Vec<Edge> = (0..128).map(|i| live(i / 3, i, i)).collect();
    one_group("degree-128-in-two-bytes", split(key, &many));
}

/// Keys that increase as big-endian numbers, and would not if they were read
/// otherwise.
fn key_orders(files: &mut Files) {
    let mut keyed = |name: &str, keys: &[(u64, u64)]| {
        let groups: Vec<_> = keys
            .iter()
            .map(|&(upper, lower)| split(id_of(upper, lower), &[live(0, 0, 0)]))
            .collect();
        files.opens(format!("keys-{name}"), groups::layout(&groups, 24));
    };
    keyed(
        "fall-as-little-endian",
        &[(1, 2 << 56), (1, (2 << 56) + 1), (2, 0)],
    );
    keyed("fall-as-signed", &[((1 << 63) - 1, 0), (1 << 63, 0)]);
    keyed("fall-as-signed-bytes", &[(0, 0x7F), (0, 0x80), (0, 0xFF)]);
    keyed("fall-in-lower-half", &[(1, u64::MAX), (2, 0)]);
    keyed(
        "fall-in-upper-32-bits-halved",
        &[(0xFFFF_FFFF, 0), (1 << 32, 0)],
    );
    keyed("differ-in-first-byte", &[(1 << 56, 5), (2 << 56, 5)]);
    keyed("differ-in-last-byte", &[(7, 0xFE), (7, 0xFF)]);
    keyed("first-and-last-possible", &[(0, 0), (u64::MAX, u64::MAX)]);
}

fn offset_widths(files: &mut Files) {
    for bits in OFFSET_BITS {
        let name = |what: &str| format!("{what}-{bits}-bits");
        files.opens(name("heading-only"), groups::layout(&[], bits));
        let groups = three_groups();
        files.opens(name("one-edge"), groups::layout(&single_groups(1), bits));
        files.opens(name("three-groups"), groups::layout(&groups, bits));
        files.opens(
            name("three-groups-with-fences"),
            groups::layout(&groups, bits).with(|l| l.sections.push(groups::fences(&groups, 1))),
        );
    }
    // An offset of which more than one byte counts.
    let edges: Vec<Edge> = (0..40).map(|i| live(7, i, i)).collect();
    let groups = [
        split(id_of(1, 0), &edges),
        split(id_of(2, 0), &[live(1, 1, 1)]),
    ];
    files.opens("offsets-above-255", groups::layout(&groups, 24));
}

/// The section order is free, as long as the ranges rise in table order.
fn section_orders(files: &mut Files) {
    let reorder = |layout: Layout, kinds: &[u16]| {
        let mut source = layout.clone();
        layout.with(|l| l.sections = kinds.iter().map(|&k| source.section(k).clone()).collect())
    };
    let name = |kinds: &[u16]| {
        let digits: Vec<String> = kinds.iter().map(u16::to_string).collect();
        format!("order-{}", digits.join("-"))
    };
    for kinds in [
        [4, 3, 2, 1],
        [2, 1, 4, 3],
        [3, 1, 4, 2],
        [2, 3, 4, 1],
        [1, 4, 3, 2],
    ] {
        files.opens(name(&kinds), reorder(one_edge(), &kinds));
    }
    for kinds in [
        [6, 5, 4, 3, 2, 1],
        [5, 6, 1, 2, 3, 4],
        [1, 6, 2, 5, 3, 4],
        [3, 5, 1, 6, 4, 2],
        [6, 1, 2, 3, 4, 5],
    ] {
        let layout = reorder(full(), &kinds).with(|l| l.header.flags &= !flag::PROPERTIES);
        files.opens(name(&kinds), layout);
    }
    let kinds = [256, 6, 4, 2, SKIPPED, 5, 3, 1];
    files.opens(name(&kinds), reorder(full(), &kinds));
    let kinds = [3, 4, 1, 2];
    files.opens(
        format!("heading-only-{}", name(&kinds)),
        reorder(heading_only(), &kinds),
    );
}

/// Gaps hold anything.
fn gaps(files: &mut Files) {
    for index in 0..4 {
        let layout = one_edge().with(|l| l.sections[index].gap = vec![0xEE; 5]);
        files.opens(format!("gap-before-section-{index}"), layout);
    }
    let layout = one_edge().with(|l| l.last_gap = vec![0xEE; 5]);
    files.opens("gap-before-footer", layout);
    let layout = one_edge().with(|l| l.last_gap = vec![0x00]);
    files.opens("gap-of-one-byte-before-footer", layout);
    let everywhere = |layout: Layout| {
        layout.with(|l| {
            for (i, section) in l.sections.iter_mut().enumerate() {
                section.gap = vec![i as u8; i + 1];
            }
            l.last_gap = vec![0x77; 9];
        })
    };
    files.opens("gaps-everywhere-one-edge", everywhere(one_edge()));
    files.opens("gaps-everywhere-heading-only", everywhere(heading_only()));
    files.opens("gaps-everywhere-full", everywhere(full()));
    // A gap that looks like a footer's end.
    let mut ends = one_edge();
    ends.last_gap = ends.bytes()[one_edge().footer_place() as usize..].to_vec();
    files.opens("gap-like-a-footer", ends);
}

/// Zero lengths where a range rule is at its edge.
fn empty_sections(files: &mut Files) {
    let empty = || Section::new(SKIPPED, []);
    let at_64 = one_edge().with(|l| l.sections.insert(0, empty()));
    files.opens("empty-section-at-64", at_64);
    let at_footer = one_edge().with(|l| l.sections.push(empty()));
    files.opens("empty-section-at-footer", at_footer);
    let at_footer = one_edge().with(|l| l.sections.push(empty().gap([1, 2, 3])));
    files.opens("empty-section-after-gap-at-footer", at_footer);
    let in_gap = one_edge().with(|l| {
        l.sections.push(empty().gap([1, 2, 3]));
        l.last_gap = vec![4, 5];
    });
    files.opens("empty-section-in-last-gap", in_gap);
    let between = one_edge().with(|l| {
        for _ in 0..3 {
            l.sections.insert(2, empty());
        }
    });
    files.opens("three-empty-sections-at-one-place", between);
    let both = one_edge().with(|l| {
        l.sections.insert(0, empty());
        l.sections.insert(0, empty());
        l.sections.push(empty());
        l.sections.push(empty());
    });
    files.opens("empty-sections-at-both-ends", both);
}

/// All that may be empty of the kinds that are read lies at the footer, or at
/// 64.
fn empty_read_kinds(files: &mut Files) {
    let at_footer = heading_only().with(|l| l.sections.swap(0, 1));
    files.opens("heading-only-empty-ones-at-footer", at_footer);
    let at_64 = heading_only().with(|l| {
        let offsets = l.sections.remove(1);
        l.sections.push(offsets);
    });
    files.opens("heading-only-empty-ones-at-64", at_64);
    let tombstones = || Section::new(kind::TOMBSTONES, []);
    let layout = heading_only().with(|l| l.sections.insert(0, tombstones()));
    files.opens("empty-tombstones-at-64", layout);
    let layout = heading_only().with(|l| l.sections.push(tombstones()));
    files.opens("empty-tombstones-at-footer", layout);
}

fn tombstones(files: &mut Files) {
    let empty = || heading_only().with(|l| l.sections.push(Section::new(kind::TOMBSTONES, [])));
    files.opens(
        "heading-only-tombstones-and-bit-1",
        empty().with(|l| l.header.flags = flag::TOMBSTONES),
    );
    for (word, flags) in [("clear", 0), ("set", flag::TOMBSTONES)] {
        let layout = one_edge().with(|l| {
            l.sections.push(Section::new(kind::TOMBSTONES, [0]));
            l.header.flags = flags;
        });
        files.opens(format!("tombstones-none-dead-bit-1-{word}"), layout);
    }
    // One byte for eight edges, one more from the ninth on.
    for edge_count in [1, 7, 8, 9, 15, 16, 17] {
        let edges: Vec<Edge> = (0..edge_count).map(|i| dead(i, i, i)).collect();
        let layout = groups::layout(&[split(id_of(1, 2), &edges)], 24);
        files.opens(format!("tombstones-of-{edge_count}-edges"), layout);
    }
}

/// Fences may be there at any key count.
fn fences(files: &mut Files) {
    let fenced = |count: u64, stride: u32| {
        let groups = single_groups(count);
        groups::layout(&groups, 24).with(|l| l.sections.push(groups::fences(&groups, stride)))
    };
    for stride in [1, 2, 256, u32::MAX] {
        let name = format!("fences-over-no-keys-stride-{stride}");
        files.opens(name, fenced(0, stride));
    }
    for (count, strides) in [
        (1, &[1, 2, 3, u32::MAX][..]),
        (2, &[1, 2, 3, 256]),
        (3, &[1, 2, 3, 4, 1 << 31]),
        (4, &[1, 2, 3, 4, 5]),
        (5, &[1, 2, 3, 4, 5, 6, 7, 65_536, u32::MAX - 1, u32::MAX]),
        (7, &[1, 3, 5, 6]),
        (9, &[2, 3, 7]),
    ] {
        for &stride in strides {
            let name = format!("fences-over-{count}-keys-stride-{stride}");
            files.opens(name, fenced(count, stride));
        }
    }
    let first = fenced(3, 2).with(|l| l.sections.rotate_right(1));
    files.opens("fences-before-the-keys", first);
}
