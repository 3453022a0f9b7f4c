//! Refusal 12: the counts, the lengths they give, and the flag bits 0 and 1.

use super::samples::{dead, full, heading_only, live, one_edge, single_groups, split};
use super::{expect, Files};
use crate::format::{bound, flag, kind, OFFSET_BITS};
use crate::groups::{self, Group};
use crate::layout::{Layout, Section};
use crate::numbers::id_of;

pub fn add(files: &mut Files) {
    key_counts(files);
    edge_counts(files);
    wrapping_lengths(files);
    edges_and_keys(files);
    offset_bits(files);
    offset_bits_in_earnest(files);
    exchanged_widths(files);
    lengths(files);
    lengths_without_keys(files);
    tombstone_lengths(files);
    flag_bits(files);
    property_streams(files);
    other_kinds(files);
}

fn two_groups() -> Vec<Group> {
    vec![
        split(id_of(1, 2), &[live(5, 1, 7), dead(5, 2, 8)]),
        split(id_of(2, 0), &[live(0, 9, 1)]),
    ]
}

/// Sections 1 to 5; 2 keys, 3 edges, offsets of 24 bits.
fn base() -> Layout {
    groups::layout(&two_groups(), 24)
}

/// The description with this many edges, as far as edge count and log numbers
/// go.
fn with_edges(layout: Layout, count: u64) -> Layout {
    layout.with(|l| {
        l.edge_count = count;
        l.section(kind::LOGS).bytes = vec![3; 8 * count as usize];
    })
}

fn key_counts(files: &mut Files) {
    for (word, count) in [
        ("0", 0),
        ("one-less", 1),
        ("one-more", 3),
        ("2-to-8-more", 2 + (1 << 8)),
        ("fences-required", bound::KEYS_WITHOUT_FENCES + 1),
        ("bound", bound::KEYS),
        ("bound-passed", bound::KEYS + 1),
        ("2-to-32-more", 2 + (1 << 32)),
        ("2-to-60-more", 2 + (1 << 60)),
        ("2-to-63-more", 2 + (1 << 63)),
        ("big-endian", 2 << 56),
        ("largest", u64::MAX),
    ] {
        let layout = base().with(|l| l.key_count = count);
        files.refused(format!("key-count-{word}"), layout, expect(12, 0));
    }
}

fn edge_counts(files: &mut Files) {
    for (word, count) in [
        ("0", 0),
        ("one-less", 2),
        ("one-more", 4),
        ("2-to-8-more", 3 + (1 << 8)),
        ("bound", bound::EDGES),
        ("bound-passed", bound::EDGES + 1),
        ("2-to-32-more", 3 + (1 << 32)),
        ("2-to-61-more", 3 + (1 << 61)),
        ("2-to-63-more", 3 + (1 << 63)),
        ("big-endian", 3 << 56),
        ("largest", u64::MAX),
    ] {
        let layout = base().with(|l| l.edge_count = count);
        files.refused(format!("edge-count-{word}"), layout, expect(12, 0));
    }
    let swapped = base().with(|l| (l.key_count, l.edge_count) = (3, 2));
    files.refused("counts-swapped", swapped, expect(12, 0));
}

/// Counts so large that the lengths they give come out right, or all small, in
/// sums kept to 64 or 32 bits.
fn wrapping_lengths(files: &mut Files) {
    for (power, bits) in [(62, 32), (63, 32), (63, 48)] {
        // 16·2^power, 8·2^power and bits/8·2^power are multiples of 2^64.
        let layout = groups::layout(&[], bits).with(|l| {
            l.key_count = 1 << power;
            l.edge_count = 1 << power;
            l.sections.push(groups::fences(&[], u32::MAX));
        });
        let name = format!("counts-2-to-{power}-over-empty-sections-{bits}-bits");
        files.refused(name, layout, expect(12, 0));
    }
    let edges = |count: u64| one_edge().with(|l| l.edge_count = count);
    files.refused("edge-count-logs-wrap", edges(1 + (1 << 61)), expect(12, 0));
    files.refused(
        "edge-count-logs-wrap-in-32",
        edges(1 + (1 << 29)),
        expect(12, 0),
    );
    // The offset count is the key count and one more: none at all, if that sum
    // wraps.
    let layout = heading_only().with(|l| {
        l.key_count = u64::MAX;
        l.edge_count = u64::MAX;
        l.sections[1].bytes.clear();
    });
    files.refused("counts-largest-and-no-offset", layout, expect(12, 0));
    // Rounded up, the largest edge count would have no tombstone byte.
    let layout = heading_only().with(|l| {
        l.edge_count = u64::MAX;
        l.sections.push(Section::new(kind::TOMBSTONES, []));
    });
    files.refused("edge-count-largest-and-tombstones", layout, expect(12, 0));
}

/// Lengths are right for all of these.
fn edges_and_keys(files: &mut Files) {
    for count in [1, 2, 8] {
        let layout = with_edges(heading_only(), count);
        files.refused(format!("edges-without-keys-{count}"), layout, expect(12, 0));
    }
    for (keys, edges) in [(1, 0), (2, 1), (3, 0), (3, 2), (5, 4)] {
        let layout = with_edges(groups::layout(&single_groups(keys), 24), edges);
        let name = format!("edges-{edges}-below-keys-{keys}");
        files.refused(name, layout, expect(12, 0));
    }
    let layout = with_edges(full(), 2);
    files.refused("edges-below-keys-full", layout, expect(12, 0));
}

fn offset_bits(files: &mut Files) {
    for bits in [
        0, 1, 3, 4, 5, 6, 8, 16, 23, 25, 28, 31, 33, 36, 44, 47, 49, 56, 64, 128, 152, 255,
    ] {
        let layout = base().with(|l| l.offset_bits = bits);
        files.refused(format!("offset-bits-{bits}"), layout, expect(12, 0));
    }
}

/// The section has the length that these bits give.
fn offset_bits_in_earnest(files: &mut Files) {
    for bits in [16, 56, 64] {
        let layout = groups::layout(&two_groups(), bits);
        let name = format!("offset-bits-{bits}-in-earnest");
        files.refused(name, layout, expect(12, 0));
    }
    let layout = heading_only().with(|l| {
        l.sections[1].bytes.clear();
        l.offset_bits = 0;
    });
    files.refused("offset-bits-0-in-earnest", layout, expect(12, 0));
    // Three numbers of so many bits: the bytes come out even, or rounded down.
    for (bits, length) in [(8, 3), (25, 9), (28, 10), (36, 13), (44, 16)] {
        let layout = base().with(|l| {
            l.section(kind::OFFSETS).bytes = vec![0; length];
            l.offset_bits = bits;
        });
        let name = format!("offset-bits-{bits}-in-{length}-bytes");
        files.refused(name, layout, expect(12, 0));
    }
}

/// Each width said to be each other.
fn exchanged_widths(files: &mut Files) {
    for said in OFFSET_BITS {
        for bits in OFFSET_BITS.into_iter().filter(|&bits| bits != said) {
            let layout = groups::layout(&single_groups(2), bits).with(|l| l.offset_bits = said);
            let name = format!("offset-bits-{bits}-said-{said}");
            files.refused(name, layout, expect(12, 0));
        }
    }
}

/// The bytes of the section go on or end early; the row says so.
fn lengths(files: &mut Files) {
    for (word, kind, changes) in [
        ("keys", kind::KEYS, &[-32, -16, -8, -1, 1, 8, 16][..]),
        ("offsets", kind::OFFSETS, &[-9, -3, -1, 1, 2, 3]),
        ("logs", kind::LOGS, &[-24, -8, -1, 1, 4, 8]),
        ("tombstones", kind::TOMBSTONES, &[-1, 1, 2, 7]),
    ] {
        for &change in changes {
            let layout = base().with(|l| {
                let bytes = &mut l.section(kind).bytes;
                let length = bytes.len().checked_add_signed(change);
                bytes.resize(length.expect("a length"), 0);
            });
            let way = if change < 0 { "shorter" } else { "longer" };
            let name = format!("length-of-{word}-{way}-by-{}", change.unsigned_abs());
            files.refused(name, layout, expect(12, 0));
        }
    }
}

/// With no keys, all sections but the offsets are empty.
fn lengths_without_keys(files: &mut Files) {
    for (word, kind) in [
        ("keys", kind::KEYS),
        ("offsets", kind::OFFSETS),
        ("logs", kind::LOGS),
    ] {
        let layout = heading_only().with(|l| l.section(kind).bytes.push(0));
        let name = format!("length-of-{word}-longer-on-heading-only");
        files.refused(name, layout, expect(12, 0));
    }
    let layout = heading_only().with(|l| l.sections[1].bytes.clear());
    files.refused("length-of-offsets-0-on-heading-only", layout, expect(12, 0));
}

/// Another length than one byte for eight edges.
fn tombstone_lengths(files: &mut Files) {
    for (edges, length) in [
        (0, 1),
        (1, 0),
        (8, 2),
        (8, 0),
        (9, 1),
        (9, 3),
        (9, 9),
        (16, 3),
    ] {
        let layout = if edges == 0 {
            heading_only()
        } else {
            one_edge()
        };
        let layout = with_edges(layout, edges).with(|l| {
            let tombstones = Section::new(kind::TOMBSTONES, vec![0; length]);
            l.sections.push(tombstones);
        });
        let name = format!("tombstone-bytes-{length}-for-{edges}-edges");
        files.refused(name, layout, expect(12, 0));
    }
}

fn property_stream(bytes: &[u8]) -> Section {
    Section::new(kind::PROPERTIES, bytes)
}

fn with_flags(layout: Layout, flags: u32) -> Layout {
    layout.with(|l| l.header.flags |= flags)
}

/// A bit without its section, and a property stream without its bit.
fn flag_bits(files: &mut Files) {
    for (word, layout) in [
        ("heading-only", heading_only()),
        ("one-edge", one_edge()),
        ("minor-200", one_edge().with(|l| l.header.minor = 200)),
    ] {
        let name = format!("bit-0-without-properties-{word}");
        let flagged = with_flags(layout.clone(), flag::PROPERTIES);
        files.refused(name, flagged, expect(12, 0));
        let name = format!("bit-1-without-tombstones-{word}");
        let flagged = with_flags(layout.clone(), flag::TOMBSTONES);
        files.refused(name, flagged, expect(12, 0));
        let name = format!("properties-without-bit-0-{word}");
        let streamed = layout.with(|l| l.sections.push(property_stream(b"p")));
        files.refused(name, streamed, expect(12, 0));
    }
}

/// Property streams of any sort want bit 0.
fn property_streams(files: &mut Files) {
    for (word, section) in [
        ("empty", property_stream(b"")),
        ("named", property_stream(b"p").named(*b"weight")),
        ("coded", property_stream(b"p").codec(1)),
    ] {
        let layout = one_edge().with(|l| l.sections.push(section));
        let name = format!("properties-without-bit-0-{word}");
        files.refused(name, layout, expect(12, 0));
    }
    let layout = full().with(|l| l.header.flags &= !flag::PROPERTIES);
    files.refused("properties-without-bit-0-full", layout, expect(12, 0));
}

/// Only kind 0x0100 is meant by bit 0, and only kind 5 by bit 1.
fn other_kinds(files: &mut Files) {
    for (bit, flag, kinds, bytes) in [
        (
            0,
            flag::PROPERTIES,
            &[0, 0x0101, 0x0107, 0x0201, 0xFF00][..],
            b'p',
        ),
        (1, flag::TOMBSTONES, &[0x0105, 0x0107, 0x0500], 1),
    ] {
        for &kind in kinds {
            let layout = one_edge().with(|l| l.sections.push(Section::new(kind, [bytes])));
            let name = format!("bit-{bit}-with-kind-{kind}");
            files.refused(name, with_flags(layout, flag), expect(12, 0));
        }
    }
    let layout = full().with(|l| l.section(kind::TOMBSTONES).kind = 0x0105);
    let name = "bit-1-with-tombstones-as-kind-261";
    files.refused(name, layout, expect(12, 0));
    let both = with_flags(one_edge(), flag::PROPERTIES | flag::TOMBSTONES);
    files.refused("bits-0-and-1-without-sections", both, expect(12, 0));
}
