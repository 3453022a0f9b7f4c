//! Refusal 11: the ranges of the sections.

use super::samples::{full, heading_only, one_edge, SKIPPED};
use super::{expect, Files};
use crate::format::kind;
use crate::layout::{Layout, Section};

pub fn add(files: &mut Files) {
    beginnings(files);
    last_end(files);
    ends(files);
    sums(files);
    rising(files);
    empty_ones(files);
    empty_read_kinds(files);
    first_of_several(files);
}

/// The description with another offset in a row.
fn begin(layout: Layout, index: usize, offset: u64) -> Layout {
    layout.with(|l| l.sections[index].stated.offset = Some(offset))
}

fn length(layout: Layout, index: usize, length: u64) -> Layout {
    layout.with(|l| l.sections[index].stated.length = Some(length))
}

fn beginnings(files: &mut Files) {
    for offset in [63, 62, 1, 0] {
        let layout = begin(one_edge(), 0, offset);
        files.refused(format!("range-begins-at-{offset}"), layout, expect(11, 0));
    }
    let layout = begin(heading_only(), 0, 63);
    files.refused("range-of-no-keys-begins-at-63", layout, expect(11, 0));
    // A skipped kind has to keep the rule too.
    let skipped = one_edge().with(|l| l.sections.insert(0, Section::new(SKIPPED, *b"skip")));
    let layout = begin(skipped, 0, 63);
    files.refused("range-of-skipped-kind-begins-at-63", layout, expect(11, 0));
    // Rows after the first: they begin below 64 and below the end before.
    for index in [1, 4, 7] {
        let layout = begin(full(), index, 63);
        let name = format!("range-at-entry-{index}-begins-at-63");
        files.refused(name, layout, expect(11, index as u64));
    }
}

/// The last section goes on into the footer, or begins there or past it.
fn last_end(files: &mut Files) {
    let right = one_edge().sections[3].bytes.len() as u64;
    for (word, by) in [("1", 1), ("20", 20), ("all-the-footer", 151)] {
        let layout = length(one_edge(), 3, right + by);
        let name = format!("range-ends-past-footer-begin-by-{word}");
        files.refused(name, layout, expect(11, 3));
    }
    let past_file = length(one_edge(), 3, one_edge().size());
    files.refused("range-ends-past-file", past_file, expect(11, 3));
    let moved = begin(one_edge(), 3, one_edge().offsets()[3] + 1);
    files.refused("range-moved-past-footer-begin-by-1", moved, expect(11, 3));
    let footer = begin(one_edge(), 3, one_edge().footer_place());
    files.refused("range-begins-at-footer", footer, expect(11, 3));
    let past = begin(one_edge(), 3, one_edge().size());
    files.refused("range-begins-past-file", past, expect(11, 3));
}

/// The description with a section that goes on so far into the footer.
fn into_footer(index: usize, by: u64) -> Layout {
    let to_end = full().footer_place() - full().offsets()[index];
    length(full(), index, to_end + by)
}

fn ends(files: &mut Files) {
    // Each row in turn goes on one byte into the footer. It is told itself,
    // though the row after it then begins too early as well.
    for index in 0..8 {
        let name = format!("range-at-entry-{index}-ends-in-footer");
        files.refused(name, into_footer(index, 1), expect(11, index as u64));
    }
    // It ends just with the footer's beginning, so the next begins too early.
    for index in [0, 2, 5] {
        let name = format!("range-at-entry-{index}-ends-at-footer");
        files.refused(name, into_footer(index, 0), expect(11, index as u64 + 1));
    }
    let last = full().with(|l| {
        l.sections.push(Section::new(SKIPPED, *b"skip"));
        l.last_gap.clear();
    });
    let name = "range-of-skipped-kind-ends-in-footer";
    files.refused(name, length(last, 8, 5), expect(11, 8));
}

/// Offset and length whose sum is 2^64 or more, and would be small or right if
/// it were kept in 64 bits; and the same for 32 bits.
fn sums(files: &mut Files) {
    for index in [0, 2, 3] {
        let offset = one_edge().offsets()[index];
        let right = one_edge().sections[index].bytes.len() as u64;
        let mut both = |name: &str, stated_offset: u64, stated_length: u64| {
            let layout = length(
                begin(one_edge(), index, stated_offset),
                index,
                stated_length,
            );
            let name = format!("range-at-entry-{index}-{name}");
            files.refused(name, layout, expect(11, index as u64));
        };
        both("sum-is-2-to-64", offset, offset.wrapping_neg());
        both("length-largest", offset, u64::MAX);
        both("offset-largest", u64::MAX, right);
        both("offset-largest-length-0", u64::MAX, 0);
        both("offset-largest-length-1", u64::MAX, 1);
        both("both-largest", u64::MAX, u64::MAX);
        both("both-2-to-63", 1 << 63, 1 << 63);
        both("sum-wraps-to-its-end", u64::MAX - 7, offset + right + 8);
        both("offset-2-to-32-more", offset + (1 << 32), right);
        both("length-2-to-32-more", offset, right + (1 << 32));
        both("length-2-to-31", offset, 1 << 31);
    }
    // In 64 bits the sum would be the end of the section before it.
    let one_more = one_edge().with(|l| l.sections.push(Section::new(SKIPPED, *b"skipped")));
    let offset = one_more.offsets()[4];
    let layout = length(begin(one_more, 4, u64::MAX), 4, offset + 1);
    files.refused("range-of-skipped-kind-sum-wraps", layout, expect(11, 4));
}

fn rising(files: &mut Files) {
    // Each row in turn begins one byte before the end of the row before it,
    // or with it.
    for index in 1..8 {
        let layout = full().with(|l| l.sections[index].gap.clear());
        let offset = layout.offsets()[index];
        let name = format!("range-at-entry-{index}-overlaps-by-1");
        let overlapping = begin(layout.clone(), index, offset - 1);
        files.refused(name, overlapping, expect(11, index as u64));
        let before = layout.offsets()[index - 1];
        let name = format!("range-at-entry-{index}-begins-with-last");
        files.refused(name, begin(layout, index, before), expect(11, index as u64));
    }
    // The bytes lie where they did, but the rows are exchanged.
    for (first, second) in [(0, 1), (2, 3), (0, 3)] {
        let layout = one_edge().with_bytes_fixed();
        let layout = layout.with(|l| l.sections.swap(first, second));
        let name = format!("rows-{first}-and-{second}-exchanged");
        files.refused(name, layout, expect(11, first as u64 + 1));
    }
    // The ranges that are read rise all the same.
    let skipped_last = full().with_bytes_fixed().with(|l| {
        let skipped = l.sections.remove(2);
        l.sections.push(skipped);
    });
    files.refused("row-of-skipped-kind-last", skipped_last, expect(11, 7));
}

/// A skipped section of no bytes, as the entry with an index and at an offset;
/// and the entry that is told.
fn empty_ones(files: &mut Files) {
    let with_empty = |index: usize| {
        one_edge().with(|layout| layout.sections.insert(index, Section::new(SKIPPED, [])))
    };
    let offsets = one_edge().offsets();
    let footer = one_edge().footer_place();
    for (word, index, offset, told) in [
        ("at-63", 0, 63, 0),
        ("at-0", 0, 0, 0),
        ("last-at-0", 4, 0, 4),
        ("past-footer-begin", 4, footer + 1, 4),
        ("first-past-footer-begin", 0, footer + 1, 0),
        ("at-file-end", 4, with_empty(4).size(), 4),
        ("inside-the-last", 1, offsets[1] - 1, 1),
        ("where-the-last-begins", 1, offsets[0], 1),
        // It may lie there itself, but the next row has to begin no earlier.
        ("first-at-footer-begin", 0, footer, 1),
        ("inside-the-next", 1, offsets[1] + 1, 2),
    ] {
        let layout = begin(with_empty(index), index, offset);
        files.refused(format!("empty-range-{word}"), layout, expect(11, told));
    }
}

/// Kinds that are read and have no bytes in a file without keys.
fn empty_read_kinds(files: &mut Files) {
    let no_keys = begin(heading_only(), 0, heading_only().footer_place());
    files.refused("empty-keys-at-footer-begin", no_keys, expect(11, 1));
    let no_logs = begin(heading_only(), 3, 66);
    files.refused("empty-logs-inside-the-offsets", no_logs, expect(11, 3));
    let tombstones = heading_only().with(|l| l.sections.push(Section::new(kind::TOMBSTONES, [])));
    let tombstones = begin(tombstones, 4, 64);
    files.refused("empty-tombstones-at-64-but-last", tombstones, expect(11, 4));
}

fn first_of_several(files: &mut Files) {
    let layout = begin(begin(full(), 6, 0), 2, 0);
    files.refused("ranges-at-entries-2-and-6", layout, expect(11, 2));
    let layout = length(begin(full(), 0, 0), 7, 1 << 40);
    files.refused("ranges-at-entries-0-and-7", layout, expect(11, 0));
    let layout = length(length(full(), 5, u64::MAX), 3, u64::MAX);
    files.refused("ranges-at-entries-3-and-5", layout, expect(11, 3));
    let layout = full().with(|l| {
        for section in &mut l.sections {
            section.stated.offset = Some(64);
        }
    });
    files.refused("ranges-all-begin-at-64", layout, expect(11, 1));
    let last = one_edge().with(|l| l.sections.resize(64, Section::new(SKIPPED, [])));
    let last = begin(last, 63, 80);
    files.refused("range-at-entry-63", last, expect(11, 63));
}
