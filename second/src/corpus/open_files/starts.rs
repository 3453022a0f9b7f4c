//! The start index: sound ones wherever they may stand, its own faults under 9 to
//! 12, and refusal 37. Together with other faults it stands among the pairs.

use super::samples::{
    five_with_starts, full, full_indexed, heading_only, indexed, indexed_1025_keys, live, one_edge,
    single_groups, split, three_groups, FIVE_STARTS, SKIPPED,
};
use super::{expect, Files};
use crate::format::{bound, kind};
use crate::groups::{self, Edge, Group};
use crate::layout::{Layout, Section};
use crate::numbers::id_of;

pub fn add(files: &mut Files) {
    files.opens("indexed", five_with_starts(&FIVE_STARTS));
    places(files);
    minors(files);
    key_counts(files);
    large_numbers(files);
    lengths(files);
    ranges(files);
    one_wrong_entry(files);
    above_the_edge_count(files);
    several_wrong_entries(files);
    few_keys(files);
    later_entries(files);
    many_sections(files);
}

fn with_starts(layout: Layout, place: usize, starts: Section) -> Layout {
    layout.with(|l| l.sections.insert(place, starts))
}

/// At every place of the table, side by side with the others and with gaps.
fn places(files: &mut Files) {
    let starts = || groups::starts(&three_groups());
    for place in 0..=8 {
        let layout = with_starts(full(), place, starts());
        files.opens(format!("starts-at-entry-{place}"), layout);
        let layout = with_starts(full(), place, starts().gap(vec![0xEE; place + 1]));
        files.opens(format!("starts-at-entry-{place}-after-gap"), layout);
    }
    for place in 0..=4 {
        let starts = groups::start_index(&[0]);
        let layout = with_starts(heading_only(), place, starts);
        files.opens(format!("starts-of-no-keys-at-entry-{place}"), layout);
    }
    let gaps = full_indexed().with(|l| {
        for (i, section) in l.sections.iter_mut().enumerate() {
            section.gap = vec![0xFF; 9 - i];
        }
        l.last_gap = vec![0xFF; 7];
    });
    files.opens("starts-gaps-everywhere", gaps);
    let reversed = full_indexed().with(|l| l.sections.reverse());
    files.opens("starts-sections-reversed", reversed);
}

/// Lawful at any minor version.
fn minors(files: &mut Files) {
    for minor in [0, 1, 200] {
        for (word, place) in [("first", 0), ("middle", 4), ("last", 8)] {
            let starts = groups::starts(&three_groups());
            let layout = with_starts(full(), place, starts).with(|l| l.header.minor = minor);
            files.opens(format!("starts-{word}-at-minor-{minor}"), layout);
        }
    }
}

/// Lawful at any key count, and nowhere required.
fn key_counts(files: &mut Files) {
    for (count, minor) in [(0, 1), (1, 0), (2, 1), (20, 0), (1_024, 0)] {
        let layout = indexed(&single_groups(count)).with(|l| l.header.minor = minor);
        files.opens(format!("starts-of-{count}-keys"), layout);
    }
    files.opens("starts-of-1025-keys", indexed_1025_keys());
}

/// Starts that would not rise if a byte were left away, or if the first byte
/// were the highest.
fn large_numbers(files: &mut Files) {
    let edges: Vec<Edge> = (0..300).map(|i| live(7, i, i)).collect();
    let group = |(i, degree): (u64, usize)| split(id_of(i, 0), &edges[..degree]);
    let groups: Vec<Group> = (0..).zip([255, 1, 1, 300]).map(group).collect();
    files.opens("starts-above-255", indexed(&groups));
}

/// Another length than eight bytes for each key and eight more.
fn lengths(files: &mut Files) {
    for (word, layout, lengths) in [
        (
            "5-keys",
            five_with_starts(&FIVE_STARTS),
            &[0, 8, 39, 40, 44, 47, 49, 52, 56, 96][..],
        ),
        (
            "no-keys",
            with_starts(heading_only(), 4, groups::start_index(&[0])),
            &[0, 1, 7, 9, 16],
        ),
        (
            "1-key",
            with_starts(one_edge(), 4, groups::start_index(&[0, 1])),
            &[0, 8, 15, 17, 24],
        ),
    ] {
        for &length in lengths {
            let layout = layout
                .clone()
                .with(|l| l.section(kind::START_INDEX).bytes.resize(length, 0));
            let name = format!("starts-of-{word}-in-{length}-bytes");
            files.refused(name, layout, expect(12, 0));
        }
    }
    // The length alone says it, the bytes lie there.
    let layout = five_with_starts(&FIVE_STARTS).with(|l| {
        l.section(kind::START_INDEX).stated.length = Some(40);
    });
    files.refused("starts-of-5-keys-said-40-bytes", layout, expect(12, 0));
}

/// Its range keeps the rule of all ranges.
fn ranges(files: &mut Files) {
    for place in [0, 4, 8] {
        let sound = || with_starts(full(), place, groups::starts(&three_groups()));
        let begin = sound().offsets()[place];
        let to_footer = sound().footer_place() - begin;
        for (word, offset, length) in [
            ("begins-1-early", begin - 1, 32),
            ("begins-at-0", 0, 32),
            ("ends-in-footer", begin, to_footer + 1),
            ("begins-largest", u64::MAX, 32),
            ("is-largest", begin, u64::MAX),
        ] {
            let layout = sound().with(|l| {
                let stated = &mut l.section(kind::START_INDEX).stated;
                (stated.offset, stated.length) = (Some(offset), Some(length));
            });
            // Without a gap it begins where the one before it ends, or the header.
            let name = format!("starts-at-entry-{place}-range-{word}");
            files.refused(name, layout, expect(11, place as u64));
        }
    }
}

/// The starts of the five groups with another number at one place.
fn with_entry(place: usize, number: u64) -> [u64; 6] {
    let mut starts = FIVE_STARTS;
    starts[place] = number;
    starts
}

/// The first not 0; others equal to the one before, or below it; the last above
/// the one before, and below and above the edge count.
fn one_wrong_entry(files: &mut Files) {
    let high = [1 << 32, 1 << 63, u64::MAX];
    for (place, numbers) in [
        (0, &[1, 2, 9, 256, high[0], high[1], high[2]][..]),
        (1, &[0]),
        (2, &[2, 1, 0]),
        (3, &[3, 2, 0]),
        (4, &[6, 5, 0]),
        (5, &[7, 6, 0, 8, 10, 9 + 256]),
        (5, &[9 + high[0], 9 + high[1], u64::MAX, 9 << 56]),
    ] {
        for &number in numbers {
            let name = format!("start-{place}-is-{number}");
            let layout = five_with_starts(&with_entry(place, number));
            files.refused(name, layout, expect(37, place as u64));
        }
    }
    // Other starts that rise from 0 to the edge count: only the degrees tell.
    for (place, number) in [(1, 1), (2, 4), (3, 5), (4, 8)] {
        let name = format!("start-{place}-is-{number}");
        files.opens(name, five_with_starts(&with_entry(place, number)));
    }
}

/// A middle entry above the edge count is told at the next one that does not
/// rise, or at the last.
fn above_the_edge_count(files: &mut Files) {
    let top = 1 << 63;
    for (word, starts, place) in [
        ("1-alone", [0, 10, 3, 6, 7, 9], 2),
        ("1-far", [0, u64::MAX, 3, 6, 7, 9], 2),
        ("2-alone", [0, 2, 10, 6, 7, 9], 3),
        ("3-alone", [0, 2, 3, 100, 7, 9], 4),
        ("4-alone", [0, 2, 3, 6, 10, 9], 5),
        ("4-at-count", [0, 2, 3, 6, 9, 9], 5),
        ("4-far", [0, 2, 3, 6, u64::MAX, 9], 5),
        ("4-top-bit", [0, 2, 3, 6, top, 9], 5),
        ("3-and-4", [0, 2, 3, 10, 11, 9], 5),
        ("1-to-4", [0, 10, 11, 12, 13, 9], 5),
        ("1-to-5", [0, 10, 11, 12, 13, 14], 5),
        ("3-to-5", [0, 2, 3, 10, 11, 12], 5),
        ("2-to-5-far", [0, 2, top, top + 1, top + 2, top + 9], 5),
        ("4-and-5", [0, 2, 3, 6, 10, 11], 5),
        ("2-to-4-then-falls", [0, 2, 10, 12, 11, 9], 4),
        ("32-bits-alike", [0, 2, 3 + (1 << 32), 6, 7, 9], 3),
    ] {
        let name = format!("starts-above-count-{word}");
        let layout = five_with_starts(&starts);
        files.refused(name, layout, expect(37, place));
    }
}

/// The first one is told.
fn several_wrong_entries(files: &mut Files) {
    for (word, starts, place) in [
        ("zeros", [0; 6], 1),
        ("ones", [u64::MAX; 6], 0),
        ("degrees", [2, 1, 3, 1, 2, 9], 0),
        ("of-next-group", [2, 3, 6, 7, 9, 10], 0),
        ("of-group-before", [0, 0, 2, 3, 6, 7], 1),
        ("falling", [9, 7, 6, 3, 2, 0], 0),
        ("0-and-5", [1, 2, 3, 6, 7, 8], 0),
        ("2-and-4", [0, 2, 2, 6, 6, 9], 2),
        ("3-and-5", [0, 2, 3, 3, 7, 10], 3),
        ("4-and-5", [0, 2, 3, 6, 6, 10], 4),
        ("1-by-1", [0, 1, 2, 3, 4, 5], 5),
    ] {
        let name = format!("starts-wrong-{word}");
        let layout = five_with_starts(&starts);
        files.refused(name, layout, expect(37, place));
    }
}

/// No keys: the only entry is first and last. One key: there is no other.
fn few_keys(files: &mut Files) {
    for number in [1, 256, 1 << 32, 1 << 63, u64::MAX] {
        let starts = groups::start_index(&[number]);
        let layout = with_starts(heading_only(), 4, starts);
        let name = format!("starts-of-no-keys-{number}");
        files.refused(name, layout, expect(37, 0));
    }
    for (starts, place) in [
        ([0, 0], 1),
        ([0, 2], 1),
        ([1, 1], 0),
        ([1, 2], 0),
        ([0, u64::MAX], 1),
        ([u64::MAX, 1], 0),
    ] {
        let layout = with_starts(one_edge(), 4, groups::start_index(&starts));
        let name = format!("starts-of-1-key-{}-{}", starts[0], starts[1]);
        files.refused(name, layout, expect(37, place));
    }
}

/// Twenty keys of one edge, so that entry i is i: each of these equals the one
/// before it.
fn later_entries(files: &mut Files) {
    let sound: Vec<u64> = (0..=20).collect();
    for place in [7, 8, 9, 15, 16, 17, 19, 20] {
        let mut starts = sound.clone();
        starts[place] -= 1;
        let layout = groups::layout(&single_groups(20), 24);
        let layout = with_starts(layout, 4, groups::start_index(&starts));
        let name = format!("starts-of-20-keys-equal-at-{place}");
        files.refused(name, layout, expect(37, place as u64));
    }
}

/// As the first and the last of as many sections as there may be.
fn many_sections(files: &mut Files) {
    let most = bound::SECTIONS as usize;
    let fill = || one_edge().with(|l| l.sections.resize(most - 1, Section::new(SKIPPED, [])));
    for (word, place) in [("0", 0), ("63", 63)] {
        let layout = with_starts(fill(), place, groups::start_index(&[0, 1]));
        files.opens(format!("starts-at-entry-{word}-of-64"), layout);
        let layout = with_starts(fill(), place, groups::start_index(&[0, 1]).codec(1));
        let name = format!("starts-codec-at-entry-{word}-of-64");
        files.refused(name, layout, expect(10, place as u64));
    }
}
