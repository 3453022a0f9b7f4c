//! The start index in the full check: sound ones, its sum, and refusal 23 where
//! it rises lawfully and is not as the degrees.

use super::samples::{board, of_bytes};
use super::Files;
use crate::corpus::lookup_calls::raw::{group, halves, single, SPLIT};
use crate::corpus::open_files::samples::{
    five_with_starts, full, full_indexed, heading_only, indexed, live, one_edge, set_start,
    single_groups, three_groups, FIVE_STARTS,
};
use crate::format::{flag, kind};
use crate::groups;
use crate::layout::Layout;
use crate::xxh3::xxh3_64;

pub fn add(files: &mut Files) {
    sound(files);
    wrong_entries(files);
    wrong_in_larger_files(files);
    wrong_sums(files);
    other_totals(files);
    sums_and_groups_first(files);
}

/// The starts of the larger sample, whose degrees are 1, 3, 2, 5, 1, 8, 4, 1, 6,
/// 2, 3 and 4.
const BOARD_STARTS: [u64; 13] = [0, 1, 4, 6, 11, 12, 20, 24, 25, 31, 33, 36, 40];

fn board_with_starts(starts: &[u64]) -> Layout {
    board().with(|l| l.sections.push(groups::start_index(starts)))
}

fn sound(files: &mut Files) {
    files.fine("check-starts-five", five_with_starts(&FIVE_STARTS));
    files.fine("check-starts-full", full_indexed());
    files.fine("check-starts-board", board_with_starts(&BOARD_STARTS));
    let inverse = five_with_starts(&FIVE_STARTS).with(|l| l.header.flags |= flag::INVERSE);
    files.fine("check-starts-inverse", inverse);
    let no_keys = heading_only().with(|l| l.sections.push(groups::start_index(&[0])));
    files.fine("check-starts-no-keys", no_keys);
    let one = one_edge().with(|l| l.sections.push(groups::start_index(&[0, 1])));
    files.fine("check-starts-one-edge", one);
    for place in 0..=8 {
        for minor in [0, 1, 200] {
            let starts = groups::starts(&three_groups()).gap(vec![9; 2 * place]);
            let layout = full().with(|l| {
                l.sections.insert(place, starts);
                l.header.minor = minor;
            });
            let name = format!("check-starts-at-{place}-minor-{minor}");
            files.fine(name, layout);
        }
    }
}

/// Each inner entry by itself, lower and higher, and several together; the
/// first is 0 and the last is the edge count.
fn wrong_entries(files: &mut Files) {
    for (word, starts) in [
        ("first-lower", [0, 1, 3, 6, 7, 9]),
        ("second-higher", [0, 2, 4, 6, 7, 9]),
        ("second-highest", [0, 2, 5, 6, 7, 9]),
        ("third-lower", [0, 2, 3, 5, 7, 9]),
        ("third-lowest", [0, 2, 3, 4, 7, 9]),
        ("last-higher", [0, 2, 3, 6, 8, 9]),
        ("all-lower", [0, 1, 2, 5, 6, 9]),
        ("all-higher", [0, 3, 4, 7, 8, 9]),
        ("two-that-make-up", [0, 1, 4, 6, 7, 9]),
        ("one-by-one", [0, 1, 2, 3, 4, 9]),
        ("to-the-end", [0, 5, 6, 7, 8, 9]),
    ] {
        let layout = five_with_starts(&starts);
        files.refused(format!("check-starts-{word}"), layout, 23, 0);
    }
    let three = |starts: &[u64]| full().with(|l| l.sections.push(groups::start_index(starts)));
    for (word, starts) in [("1-is-1", [0, 1, 3, 5]), ("2-is-4", [0, 2, 4, 5])] {
        files.refused(
            format!("check-starts-of-three-{word}"),
            three(&starts),
            23,
            0,
        );
    }
}

/// The first, a middle and the last inner entry of 12 and of 1,025 keys.
fn wrong_in_larger_files(files: &mut Files) {
    for (place, number) in [(1, 2), (1, 3), (6, 19), (6, 23), (11, 34), (11, 39)] {
        let layout = board_with_starts(&BOARD_STARTS).with(|l| set_start(l, place, number));
        let name = format!("check-starts-of-board-{place}-is-{number}");
        files.refused(name, layout, 23, 0);
    }
    // The last key has two edges, and the index gives one of them to the key
    // before it.
    let mut groups = single_groups(1_025);
    groups[1_024].edges.push(live(6, 0, 1));
    let layout = indexed(&groups).with(|l| set_start(l, 1_024, 1_025));
    files.refused("check-starts-of-1025-keys-1024-wrong", layout, 23, 0);
}

/// The checksum of the start index, wherever it stands, before what it says.
fn wrong_sums(files: &mut Files) {
    for place in [0, 3, 8] {
        let indexed =
            |starts: &[u64]| full().with(|l| l.sections.insert(place, groups::start_index(starts)));
        for (word, starts) in [("right", [0, 2, 3, 5]), ("wrong", [0, 1, 3, 5])] {
            let layout = indexed(&starts).with(|l| {
                let section = l.section(kind::START_INDEX);
                section.stated.checksum = Some(xxh3_64(&section.bytes) ^ 1 << 50);
            });
            let name = format!("check-starts-{word}-sum-at-{place}");
            files.refused(name, layout, 22, place as u64);
        }
        // The sum of the right ones, over others.
        let layout = indexed(&[0, 1, 3, 5]).with(|l| {
            let right = groups::start_index(&[0, 2, 3, 5]).bytes;
            l.section(kind::START_INDEX).stated.checksum = Some(xxh3_64(&right));
        });
        let name = format!("check-starts-changed-at-{place}");
        files.refused(name, layout, 22, place as u64);
    }
}

/// Degrees 2, 1 and 3 under other edge counts, with an index that ends there.
fn other_totals(files: &mut Files) {
    let groups = [
        group(2, &[SPLIT, &halves(3, 1), &halves(1, 1)]),
        single(4, 4),
        group(3, &[SPLIT, &halves(0, 1), &halves(0, 2), &halves(9, 0)]),
    ];
    for (edge_count, starts) in [
        (5, [0, 2, 3, 5]),
        (6, [0, 2, 3, 6]),
        (7, [0, 2, 3, 7]),
        (3, [0, 1, 2, 3]),
    ] {
        let layout =
            of_bytes(&groups, edge_count).with(|l| l.sections.push(groups::start_index(&starts)));
        let name = format!("check-starts-degrees-6-edges-{edge_count}");
        match edge_count {
            6 => files.fine(name, layout),
            _ => files.refused(name, layout, 23, 0),
        }
    }
    // Bits 1 and 2 are asked with a right index too.
    for (bit, flag) in [(1, flag::TOMBSTONES), (2, flag::DENSE)] {
        let layout = five_with_starts(&FIVE_STARTS).with(|l| l.header.flags ^= flag);
        files.refused(format!("check-starts-bit-{bit}"), layout, 23, 0);
    }
}

/// A wrong index beside a wrong sum and beside a faulty group, which are told.
fn sums_and_groups_first(files: &mut Files) {
    for entry in [0, 2, 4] {
        let layout = five_with_starts(&[0, 1, 3, 6, 7, 9])
            .with(|l| l.sections[entry].stated.checksum = Some(7));
        let name = format!("check-starts-wrong-sum-of-entry-{entry}");
        files.refused(name, layout, 22, entry as u64);
    }
    for index in 0..3 {
        let mut groups = vec![single(1, 1), single(2, 2), single(3, 3)];
        groups[index] = group(1, &[&[0x03], &halves(5, 1)]);
        let layout =
            of_bytes(&groups, 4).with(|l| l.sections.push(groups::start_index(&[0, 2, 3, 4])));
        let name = format!("check-starts-wrong-group-{index}");
        files.faulty(name, layout, 16, 1, index);
    }
    // And opening before all of them.
    let layout =
        five_with_starts(&[0, 2, 3, 6, 6, 9]).with(|l| l.sections[5].stated.checksum = Some(7));
    files.refused("check-starts-37-before-sum", layout, 37, 4);
}
