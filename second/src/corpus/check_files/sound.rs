//! Files that pass.

use super::samples::{board, example, one_group, one_group_dead};
use super::Files;
use crate::corpus::open_files::samples::{
    dead, dense, full, heading_only, live, one_edge, single_groups, split, three_groups, SKIPPED,
};
use crate::format::{flag, kind, OFFSET_BITS};
use crate::groups::{self, Edge, Group};
use crate::layout::{Layout, Section};
use crate::numbers::id_of;
use crate::print::LONGEST;

pub fn add(files: &mut Files) {
    files.fine("example", example());
    files.fine("board", board());
    whole_files(files);
    tombstones(files);
    group_forms(files);
    log_numbers(files);
    skipped_sections(files);
    longest(files);
}

fn whole_files(files: &mut Files) {
    let inverse = |layout: Layout| layout.with(|l| l.header.flags |= flag::INVERSE);
    files.fine("check-heading-only", heading_only());
    files.fine("check-heading-only-inverse", inverse(heading_only()));
    files.fine("check-three-groups-inverse", inverse(full()));
    files.fine("check-board-inverse", inverse(board()));
    for bits in OFFSET_BITS {
        let layout = groups::layout(&three_groups(), bits);
        files.fine(format!("check-three-groups-{bits}-bits"), layout);
    }
    let many = single_groups(100);
    let fences = groups::fences(&many, 7);
    let fenced = groups::layout(&many, 24).with(|l| l.sections.push(fences));
    files.fine("check-100-keys-with-fences", fenced);
    let gaps = board().with(|l| {
        for (i, section) in l.sections.iter_mut().enumerate() {
            section.gap = vec![0xFF; i];
        }
        l.last_gap = vec![0xFF; 11];
    });
    files.fine("check-gaps-of-ones", gaps);
    let reversed = board().with(|l| l.sections.reverse());
    files.fine("check-sections-reversed", reversed);
}

/// Edges that fill their tombstone bytes and such that do not; the first, the
/// last, all and none dead.
fn tombstones(files: &mut Files) {
    for count in [1, 7, 8, 9, 15, 16, 17, 24, 64, 65] {
        let name = |word: &str| format!("check-{count}-edges-{word}");
        let all: Vec<u64> = (0..count).collect();
        files.fine(name("no-section-5"), one_group(count));
        files.fine(name("none-dead"), one_group_dead(count, &[]));
        files.fine(name("all-dead"), one_group_dead(count, &all));
        files.fine(name("first-dead"), one_group_dead(count, &[0]));
        files.fine(name("last-dead"), one_group_dead(count, &[count - 1]));
    }
    let empty = heading_only().with(|l| l.sections.push(Section::new(kind::TOMBSTONES, [])));
    files.fine("check-no-edges-section-5", empty);
}

/// Bit 2 is as the tags, and the degree before a tag may look like one.
fn group_forms(files: &mut Files) {
    let mut fine = |name: &str, groups: &[Group]| {
        files.fine(format!("check-{name}"), groups::layout(groups, 24));
    };
    let edges = |count: u64| -> Vec<Edge> { (0..count).map(|i| live(i / 4, i, i)).collect() };
    let key = |i: u64| id_of(i, 0);
    for degree in [1, 16, 17, 127, 128, 144] {
        let name = format!("split-degree-{degree}");
        fine(&name, &[split(key(1), &edges(degree))]);
        let name = format!("dense-degree-{degree}");
        fine(&name, &[dense(key(1), &edges(degree))]);
    }
    for place in 0..3 {
        let groups: Vec<Group> = (0..3)
            .map(|i| {
                let group = if i == place { dense } else { split };
                group(key(i), &edges(2))
            })
            .collect();
        fine(&format!("dense-group-{place}-of-3"), &groups);
    }
    let all = [0, 1, 2].map(|i| dense(key(i), &edges(i + 1)));
    fine("dense-groups-all", &all);
    // The writer would not take these forms, but a reader takes any.
    let dear = [live(1 << 63, 1, 1), live(u64::MAX, 2, 2)];
    fine("split-though-dear", &[split(key(1), &dear)]);
    let ends = [live(0, 0, 0), dead(u64::MAX, u64::MAX, 0)];
    fine("split-ends", &[split(key(0), &ends)]);
    fine("dense-ends", &[dense([0xFF; 16], &ends)]);
}

fn log_numbers(files: &mut Files) {
    let logs = [0, u64::MAX, 1 << 63, 1, 0x0123_4567_89AB_CDEF, 0, u64::MAX];
    let edges: Vec<Edge> = (0..7).map(|i| live(0, i, logs[i as usize])).collect();
    let groups = [
        split(id_of(1, 0), &edges[..3]),
        dense(id_of(1, 1), &edges[3..4]),
        split(id_of(1, 2), &edges[4..]),
    ];
    files.fine("check-log-numbers", groups::layout(&groups, 24));
    for (word, log) in [("0", 0), ("most", u64::MAX)] {
        let group = split(id_of(1, 2), &[live(5, 1, log)]);
        let layout = groups::layout(&[group], 24);
        files.fine(format!("check-log-number-{word}"), layout);
    }
}

/// Minor 200, kinds that nobody knows, and property streams.
fn skipped_sections(files: &mut Files) {
    let unknown = one_edge().with(|l| {
        l.header.minor = 200;
        l.sections.push(Section::new(0x0201, *b"what is this"));
    });
    files.fine("check-minor-200-unknown-section", unknown);
    let many = board().with(|l| {
        l.header.minor = 255;
        for (i, kind) in [0, SKIPPED, 0x01FF, 0x0101, 0x1000, 0xFFFF]
            .into_iter()
            .enumerate()
        {
            let section = Section::new(kind, vec![kind as u8; 3 * i]).codec(9);
            l.sections.insert(2 * i, section.named(*b"unknown"));
        }
    });
    files.fine("check-minor-255-unknown-sections", many);
    let streams = heading_only().with(|l| {
        l.header.flags = flag::PROPERTIES;
        for name in ["", "weight", "weight"] {
            let stream = Section::new(kind::PROPERTIES, name).codec(1);
            l.sections.push(stream.named(name));
        }
    });
    files.fine("check-property-streams", streams);
}

/// As many bytes as the printing program takes, with few edges in them and
/// with many.
fn longest(files: &mut Files) {
    let fill = |layout: Layout| {
        let gap = LONGEST - layout.size() as usize;
        layout.with(|l| l.last_gap = vec![0; gap])
    };
    files.fine("check-65536-bytes", fill(example()));
    // The first degree takes two bytes, of which the second is a dense group's
    // tag.
    let many = [numbered(1, 2_064), numbered(2, 1_700)];
    let many = fill(groups::layout(&many, 24));
    files.fine("check-65536-bytes-3764-edges", many);
}

/// A split group whose partners' upper halves are all the same.
fn numbered(key: u64, edge_count: u64) -> Group {
    let edges: Vec<Edge> = (0..edge_count)
        .map(|i| Edge {
            dead: i % 11 == 10,
            ..live(9, i * i, i)
        })
        .collect();
    split(id_of(key, 0), &edges)
}
