//! Refusals 9 and 10: the form of the section table, names, kinds and codecs.

use super::samples::{full, full_indexed, heading_only, one_edge, SKIPPED};
use super::{expect, Files};
use crate::format::{bound, flag, kind};
use crate::layout::{Layout, Section};

pub fn add(files: &mut Files) {
    section_counts(files);
    bodies_not_filled(files);
    names_of_read_kinds(files);
    names_too_long(files);
    name_lengths(files);
    missing_kinds(files);
    doubled_kinds(files);
    codecs(files);
    codecs_without_keys(files);
    several_codecs(files);
    codecs_elsewhere(files);
}

fn section_counts(files: &mut Files) {
    for (word, count) in [
        ("0", 0),
        ("one-less", 3),
        ("one-more", 5),
        ("64", 64),
        ("65", 65),
        ("256-more", 4 + 256),
        ("big-endian", 4 << 8),
        ("largest", u16::MAX),
    ] {
        let layout = one_edge().with(|l| l.section_count = Some(count));
        files.refused(format!("section-count-said-{word}"), layout, expect(9, 0));
    }
    let none = Layout::new(heading_only().header, Vec::new());
    files.refused("section-count-0-and-no-row", none, expect(9, 0));
    let fill = |count: u64| {
        let skipped = Section::new(SKIPPED, []);
        one_edge().with(|l| l.sections.resize(count as usize, skipped))
    };
    let over = bound::SECTIONS + 1;
    files.refused(
        "section-count-65-and-as-many-rows",
        fill(over),
        expect(9, 0),
    );
    let said_64 = fill(over).with(|l| l.section_count = Some(64));
    files.refused("section-count-said-64-of-65-rows", said_64, expect(9, 0));
    // The rows that the count leaves away would not be missed.
    let unneeded = full().with(|l| {
        l.sections.truncate(5);
        l.header.flags = 0;
        l.sections.push(Section::new(SKIPPED, []));
        l.section_count = Some(5);
    });
    files.refused(
        "section-count-without-the-skipped-row",
        unneeded,
        expect(9, 0),
    );
}

fn bodies_not_filled(files: &mut Files) {
    for rest in [1, 2, 8, 17, 28] {
        let layout = one_edge().with(|l| l.body_rest = vec![0; rest]);
        files.refused(format!("body-longer-by-{rest}"), layout, expect(9, 0));
    }
    // Down to a body in which the last row is cut.
    for cut in [1, 2, 8, 16, 17, 18, 28, 44, 45, 46] {
        let layout = one_edge().with(|l| l.body_cut = cut);
        files.refused(format!("body-shorter-by-{cut}"), layout, expect(9, 0));
    }
    // A whole row fills the room of the counts and more.
    let layout = one_edge().with(|l| {
        l.section_count = Some(5);
        l.body_rest = vec![0; 11];
    });
    files.refused("body-ends-with-a-row", layout, expect(9, 0));
    let layout = one_edge().with(|l| {
        l.section_count = Some(5);
        l.body_rest = vec![0; 10];
    });
    files.refused("body-ends-in-a-row", layout, expect(9, 0));
    // The name of the last row takes in the counts, which stand there twice.
    let layout = one_edge().with(|l| {
        let counts = [1, 0, 0, 0, 0, 0, 0, 0, 1, 0, 0, 0, 0, 0, 0, 0, 24];
        l.sections.push(Section::new(SKIPPED, []));
        l.body_rest = counts.into();
    });
    files.refused("body-with-counts-twice", layout.clone(), expect(9, 0));
    let layout = layout.with(|l| l.sections[4].stated.name_length = Some(17));
    files.opens("body-with-counts-twice-once-as-name", layout);
}

/// Kinds that are read have no name.
fn names_of_read_kinds(files: &mut Files) {
    for kind in kind::READ {
        let layout = full_indexed().with(|l| l.section(kind).name = vec![b'k']);
        files.refused(format!("name-of-1-on-kind-{kind}"), layout, expect(9, 0));
    }
    for length in [63, 64] {
        let layout = one_edge().with(|l| l.sections[3].name = vec![b'k'; length]);
        let name = format!("name-of-{length}-on-kind-4");
        files.refused(name, layout, expect(9, 0));
    }
}

/// The name is there, and too long.
fn names_too_long(files: &mut Files) {
    for length in [64, 128, 255] {
        for (word, kind, flags) in [
            ("skipped-kind", SKIPPED, 0),
            ("properties", kind::PROPERTIES, flag::PROPERTIES),
        ] {
            let layout = one_edge().with(|l| {
                l.header.flags = flags;
                let section = Section::new(kind, *b"!");
                l.sections.push(section.named(vec![b'n'; length]));
            });
            let name = format!("name-of-{length}-on-{word}");
            files.refused(name, layout, expect(9, 0));
        }
    }
}

/// The name length says more or less than there is.
fn name_lengths(files: &mut Files) {
    let four = Section::new(SKIPPED, *b"!").named(*b"four");
    let named = one_edge().with(|l| l.sections.push(four));
    let stated = |index: usize, length: u8| {
        let mut layout = named.clone();
        layout.sections[index].stated.name_length = Some(length);
        layout
    };
    for length in [0, 3, 5, 21, 22, 63, 64, 255] {
        let name = format!("name-of-4-said-{length}");
        files.refused(name, stated(4, length), expect(9, 0));
        if length > 0 {
            let name = format!("name-of-0-on-keys-said-{length}");
            files.refused(name, stated(0, length), expect(9, 0));
        }
    }
    let first = stated(4, 5).with(|l| l.sections.rotate_right(1));
    files.refused("name-of-4-in-first-row-said-5", first, expect(9, 0));
}

fn missing_kinds(files: &mut Files) {
    for kind in kind::KEYS..=kind::LOGS {
        let index = usize::from(kind) - 1;
        let layout = heading_only().with(|l| drop(l.sections.remove(index)));
        files.refused(format!("missing-kind-{kind}"), layout, expect(9, 0));
        // Other kinds with the same low byte, and kinds near by.
        for other in [kind + 256, kind << 8, 0, 7] {
            let layout = one_edge().with(|l| l.sections[index].kind = other);
            let name = format!("missing-kind-{kind}-but-{other}");
            files.refused(name, layout, expect(9, 0));
        }
        // One is missing and another doubled: four rows all the same.
        let layout = one_edge().with(|l| l.sections[index].kind = kind % 4 + 1);
        let name = format!("missing-kind-{kind}-and-doubled-next");
        files.refused(name, layout, expect(9, 0));
    }
    let only = |kind: u16| Layout::new(heading_only().header, vec![Section::new(kind, [])]);
    for kind in [1, 2, 6, 7] {
        let name = format!("missing-all-but-kind-{kind}");
        files.refused(name, only(kind), expect(9, 0));
    }
    let properties = only(kind::PROPERTIES).with(|l| l.header.flags = flag::PROPERTIES);
    files.refused("missing-all-but-properties", properties, expect(9, 0));
}

fn doubled_kinds(files: &mut Files) {
    for kind in kind::READ {
        let again = || full_indexed().section(kind).clone().gap([]);
        let layout = full_indexed().with(|l| l.sections.push(again()));
        files.refused(format!("doubled-kind-{kind}"), layout, expect(9, 0));
        let layout = full_indexed().with(|l| l.sections.insert(0, Section::new(kind, [])));
        let name = format!("doubled-kind-{kind}-empty-at-first");
        files.refused(name, layout, expect(9, 0));
    }
    let layout = one_edge().with(|l| l.sections.extend(one_edge().sections));
    files.refused("doubled-kinds-1-to-4", layout, expect(9, 0));
}

/// The description with another codec in a row.
fn coded(layout: Layout, index: usize, codec: u8) -> Layout {
    layout.with(|l| l.sections[index].codec = codec)
}

/// Each entry in turn: kinds that are read are raw, others need not be.
fn codecs(files: &mut Files) {
    for (index, section) in full_indexed().sections.iter().enumerate() {
        if kind::READ.contains(&section.kind) {
            for codec in [1, 255] {
                let name = format!("codec-{codec}-at-entry-{index}");
                let layout = coded(full_indexed(), index, codec);
                files.refused(name, layout, expect(10, index as u64));
            }
        } else {
            let layout = coded(full_indexed(), index, 255);
            files.opens(format!("codec-255-at-entry-{index}"), layout);
        }
    }
}

fn codecs_without_keys(files: &mut Files) {
    for index in 0..4 {
        let layout = coded(heading_only(), index, 1);
        let name = format!("codec-of-heading-only-at-entry-{index}");
        files.refused(name, layout, expect(10, index as u64));
    }
}

/// The first one counts, and it is an index of the table.
fn several_codecs(files: &mut Files) {
    let layout = coded(coded(full(), 7, 1), 3, 1);
    files.refused("codecs-at-entries-3-and-7", layout, expect(10, 3));
    let layout = coded(coded(full(), 4, 1), 1, 9);
    files.refused("codecs-at-entries-1-and-4", layout, expect(10, 1));
    let layout = coded(coded(full(), 2, 1), 6, 1);
    files.refused("codecs-at-skipped-2-and-6", layout, expect(10, 6));
    let all = full().with(|l| l.sections.iter_mut().for_each(|s| s.codec = 1));
    files.refused("codecs-everywhere", all, expect(10, 0));
    let all_but_keys = full().with(|l| {
        l.sections.rotate_left(1);
        l.sections.iter_mut().for_each(|s| s.codec = 1);
        l.section(kind::KEYS).codec = 0;
        l.section(kind::OFFSETS).codec = 0;
    });
    let name = "codecs-but-not-of-keys-and-offsets";
    files.refused(name, all_but_keys, expect(10, 2));
}

/// In the last entry that there may be, and at another minor version.
fn codecs_elsewhere(files: &mut Files) {
    let last = one_edge().with(|l| {
        let skipped = Section::new(SKIPPED, []);
        l.sections.splice(0..0, vec![skipped; 60]);
        l.sections[63].codec = 1;
    });
    files.refused("codec-at-entry-63", last, expect(10, 63));
    let minor = coded(one_edge(), 2, 1).with(|l| l.header.minor = 200);
    files.refused("codec-at-minor-200", minor, expect(10, 2));
}
