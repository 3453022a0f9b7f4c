//! Sound files with skipped kinds and property streams.

use super::samples::{heading_only, one_edge, SKIPPED};
use super::Files;
use crate::format::{bound, flag, kind};
use crate::layout::{Layout, Section};

pub fn add(files: &mut Files) {
    skipped_kinds(files);
    skipped_kinds_at_other_minors(files);
    skipped_codecs(files);
    skipped_names(files);
    skipped_places(files);
    skipped_alike(files);
    property_streams(files);
    property_streams_elsewhere(files);
    many_sections(files);
}

fn skipped(kind: u16) -> Section {
    Section::new(kind, *b"anything")
}

/// The file of one edge with this section at its end.
fn after_all(section: Section) -> Layout {
    one_edge().with(|l| l.sections.push(section))
}

fn skipped_kinds(files: &mut Files) {
    for kind in [
        0, 257, 258, 260, 262, 263, 264, 511, 513, 0x0600, 0x0700, 0x1000, 0x7FFF, 0x8001, 0x8007,
        0xFF00, 65_535,
    ] {
        let layout = after_all(skipped(kind));
        files.opens(format!("skipped-kind-{kind}-at-minor-0"), layout);
    }
}

fn skipped_kinds_at_other_minors(files: &mut Files) {
    for minor in [1, 200] {
        for kind in [0, SKIPPED, 65_535] {
            let named = skipped(kind).named(*b"new");
            let layout = after_all(named).with(|l| l.header.minor = minor);
            files.opens(format!("skipped-kind-{kind}-at-minor-{minor}"), layout);
        }
    }
}

fn skipped_codecs(files: &mut Files) {
    for codec in [1, 2, 128, 255] {
        let layout = after_all(skipped(SKIPPED).codec(codec));
        files.opens(format!("skipped-kind-with-codec-{codec}"), layout);
    }
}

fn skipped_names(files: &mut Files) {
    for length in [1, 2, 17, 28, 62, 63] {
        let layout = after_all(skipped(300).named(vec![b'n'; length]));
        files.opens(format!("skipped-kind-with-name-of-{length}"), layout);
    }
    for (word, name) in [("zeros", [0x00; 4]), ("no-utf-8", [0xC3, 0x28, 0xFF, 0xFE])] {
        let layout = after_all(skipped(SKIPPED).named(name));
        files.opens(format!("skipped-kind-with-name-of-{word}"), layout);
    }
}

/// A skipped kind anywhere in the table, with and without a name.
fn skipped_places(files: &mut Files) {
    for (word, index) in [("first", 0), ("among", 2), ("last", 4)] {
        let layout = one_edge().with(|l| l.sections.insert(index, skipped(SKIPPED)));
        files.opens(format!("skipped-kind-{word}"), layout);
        let named = skipped(SKIPPED).named(*b"name").codec(9);
        let layout = one_edge().with(|l| l.sections.insert(index, named));
        files.opens(format!("skipped-kind-{word}-named"), layout);
    }
}

/// Two sections of one kind, an empty one, and several of one name.
fn skipped_alike(files: &mut Files) {
    for kind in [0, SKIPPED, 65_535] {
        let layout = after_all(skipped(kind)).with(|l| l.sections.push(skipped(kind)));
        files.opens(format!("skipped-kind-{kind}-doubled"), layout);
        let layout = after_all(Section::new(kind, []));
        files.opens(format!("skipped-kind-{kind}-empty"), layout);
    }
    let same_name = |kind: u16| skipped(kind).named(*b"same name");
    let kinds = [0, SKIPPED, 511, 256 + 5, 65_535];
    let layout = heading_only().with(|l| l.sections.extend(kinds.map(same_name)));
    files.opens("skipped-kinds-of-one-name", layout);
}

fn stream() -> Section {
    Section::new(kind::PROPERTIES, *b"stream")
}

fn with_streams(layout: Layout, streams: Vec<Section>) -> Layout {
    layout.with(|l| {
        l.sections.extend(streams);
        l.header.flags |= flag::PROPERTIES;
    })
}

fn property_streams(files: &mut Files) {
    let empty = || Section::new(kind::PROPERTIES, []);
    let skipped = Section::new(257, *b"!");
    let with_gaps = vec![
        stream().named(*b"a").gap([1]),
        empty().gap([2, 3]),
        stream().named(*b"c").codec(255).gap([4]),
    ];
    for (word, streams) in [
        ("unnamed", vec![stream()]),
        ("named", vec![stream().named(*b"weight")]),
        ("named-at-length", vec![stream().named([b'w'; 63])]),
        ("empty", vec![empty()]),
        ("coded", vec![stream().codec(1)]),
        ("two-unnamed", vec![stream(); 2]),
        ("two-of-one-name", vec![stream().named(*b"w"); 2]),
        ("three-with-gaps", with_gaps),
        ("with-a-skipped-kind", vec![stream(), skipped]),
    ] {
        let layout = with_streams(one_edge(), streams);
        files.opens(format!("properties-{word}"), layout);
    }
}

/// A property stream in a file without keys, before the keys, and at another
/// minor version.
fn property_streams_elsewhere(files: &mut Files) {
    let without_keys = with_streams(heading_only(), vec![stream()]);
    files.opens("properties-on-heading-only", without_keys);
    let first = with_streams(one_edge(), vec![stream()]).with(|l| l.sections.rotate_right(1));
    files.opens("properties-before-the-keys", first);
    let minor = with_streams(one_edge(), vec![stream()]).with(|l| l.header.minor = 200);
    files.opens("properties-at-minor-200", minor);
}

/// As many sections as there may be.
fn many_sections(files: &mut Files) {
    let fill = |layout: Layout, section: Section| {
        layout.with(|l| l.sections.resize(bound::SECTIONS as usize, section))
    };
    let skipped = Section::new(SKIPPED, [1]);
    files.opens("sections-64-skipped", fill(one_edge(), skipped.clone()));
    files.opens(
        "sections-64-skipped-first",
        fill(one_edge(), skipped).with(|l| l.sections.rotate_left(4)),
    );
    files.opens(
        "sections-64-empty-and-named",
        fill(heading_only(), Section::new(SKIPPED, []).named([b'x'; 63])),
    );
    files.opens(
        "sections-64-properties",
        fill(one_edge(), Section::new(kind::PROPERTIES, [1, 2]))
            .with(|l| l.header.flags |= flag::PROPERTIES),
    );
}
