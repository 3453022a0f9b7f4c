//! Refusal 36: sections of the reserved kinds, alone and together with faults
//! that are told before it and after it; and sections of the kinds beside.

use super::samples::{full, heading_only, one_edge, single_groups, SKIPPED};
use super::{expect, Files, Verdict};
use crate::format::{bound, flag, kind};
use crate::groups;
use crate::layout::{Layout, Section};

/// Both ends of the range, and the kind after its first.
const RESERVED: [u16; 3] = [0x0007, 0x0008, 0x00FF];
/// Kinds below and above the range. A property stream, 0x0100, wants flag bit 0;
/// the others are skipped.
const BESIDE: [u16; 6] = [0x0000, 0x0100, 0x0101, 0x01FF, 0x0201, 0xFFFF];

/// Where the section stands in the table of the file of one edge.
const PLACES: [(&str, usize); 3] = [("first", 0), ("middle", 2), ("last", 4)];

pub fn add(files: &mut Files) {
    alone(files);
    more_of_the_range(files);
    several(files);
    one_kind_twice(files);
    forms(files);
    minors(files);
    many_sections(files);
    beside_all_read_kinds(files);
    in_place_of_others(files);
    one_fault_beside(files);
    table_first(files);
    ranges_later(files);
    counts_later(files);
}

/// The file of one edge with a section of this kind as the entry with this
/// index; with flag bit 0 if it is a property stream.
fn with_kind(kind: u16, place: usize) -> Layout {
    one_edge().with(|l| {
        l.sections.insert(place, Section::new(kind, *b"new"));
        if kind == kind::PROPERTIES {
            l.header.flags |= flag::PROPERTIES;
        }
    })
}

fn told_at(place: usize) -> Verdict {
    expect(36, place as u64)
}

fn alone(files: &mut Files) {
    for (word, place) in PLACES {
        for kind in RESERVED {
            let name = format!("reserved-kind-{kind}-{word}");
            files.refused(name, with_kind(kind, place), told_at(place));
        }
        for kind in BESIDE {
            let name = format!("beside-reserved-kind-{kind}-{word}");
            files.opens(name, with_kind(kind, place));
        }
        let without_bit = with_kind(kind::PROPERTIES, place).with(|l| l.header.flags = 0);
        let name = format!("beside-reserved-kind-256-{word}-no-bit-0");
        files.refused(name, without_bit, expect(12, 0));
    }
}

/// Powers of two, their neighbours, and others.
fn more_of_the_range(files: &mut Files) {
    for kind in [
        9, 15, 16, 17, 31, 32, 63, 64, 100, 127, 128, 129, 192, 240, 254,
    ] {
        let layout = heading_only().with(|l| l.sections.push(Section::new(kind, [])));
        files.refused(format!("reserved-kind-{kind}"), layout, told_at(4));
    }
}

/// The first one counts, whichever kinds they are, and it is an index of the
/// table: skipped kinds and property streams are counted.
fn several(files: &mut Files) {
    for (word, entries) in [
        ("0-and-1", &[(0, 0x00FF), (1, 0x0007)][..]),
        ("3-and-9", &[(3, 0x0007), (9, 0x00FF)]),
        ("8-and-9", &[(8, 0x0008), (9, 0x0008)]),
        ("1-4-and-10", &[(1, 0x00FF), (4, 0x0080), (10, 0x0007)]),
        ("6-7-and-8", &[(6, 0x0007), (7, 0x0008), (8, 0x00FF)]),
    ] {
        let layout = full().with(|l| {
            for &(place, kind) in entries {
                l.sections.insert(place, Section::new(kind, *b"new"));
            }
        });
        let name = format!("reserved-at-{word}");
        files.refused(name, layout, told_at(entries[0].0));
    }
}

/// Only a kind that is read is there at most once.
fn one_kind_twice(files: &mut Files) {
    for kind in [0x0007, 0x00FF] {
        for places in [[0, 1], [0, 5], [2, 3], [4, 5]] {
            let layout = one_edge().with(|l| {
                for place in places {
                    l.sections.insert(place, Section::new(kind, *b"new"));
                }
            });
            let [first, second] = places;
            let name = format!("kind-{kind}-twice-at-{first}-and-{second}");
            files.refused(name, layout, told_at(first));
        }
    }
}

/// Names of lawful lengths, codecs, no bytes, and a checksum that is not theirs.
fn forms(files: &mut Files) {
    for kind in [0x0007, 0x00FF] {
        let new = || Section::new(kind, *b"new");
        let mut wrong_sum = new();
        wrong_sum.stated.checksum = Some(0);
        for (word, section) in [
            ("named", new().named(*b"n")),
            ("named-at-length", new().named([b'n'; 63])),
            ("named-no-utf-8", new().named([0xFF, 0x00, 0xC3])),
            ("codec-1", new().codec(1)),
            ("codec-255", new().codec(255)),
            ("empty", Section::new(kind, [])),
            (
                "empty-named-coded",
                Section::new(kind, []).named([b'n'; 63]).codec(2),
            ),
            ("after-gap", new().gap([1, 2])),
            ("wrong-sum", wrong_sum),
        ] {
            let layout = one_edge().with(|l| l.sections.push(section));
            let name = format!("reserved-kind-{kind}-{word}");
            files.refused(name, layout, told_at(4));
        }
    }
}

/// The range is reserved at any minor version.
fn minors(files: &mut Files) {
    for minor in [0, 1, 200, 255] {
        for kind in [0x0007, 0x00FF] {
            let named = Section::new(kind, *b"new").named(*b"later");
            let layout = one_edge().with(|l| {
                l.header.minor = minor;
                l.sections.insert(1, named);
            });
            let name = format!("reserved-kind-{kind}-at-minor-{minor}");
            files.refused(name, layout, told_at(1));
        }
    }
}

/// As many sections as there may be, and one more.
fn many_sections(files: &mut Files) {
    let most = bound::SECTIONS as usize;
    let fill = |count: usize, kind: u16| {
        one_edge().with(|l| l.sections.resize(count, Section::new(kind, [])))
    };
    let reserved = |kind: u16| Section::new(kind, []);
    let last = fill(most - 1, SKIPPED).with(|l| l.sections.push(reserved(7)));
    files.refused("reserved-at-entry-63", last, told_at(63));
    let first = fill(most - 1, SKIPPED).with(|l| l.sections.insert(0, reserved(0x00FF)));
    files.refused("reserved-at-entry-0-of-64", first, told_at(0));
    files.refused("reserved-at-entries-4-to-63", fill(most, 7), told_at(4));
    let over = fill(most, SKIPPED).with(|l| l.sections.push(reserved(7)));
    files.refused("reserved-at-entry-64-of-65", over, expect(9, 0));
}

/// One edge, and all kinds that are read: 0 keys, 1 offsets, 2 partners, 3 log
/// numbers, 4 tombstones, 5 fences.
fn six_kinds() -> Layout {
    let groups = single_groups(1);
    groups::layout(&groups, 24).with(|l| {
        l.sections.push(Section::new(kind::TOMBSTONES, [0]));
        l.sections.push(groups::fences(&groups, 1));
    })
}

fn beside_all_read_kinds(files: &mut Files) {
    files.opens("six-kinds", six_kinds());
    for place in [0, 3, 5, 6] {
        let with = |kind: u16| {
            let new = Section::new(kind, *b"new");
            six_kinds().with(|l| l.sections.insert(place, new))
        };
        for kind in RESERVED {
            let name = format!("six-kinds-and-{kind}-at-{place}");
            files.refused(name, with(kind), told_at(place));
        }
        files.opens(format!("six-kinds-and-257-at-{place}"), with(0x0101));
    }
}

/// Sections that a file need not have, under a reserved kind. Their flag bits
/// stay, which alone would be 12.
fn in_place_of_others(files: &mut Files) {
    for (word, place, kind) in [
        ("properties", 5, 0x00FF),
        ("tombstones", 6, 0x0008),
        ("fences", 7, 0x0007),
    ] {
        let layout = full().with(|l| l.sections[place].kind = kind);
        let name = format!("reserved-kind-{kind}-for-{word}");
        files.refused(name, layout, told_at(place));
    }
}

/// A fault of one entry of a kind that is read, and what is told of it where no
/// kind is reserved.
struct Fault {
    word: &'static str,
    told: fn(u64) -> Verdict,
    change: fn(&mut Layout, usize),
}

const FAULTS: [Fault; 3] = [
    Fault {
        word: "name",
        told: |_| expect(9, 0),
        change: |l, entry| l.sections[entry].name = b"n".to_vec(),
    },
    Fault {
        word: "codec",
        told: |entry| expect(10, entry),
        change: |l, entry| l.sections[entry].codec = 1,
    },
    Fault {
        word: "overlap",
        told: |entry| expect(11, entry),
        change: |l, entry| l.sections[entry].stated.offset = Some(l.offsets()[entry] - 1),
    },
];

/// The fault stands in an entry before the section or in one after it. Beside a
/// reserved kind only a fault under 9 is told, beside any other the fault is.
fn one_fault_beside(files: &mut Files) {
    for (word, place) in PLACES {
        for entry in [1, 3] {
            if (place, entry) == (0, 1) || (place, entry) == (4, 3) {
                continue;
            }
            for fault in &FAULTS {
                let mut add = |kind: u16, intended: Verdict| {
                    let layout = with_kind(kind, place).with(|l| (fault.change)(l, entry));
                    let name = format!("kind-{kind}-{word}-{}-at-{entry}", fault.word);
                    files.refused(name, layout, intended);
                };
                let told = (fault.told)(entry as u64);
                let under_9 = fault.word == "name";
                let masked = if under_9 { told } else { told_at(place) };
                RESERVED.iter().for_each(|&kind| add(kind, masked));
                BESIDE.iter().for_each(|&kind| add(kind, told));
            }
        }
    }
}

/// All that is under 9 is asked of the whole table first, also of the reserved
/// entry itself.
fn table_first(files: &mut Files) {
    for (word, place) in PLACES {
        for kind in [0x0007, 0x00FF] {
            let mut add = |what: &str, change: &dyn Fn(&mut Layout)| {
                let layout = with_kind(kind, place).with(change);
                let name = format!("kind-{kind}-{word}-{what}");
                files.refused(name, layout, expect(9, 0));
            };
            let long = || vec![b'n'; 64];
            let skipped = || Section::new(SKIPPED, []).named(long());
            let keys = || Section::new(kind::KEYS, []);
            add("own-name-of-64", &|l| l.section(kind).name = long());
            add("own-name-of-255", &|l| l.section(kind).name = vec![0; 255]);
            add("name-of-64-before", &|l| l.sections.insert(0, skipped()));
            add("name-of-64-after", &|l| l.sections.push(skipped()));
            add("keys-doubled-before", &|l| l.sections.insert(0, keys()));
            add("keys-doubled-after", &|l| l.sections.push(keys()));
            add("partners-missing", &|l| {
                l.sections.retain(|section| section.kind != kind::PARTNERS)
            });
            add("count-said-4", &|l| l.section_count = Some(4));
            add("count-said-6", &|l| l.section_count = Some(6));
            add("body-longer", &|l| l.body_rest = vec![0]);
            add("body-shorter", &|l| l.body_cut = 1);
            add("byte-before-counts", &byte_before_counts);
        }
    }
}

/// A byte between the entries and the counts: a name in the last entry, whose
/// length says none.
fn byte_before_counts(layout: &mut Layout) {
    let last = layout.sections.last_mut().expect("a section");
    last.name = vec![0];
    last.stated.name_length = Some(0);
}

/// The range of the reserved section itself is asked later.
fn ranges_later(files: &mut Files) {
    for (word, place) in PLACES {
        for kind in [0x0007, 0x00FF] {
            let mut add = |what: &str, offset: u64, length: u64| {
                let layout = with_kind(kind, place).with(|l| {
                    l.sections[place].stated.offset = Some(offset);
                    l.sections[place].stated.length = Some(length);
                });
                let name = format!("kind-{kind}-{word}-own-range-{what}");
                files.refused(name, layout, told_at(place));
            };
            let sound = with_kind(kind, place);
            let begin = sound.offsets()[place];
            add("begins-1-early", begin - 1, 3);
            add("begins-at-0", 0, 3);
            add("ends-in-footer", begin, sound.footer_place() - begin + 1);
            add("largest", u64::MAX, u64::MAX);
        }
    }
}

/// Counts, lengths and flag bits are asked later.
fn counts_later(files: &mut Files) {
    for (word, place) in PLACES {
        let mut add = |what: &str, change: fn(&mut Layout)| {
            let layout = with_kind(7, place).with(change);
            let name = format!("kind-7-{word}-{what}");
            files.refused(name, layout, told_at(place));
        };
        add("edge-count-2", |l| l.edge_count = 2);
        add("offset-bits-25", |l| l.offset_bits = 25);
        add("bit-0", |l| l.header.flags = flag::PROPERTIES);
        add("bit-1", |l| l.header.flags = flag::TOMBSTONES);
        add("properties-without-bit-0", |l| {
            l.sections.push(Section::new(kind::PROPERTIES, *b"p"))
        });
    }
}
