//! Two faults in one file: the earlier check tells its own. Each fault is one
//! change of the same file, and none undoes or moves another.

use super::samples::{full, full_indexed, set_key, set_offset, set_start};
use super::{expect, Files, Verdict};
use crate::format::kind;
use crate::layout::{Layout, Section};
use crate::numbers::id_of;
use crate::refusal::Refusal;

struct Fault {
    name: &'static str,
    intended: Verdict,
    change: fn(&mut Layout),
}

const fn fault(name: &'static str, intended: Verdict, change: fn(&mut Layout)) -> Fault {
    Fault {
        name,
        intended,
        change,
    }
}

/// In the order of the checks. See `full_indexed` for the entries' indices.
static FAULTS: [Fault; 28] = [
    fault("magic", expect(2, 0), |l| l.header.magic[5] = b'F'),
    fault("major", expect(3, 0), |l| l.header.major = 2),
    fault("header-size", expect(4, 0), |l| l.header.size = 65),
    fault("flag-bit", expect(5, 0), |l| l.header.flags |= 1 << 20),
    fault("tail-magic", expect(6, 0), |l| l.tail_magic[7] = 1),
    fault("footer-length", expect(7, 0), |l| {
        l.footer_length = Some(38)
    }),
    fault("checksum", expect(8, 0), |l| l.footer_checksum = Some(1)),
    fault("named-keys", expect(9, 0), |l| {
        l.section(kind::KEYS).name = b"k".to_vec()
    }),
    fault("doubled-fences", expect(9, 0), |l| {
        l.sections.push(Section::new(kind::FENCES, []))
    }),
    fault("named-starts", expect(9, 0), |l| {
        l.section(kind::START_INDEX).name = b"s".to_vec()
    }),
    fault("reserved-at-2", expect(36, 2), |l| l.sections[2].kind = 7),
    fault("reserved-at-9", expect(36, 9), |l| {
        l.sections.push(Section::new(0x00FF, []))
    }),
    fault("codec-at-1", expect(10, 1), |l| l.sections[1].codec = 1),
    fault("codec-at-7", expect(10, 7), |l| l.sections[7].codec = 1),
    fault("codec-at-8", expect(10, 8), |l| l.sections[8].codec = 1),
    fault("range-at-0", expect(11, 0), |l| {
        l.sections[0].stated.offset = Some(63)
    }),
    fault("range-at-5", expect(11, 5), |l| {
        l.sections[5].stated.length = Some(u64::MAX)
    }),
    fault("edge-count", expect(12, 0), |l| l.edge_count += 1),
    fault("offset-bits", expect(12, 0), |l| l.offset_bits = 25),
    fault("starts-longer", expect(12, 0), |l| {
        l.section(kind::START_INDEX).bytes.push(0)
    }),
    fault("key-1", expect(13, 1), |l| set_key(l, 1, id_of(1, 2))),
    fault("key-2", expect(13, 2), |l| set_key(l, 2, id_of(0, 9))),
    fault("offset-0", expect(14, 0), |l| set_offset(l, 0, 1)),
    fault("offset-3", expect(14, 3), |l| set_offset(l, 3, 60)),
    fault("fence-stride", expect(15, 0), |l| {
        l.section(kind::FENCES).bytes[0] = 0
    }),
    fault("fence-key", expect(15, 0), |l| {
        l.section(kind::FENCES).bytes[8 + 24 + 9] ^= 1
    }),
    fault("start-0", expect(37, 0), |l| set_start(l, 0, 1)),
    fault("start-2", expect(37, 2), |l| set_start(l, 2, 2)),
];

impl Fault {
    fn number(&self) -> u8 {
        match self.intended {
            Verdict::Refused(Refusal { number, .. }) => number,
            Verdict::Opens => unreachable!("a fault is refused"),
        }
    }

    /// Where its check stands among all: 36 comes between 9 and 10, 37 last.
    fn turn(&self) -> u8 {
        match self.number() {
            36 => 10,
            37 => 17,
            number if number < 10 => number,
            number => number + 1,
        }
    }
}

pub fn add(files: &mut Files) {
    for fault in &FAULTS {
        let layout = full_indexed().with(fault.change);
        files.refused(format!("only-{}", fault.name), layout, fault.intended);
    }
    two_numbers(files);
    all_from(files);
    same_number(files);
    early_ends(files);
}

/// Whether a fault is the first of its number.
fn leads(index: usize) -> bool {
    index == 0 || FAULTS[index - 1].turn() < FAULTS[index].turn()
}

/// Neighbouring checks with all their faults, 9 and 10 too, all other pairs of
/// checks with the first fault of each.
fn two_numbers(files: &mut Files) {
    for (i, earlier) in FAULTS.iter().enumerate() {
        for (j, later) in FAULTS.iter().enumerate().skip(i + 1) {
            let wanted = match later.turn() - earlier.turn() {
                0 => false,
                1 => true,
                2 if earlier.number() == 9 => true,
                _ => leads(i) && leads(j),
            };
            if wanted {
                let layout = full_indexed().with(later.change).with(earlier.change);
                let name = format!("both-{}-and-{}", earlier.name, later.name);
                files.refused(name, layout, earlier.intended);
            }
        }
    }
}

/// Every fault from one on, up to the last.
fn all_from(files: &mut Files) {
    for (i, first) in FAULTS.iter().enumerate() {
        if leads(i) {
            // The last one first: what it changes is found by fields that an
            // earlier one may make wrong.
            let layout = FAULTS[i..]
                .iter()
                .rev()
                .fold(full_indexed(), |layout, fault| layout.with(fault.change));
            let name = format!("all-from-{}", first.name);
            files.refused(name, layout, first.intended);
        }
    }
}

/// Two faults of one number that has places: the first place is told.
fn same_number(files: &mut Files) {
    let mut two = |name: &str, intended: Verdict, change: fn(&mut Layout)| {
        files.refused(
            format!("both-{name}"),
            full_indexed().with(change),
            intended,
        );
    };
    two("keys-1-and-2", expect(13, 1), |l| {
        set_key(l, 1, id_of(1, 2));
        set_key(l, 2, id_of(0, 9));
    });
    two("offsets-0-and-3", expect(14, 0), |l| {
        set_offset(l, 3, 60);
        set_offset(l, 0, 1);
    });
    two("offsets-2-and-3", expect(14, 2), |l| {
        set_offset(l, 2, 20);
        set_offset(l, 3, 60);
    });
    two("starts-0-and-2", expect(37, 0), |l| {
        set_start(l, 2, 1);
        set_start(l, 0, 1);
    });
    two("starts-1-and-3", expect(37, 1), |l| {
        set_start(l, 1, 0);
        set_start(l, 3, 6);
    });
    // An earlier check at a later place.
    two("last-key-and-first-offset", expect(13, 2), |l| {
        set_offset(l, 0, 1);
        set_key(l, 2, id_of(1, 3));
    });
    two("last-offset-and-first-start", expect(14, 3), |l| {
        set_start(l, 0, 1);
        set_offset(l, 3, 60);
    });
}

/// A file too short for any check but the first, with other faults in what
/// there is of it.
fn early_ends(files: &mut Files) {
    for (word, change) in [
        ("magic", (|l| l.header.magic[0] = 0) as fn(&mut Layout)),
        ("major", |l| l.header.major = 0),
        ("header-size", |l| l.header.size = 0),
        ("flag-bit", |l| l.header.flags = u32::MAX),
    ] {
        let mut bytes = full().with(change).bytes();
        bytes.truncate(83);
        let name = format!("both-size-83-and-{word}");
        files.bytes(name, bytes, Some(expect(1, 0)));
    }
}
