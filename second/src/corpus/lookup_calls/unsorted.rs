//! Files that opening refuses for their keys or offsets, and records that lead
//! a lookup there all the same.

use super::raw::{self, single};
use super::{ask, expect, faulty, found, Files, Intended, LentRecord};
use crate::corpus::open_files::samples::set_key;
use crate::format::{kind, OFFSET_BITS};
use crate::groups;
use crate::layout::Layout;
use crate::numbers::id_of;
use Group::{Faulty, Found, Leaves, Misplaced};

pub fn add(files: &mut Files) {
    for run in KEY_RUNS {
        key_run(files, &run);
    }
    offsets(files);
    partner_ranges(files);
}

/// Groups of eleven bytes each.
fn singles(count: u64, offset_bits: u8) -> Layout {
    let groups: Vec<Vec<u8>> = (0..count).map(|i| single(5, i)).collect();
    raw::layout(&groups, count, offset_bits)
}

/// Keys, by their lower halves, with the index of the first that does not rise;
/// keys that the search meets, with their indices; and keys that it misses,
/// there or not.
struct KeyRun {
    name: &'static str,
    keys: &'static [u64],
    faulty: u64,
    met: &'static [(u64, u64)],
    missed: &'static [u64],
}

const KEY_RUNS: [KeyRun; 8] = [
    KeyRun {
        name: "three",
        keys: &[30, 10, 20],
        faulty: 1,
        met: &[(10, 1), (20, 2)],
        missed: &[30, 5, 25],
    },
    KeyRun {
        name: "falling",
        keys: &[50, 40, 30, 20, 10],
        faulty: 1,
        met: &[(30, 2)],
        missed: &[40, 20, 50, 10, 35],
    },
    KeyRun {
        name: "equal-2",
        keys: &[7; 2],
        faulty: 1,
        met: &[(7, 1)],
        missed: &[6, 8],
    },
    KeyRun {
        name: "equal-4",
        keys: &[7; 4],
        faulty: 1,
        met: &[(7, 2)],
        missed: &[6, 8],
    },
    KeyRun {
        name: "equal-5",
        keys: &[7; 5],
        faulty: 1,
        met: &[(7, 2)],
        missed: &[6, 8],
    },
    // Of equal keys the search meets the last.
    KeyRun {
        name: "some-equal",
        keys: &[1, 3, 3, 3, 5, 5],
        faulty: 2,
        met: &[(3, 3), (5, 5), (1, 0)],
        missed: &[4, 2],
    },
    KeyRun {
        name: "rotated",
        keys: &[4, 5, 6, 7, 1, 2, 3],
        faulty: 4,
        met: &[(7, 3), (5, 1), (6, 2), (4, 0)],
        missed: &[1, 2, 9],
    },
    KeyRun {
        name: "last-misplaced",
        keys: &[10, 20, 30, 40, 5],
        faulty: 4,
        met: &[(10, 0), (20, 1), (30, 2)],
        missed: &[5, 40, 45],
    },
];

fn key_run(files: &mut Files, run: &KeyRun) {
    let layout = singles(run.keys.len() as u64, 24).with(|l| {
        for (i, &lower) in run.keys.iter().enumerate() {
            set_key(l, i, id_of(0, lower));
        }
    });
    let file = files.layout(format!("unsorted-{}", run.name), &layout);
    let record = LentRecord::of_layout(&layout);
    let met = run.met.iter().map(|&(key, index)| (key, found(1, index)));
    let missed = run.missed.iter().map(|&key| (key, Intended::Absent));
    for (lower, answer) in met.chain(missed) {
        let question = ask(id_of(0, lower));
        let name = format!("file-{lower}");
        file.full(name, question.clone(), expect(13, run.faulty));
        file.both(format!("record-{lower}"), question.by(&record), answer);
    }
}

/// What a lookup of a group says: both the same, or the full one misplaced.
#[derive(Clone, Copy)]
enum Group {
    Found,
    Misplaced,
    /// Its offsets fall or leave the partners.
    Leaves,
    /// Refused with this number, at this byte of it.
    Faulty(u8, u64),
}

/// The bytes of the next group lie in it too, after its own eleven.
const DOUBLE: Group = Faulty(32, 11);
/// No byte is left for the degree.
const EMPTY: Group = Faulty(33, 0);

/// Every bit is set, at whatever width.
const LARGEST: u64 = u64::MAX;

/// Offsets over four groups that truly lie at 0, 11, 22, 33 to 44; the index of
/// the first faulty one; and what a lookup says of each group.
type OffsetRun = (&'static str, [u64; 5], u64, [Group; 4]);

const OFFSET_RUNS: [OffsetRun; 12] = [
    (
        "fall",
        [0, 22, 11, 33, 44],
        2,
        [DOUBLE, Leaves, DOUBLE, Misplaced],
    ),
    (
        "equal",
        [0, 11, 11, 33, 44],
        2,
        [Found, EMPTY, DOUBLE, Misplaced],
    ),
    (
        "pass",
        [0, 11, 45, 33, 44],
        3,
        [Found, Leaves, Leaves, Misplaced],
    ),
    (
        "last-passes",
        [0, 11, 22, 33, 45],
        4,
        [Found, Found, Found, Leaves],
    ),
    (
        "equal-past-the-length",
        [0, 11, 50, 50, 50],
        3,
        [Found, Leaves, Leaves, Leaves],
    ),
    (
        "equal-at-the-length",
        [0, 11, 44, 44, 44],
        3,
        [Found, DOUBLE, EMPTY, EMPTY],
    ),
    ("zeros", [0; 5], 1, [EMPTY; 4]),
    (
        "begin-at-11",
        [11, 22, 33, 44, 44],
        0,
        [Found, Found, Found, EMPTY],
    ),
    (
        "back-to-0",
        [0, 11, 0, 11, 22],
        2,
        [Found, Leaves, Misplaced, Misplaced],
    ),
    (
        "end-early",
        [0, 11, 22, 33, 43],
        4,
        [Found, Found, Found, Faulty(31, 2)],
    ),
    (
        "largest-first",
        [LARGEST, 11, 22, 33, 44],
        0,
        [Leaves, Misplaced, Misplaced, Misplaced],
    ),
    (
        "largest-last",
        [0, 11, 22, 33, LARGEST],
        4,
        [Found, Found, Found, Leaves],
    ),
];

fn offsets(files: &mut Files) {
    for bits in OFFSET_BITS {
        // The widths between the others show no more than that they are read.
        let shown = if bits == 24 || bits == 48 { 12 } else { 3 };
        for run in OFFSET_RUNS.into_iter().take(shown) {
            offset_run(files, bits, run);
        }
    }
}

fn offset_run(files: &mut Files, bits: u8, (name, numbers, first, answers): OffsetRun) {
    let layout =
        singles(4, bits).with(|l| *l.section(kind::OFFSETS) = groups::offsets(&numbers, bits));
    let file = files.layout(format!("offsets-{name}-{bits}"), &layout);
    let record = LentRecord::of_layout(&layout);
    file.full("file", ask(raw::key(0)), expect(14, first));
    for (index, answer) in (0..).zip(answers) {
        let question = ask(raw::key(index)).by(&record);
        match answer {
            Found => file.both(index, question, found(1, index)),
            Misplaced => file.misplaced(index, question, 1, index),
            Leaves => file.both(index, question, expect(14, index)),
            Faulty(number, byte) => file.both(index, question, faulty(number, byte, index)),
        }
    }
}

/// Right offsets, and a partner range that is longer or shorter than they say.
fn partner_ranges(files: &mut Files) {
    let layout = singles(4, 32);
    let file = files.layout("partner-range", &layout);
    let own = LentRecord::of_layout(&layout);
    for length in [0, 1, 10, 11, 12, 22, 33, 43, 44, 45, 100] {
        let record = own.with(|r| r.partners.length = length);
        for index in 0..4 {
            let question = ask(raw::key(index)).by(&record);
            let answer = if 11 * (index + 1) <= length {
                found(1, index)
            } else {
                expect(14, index)
            };
            file.both(format!("{length}-{index}"), question, answer);
        }
    }
    // It begins one group later: the answers are those of the next keys.
    let record = own.with(|r| {
        r.partners.offset += 11;
        r.partners.length -= 11;
    });
    for index in 0..4 {
        let answer = if index < 3 {
            found(1, index)
        } else {
            expect(14, 3)
        };
        let question = ask(raw::key(index)).by(&record);
        file.both(format!("later-{index}"), question, answer);
    }
}
