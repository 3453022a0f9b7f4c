//! Refusal 36 by another way, and the sorts of files that the corpus has to hold
//! for it.

use crate::check::Tally;
use crate::corpus::open_files::{OpenFile, Verdict};
use crate::format::{COUNTS, ENTRY, TRAILER};
use crate::layout::{mend, Header, Layout, Section};
use crate::numbers::read_le;
use crate::open::open;
use crate::refusal::Refusal;

/// The kinds at both ends of the range and beside it, and whether they are
/// reserved.
const KINDS: [(u16, bool); 9] = [
    (0x0000, false),
    (0x0007, true),
    (0x0008, true),
    (0x00FF, true),
    (0x0100, false),
    (0x0101, false),
    (0x01FF, false),
    (0x0201, false),
    (0xFFFF, false),
];

const TABLE: Refusal = Refusal::at(9, 0);

pub fn check(tally: &mut Tally, files: &[OpenFile]) {
    check_every_kind(tally);
    let mut cases = Vec::new();
    for file in files {
        // What comes before the table is told whatever the kinds are.
        if let Some(Refusal { number: 1..=8, .. }) = told(&file.bytes) {
            continue;
        }
        let case = Case::of(&file.bytes);
        case.check(tally, file);
        if let Some(intended) = file.intended {
            cases.push((case, refusal_of(intended)));
        }
    }
    check_sorts(tally, &cases);
}

pub fn told(file: &[u8]) -> Option<Refusal> {
    open(file).err()
}

pub fn refusal_of(verdict: Verdict) -> Option<Refusal> {
    match verdict {
        Verdict::Opens => None,
        Verdict::Refused(refusal) => Some(refusal),
    }
}

fn told_at(place: usize) -> Option<Refusal> {
    Some(Refusal::at(36, place as u64))
}

/// Each kind there is, on one more section of the file without keys. It has no
/// bytes, which is right for tombstones and wrong for fences, and bit 0 of the
/// flags is clear.
fn check_every_kind(tally: &mut Tally) {
    for kind in 0..=u16::MAX {
        let offsets = Section::new(2, [0; 3]);
        let empty = |kind: u16| Section::new(kind, []);
        let sections = vec![empty(1), offsets, empty(3), empty(4), empty(kind)];
        let file = Layout::new(Header::new(0), sections).bytes();
        let expected = match kind {
            1..=4 => Some(TABLE),
            6 => Some(Refusal::at(15, 0)),
            7..=255 => told_at(4),
            // No property stream is said to be there; a start index has an entry.
            256 | 512 => Some(Refusal::at(12, 0)),
            _ => None,
        };
        tally.same(&format!("kind {kind}"), told(&file), expected);
    }
}

/// An entry of the table, as its bytes lie.
pub struct Entry {
    /// Where it begins in the file.
    pub at: usize,
    pub kind: u16,
    pub codec: u8,
    pub name_length: u8,
    pub offset: u64,
    pub length: u64,
}

impl Entry {
    fn is_reserved(&self) -> bool {
        (7..256).contains(&self.kind)
    }

    fn is_read(&self) -> bool {
        (1..7).contains(&self.kind) || self.kind == 512
    }
}

/// The entries of a file that passes checks 1 to 8: as many as the section count
/// says, or as there is room for. And the bytes of the body behind them, if all
/// are there.
pub fn entries(file: &[u8]) -> (Vec<Entry>, Option<&[u8]>) {
    let end = file.len() - TRAILER;
    let begin = file.len() - read_le(&file[end + 8..end + 12]) as usize;
    let mut at = begin + 2;
    let mut entries = Vec::new();
    for _ in 0..read_le(&file[begin..at]) {
        let Some(entry) = file[..end].get(at..at + ENTRY) else {
            return (entries, None);
        };
        entries.push(Entry {
            at,
            kind: read_le(&entry[..2]) as u16,
            codec: entry[2],
            name_length: entry[3],
            offset: read_le(&entry[4..12]),
            length: read_le(&entry[12..20]),
        });
        at += ENTRY + usize::from(entry[3]);
    }
    (entries, file[..end].get(at..))
}

/// A file by its table.
struct Case {
    entries: Vec<Entry>,
    /// The bytes of the body behind the entries, if all are there.
    rest: Option<Vec<u8>>,
    minor: u8,
    /// The lowest byte of the flags.
    flags: u8,
    /// What is told if skipped kinds stand in place of the reserved ones.
    otherwise: Option<Refusal>,
}

impl Case {
    fn of(file: &[u8]) -> Self {
        let (entries, rest) = entries(file);
        let mut skipping = file.to_vec();
        for entry in entries.iter().filter(|entry| entry.is_reserved()) {
            // The upper byte of the kind: 0x0107 to 0x01FF are skipped.
            skipping[entry.at + 1] = 1;
        }
        mend(&mut skipping);
        Case {
            entries,
            rest: rest.map(<[u8]>::to_vec),
            minor: file[9],
            flags: file[12],
            otherwise: told(&skipping),
        }
    }

    fn reserved(&self) -> Vec<usize> {
        let is_reserved = |&i: &usize| self.entries[i].is_reserved();
        (0..self.entries.len()).filter(is_reserved).collect()
    }

    /// The first reserved kind is told if nothing is wrong under 9; else what
    /// would be told without it.
    fn check(&self, tally: &mut Tally, file: &OpenFile) {
        let expected = match self.reserved().first() {
            Some(&place) if self.otherwise != Some(TABLE) => told_at(place),
            _ => self.otherwise,
        };
        let what = format!("reserved kinds of {}", file.name);
        tally.same(&what, told(&file.bytes), expected);
    }

    /// The entry of this kind, if all the others are of kinds that are read.
    fn only(&self, kind: u16) -> Option<usize> {
        let is_other = |&i: &usize| !self.entries[i].is_read();
        let others: Vec<usize> = (0..self.entries.len()).filter(is_other).collect();
        match others[..] {
            [place] if self.entries[place].kind == kind => Some(place),
            _ => None,
        }
    }

    /// The entry that has the fault of this number: under 9 a name on a kind
    /// that is read.
    fn entry_at_fault(&self, number: u8) -> Option<usize> {
        let refusal = self.otherwise.filter(|refusal| refusal.number == number)?;
        match number {
            9 => self
                .entries
                .iter()
                .position(|entry| entry.is_read() && entry.name_length > 0),
            _ => Some(refusal.place as usize),
        }
    }

    fn count(&self, kind: u16) -> usize {
        let same = |entry: &&Entry| entry.kind == kind;
        self.entries.iter().filter(same).count()
    }

    /// Does each entry keep the rules under 9?
    fn entries_are_right(&self) -> bool {
        let is_right = |entry: &Entry| {
            let once = self.count(entry.kind) == 1;
            entry.name_length < 64 && (!entry.is_read() || once && entry.name_length == 0)
        };
        let needed = (1..5).all(|kind| self.count(kind) == 1);
        needed && self.entries.len() < 65 && self.entries.iter().all(is_right)
    }

    /// Is what follows the entries all that can be wrong under 9, and such?
    fn followed_by(&self, is: fn(&[u8]) -> bool) -> bool {
        self.entries_are_right() && self.rest.as_deref().is_some_and(is)
    }

    /// Is an entry's name too long, among those that this picks by its place and
    /// the first reserved entry's?
    fn long_name(&self, picks: fn(usize, usize) -> bool) -> bool {
        let first = self.reserved()[0];
        let is_long = |i: usize| self.entries[i].name_length > 63;
        (0..self.entries.len()).any(|i| picks(i, first) && is_long(i))
    }
}

/// What is asked of a file, and of the refusal that its author intended.
type Sort = (String, Box<dyn Fn(&Case, Option<Refusal>) -> bool>);

fn sort(what: impl Into<String>, is: impl Fn(&Case, Option<Refusal>) -> bool + 'static) -> Sort {
    (what.into(), Box::new(is))
}

/// There is a file of each sort.
fn check_sorts(tally: &mut Tally, cases: &[(Case, Option<Refusal>)]) {
    let mut sorts = place_sorts();
    sorts.extend(fault_sorts());
    sorts.extend(form_sorts());
    sorts.extend(several_sorts());
    sorts.extend(later_sorts());
    sorts.extend(table_sorts());
    for (what, is) in &sorts {
        let found = cases.iter().any(|(case, intended)| is(case, *intended));
        tally.same(&format!("a file with {what}"), found, true);
    }
    let with_reserved = |(case, _): &&(Case, Option<Refusal>)| !case.reserved().is_empty();
    tally.notes.push(format!(
        "reserved kinds: {} files with an intended verdict, {} sorts",
        cases.iter().filter(with_reserved).count(),
        sorts.len()
    ));
}

/// Is the entry the first (0), one between (1) or the last (2)?
fn spot(case: &Case, place: usize) -> usize {
    usize::from(place > 0) + usize::from(place + 1 == case.entries.len())
}

const SPOTS: [&str; 3] = ["first", "middle", "last"];

/// Each kind alone, at each place.
fn place_sorts() -> Vec<Sort> {
    let mut sorts = Vec::new();
    for (kind, reserved) in KINDS {
        for (wanted, word) in SPOTS.into_iter().enumerate() {
            let what = format!("kind {kind:#06x} as the {word} entry");
            sorts.push(sort(what, move |case, intended| {
                let Some(place) = case.only(kind) else {
                    return false;
                };
                let told = if reserved { told_at(place) } else { None };
                spot(case, place) == wanted && case.otherwise.is_none() && intended == told
            }));
        }
    }
    sorts.extend(range_sorts());
    sorts
}

/// Kinds between the ends of the range.
fn range_sorts() -> Vec<Sort> {
    let kinds = [15, 16, 31, 32, 63, 64, 127, 128, 254];
    let of_kind = |kind: u16| {
        sort(format!("kind {kind:#06x}"), move |case, intended| {
            let place = case.only(kind);
            case.otherwise.is_none() && place.is_some_and(|place| intended == told_at(place))
        })
    };
    kinds.map(of_kind).into()
}

/// Each kind at each place, with a fault of each number in an entry before it
/// and in one after it.
fn fault_sorts() -> Vec<Sort> {
    let mut sorts = Vec::new();
    for (kind, reserved) in KINDS {
        for (wanted, before) in [(0, false), (1, true), (1, false), (2, true)] {
            for number in [9, 10, 11] {
                let word = SPOTS[wanted];
                let side = if before { "before" } else { "after" };
                let what = format!("kind {kind:#06x} as the {word} entry, {number} {side}");
                sorts.push(sort(what, move |case, intended| {
                    let (Some(place), Some(entry)) = (case.only(kind), case.entry_at_fault(number))
                    else {
                        return false;
                    };
                    let told = match number {
                        10 | 11 if reserved => told_at(place),
                        _ => case.otherwise,
                    };
                    let right_side = if before { entry < place } else { place < entry };
                    spot(case, place) == wanted && right_side && intended == told
                }));
            }
        }
    }
    sorts
}

/// The forms of a reserved entry, and of the file around it.
fn form_sorts() -> Vec<Sort> {
    let mut sorts = Vec::new();
    let mut add = |what: &str, is: fn(&Case, &Entry) -> bool| {
        let what = format!("a reserved entry {what}");
        sorts.push(sort(what, move |case, intended| {
            let reserved = case.reserved();
            let [place] = reserved[..] else {
                return false;
            };
            intended == told_at(place) && is(case, &case.entries[place])
        }));
    };
    add("with a name of one byte", |_, entry| entry.name_length == 1);
    add("with a name of 63", |_, entry| entry.name_length == 63);
    add("with codec 1", |_, entry| entry.codec == 1);
    add("with codec 255", |_, entry| entry.codec == 255);
    add("of no bytes", |_, entry| entry.length == 0);
    add("at minor 0", |case, _| case.minor == 0);
    add("at minor 1", |case, _| case.minor == 1);
    add("at minor 200", |case, _| case.minor == 200);
    add("at minor 255", |case, _| case.minor == 255);
    add("in place of tombstones", |case, _| {
        case.flags & 2 != 0 && (case.count(5), case.count(6)) == (0, 1)
    });
    add("in place of fences", |case, _| {
        (case.count(5), case.count(6), case.count(256)) == (1, 0, 1)
    });
    add("in place of a property stream", |case, _| {
        case.flags & 1 != 0 && (case.count(5), case.count(256)) == (1, 0)
    });
    add("as entry 63 of 64", |case, _| {
        case.reserved() == [63] && case.entries.len() == 64
    });
    sorts
}

/// Two and three of them, the first being the smallest kind, and the largest;
/// and two of one kind.
fn several_sorts() -> Vec<Sort> {
    let mut sorts = Vec::new();
    for count in [2, 3] {
        for (word, end) in [("smallest", 0), ("largest", count - 1)] {
            let what = format!("{count} reserved entries, the first the {word}");
            sorts.push(sort(what, move |case, intended| {
                let places = case.reserved();
                let mut kinds: Vec<u16> = places.iter().map(|&i| case.entries[i].kind).collect();
                let first = kinds.first().copied();
                kinds.sort_unstable();
                kinds.dedup();
                places.len() == count
                    && intended == told_at(places[0])
                    && kinds.len() == count
                    && first == Some(kinds[end])
            }));
        }
    }
    sorts.extend(twice_sorts());
    sorts
}

/// Two of one kind, with other entries between them and without.
fn twice_sorts() -> Vec<Sort> {
    let mut sorts = Vec::new();
    for kind in [0x0007, 0x00FF] {
        for (word, side_by_side) in [("side by side", true), ("apart", false)] {
            let what = format!("two of one kind, {kind:#06x}, {word}");
            sorts.push(sort(what, move |case, intended| {
                let [first, second] = case.reserved()[..] else {
                    return false;
                };
                case.count(kind) == 2
                    && case.otherwise.is_none()
                    && intended == told_at(first)
                    && side_by_side == (first + 1 == second)
            }));
        }
    }
    sorts
}

/// A reserved entry, and faults that are told after it: each number; and at each
/// place its own range, the counts, and no fault beside all kinds that are read.
fn later_sorts() -> Vec<Sort> {
    let number_of = |told: Option<Refusal>| told.map(|refusal| refusal.number);
    let mut sorts = Vec::new();
    for number in 10..=15 {
        sorts.push(sort(format!("36 and {number}"), move |case, intended| {
            number_of(intended) == Some(36) && number_of(case.otherwise) == Some(number)
        }));
    }
    for (wanted, word) in SPOTS.into_iter().enumerate() {
        let mut add = |what: &str, is: fn(&Case, usize) -> bool| {
            let what = format!("a reserved {word} entry and {what}");
            sorts.push(sort(what, move |case, intended| {
                let reserved = case.reserved();
                let [place] = reserved[..] else {
                    return false;
                };
                spot(case, place) == wanted && intended == told_at(place) && is(case, place)
            }));
        };
        add("its range", |case, place| {
            case.entry_at_fault(11) == Some(place)
        });
        add("the counts", |case, _| case.entry_at_fault(12).is_some());
        add("tombstones and fences", |case, _| {
            case.otherwise.is_none() && (case.count(5), case.count(6)) == (1, 1)
        });
    }
    sorts
}

/// A reserved entry, and faults under 9.
fn table_sorts() -> Vec<Sort> {
    let mut sorts = Vec::new();
    let mut add = |what: &str, is: fn(&Case) -> bool| {
        let what = format!("9, a reserved entry and {what}");
        sorts.push(sort(what, move |case, intended| {
            intended == Some(TABLE) && !case.reserved().is_empty() && is(case)
        }));
    };
    add("its own name too long", |case| {
        case.long_name(|i, first| i == first)
    });
    add("a name too long before", |case| {
        case.long_name(|i, first| i < first)
    });
    add("a name too long after", |case| {
        case.long_name(|i, first| i > first)
    });
    add("a doubled kind", |case| {
        (1..7).any(|kind| case.count(kind) == 2)
    });
    add("a missing kind", |case| {
        (1..5).any(|kind| case.count(kind) == 0)
    });
    add("nothing else", |case| case.entries.len() == 1);
    add("64 others", |case| case.entries.len() == 65);
    // The offset bits, 24, are the last byte of the counts.
    add("a body not filled, a byte before the counts", |case| {
        case.followed_by(|rest| rest.len() == COUNTS + 1 && rest[COUNTS] == 24)
    });
    add("a body not filled, a byte after the counts", |case| {
        case.followed_by(|rest| rest.len() == COUNTS + 1 && rest[COUNTS - 1] == 24)
    });
    add("a body not filled, a byte too few", |case| {
        case.followed_by(|rest| rest.len() == COUNTS - 1)
    });
    sorts
}
