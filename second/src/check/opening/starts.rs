//! The start index and refusal 37 by another way, and the sorts of files that
//! the corpus has to hold for them.

use super::reserved::{entries, refusal_of, told, Entry};
use super::NUMBERS;
use crate::check::Tally;
use crate::corpus::open_files::OpenFile;
use crate::format::COUNTS;
use crate::layout::mend;
use crate::numbers::read_le;
use crate::refusal::Refusal;

const KIND: u16 = 0x0200;

pub fn check(tally: &mut Tally, small: &[OpenFile], large: &[OpenFile]) {
    let mut cases = Vec::new();
    for file in small.iter().chain(large) {
        // What comes before the table is told whatever the kinds are.
        if let Some(Refusal { number: 1..=8, .. }) = told(&file.bytes) {
            continue;
        }
        let case = Case::of(&file.bytes);
        let what = format!("start index of {}", file.name);
        tally.same(&what, told(&file.bytes), case.expected());
        if let Some(intended) = file.intended {
            cases.push((case, refusal_of(intended)));
        }
    }
    check_sorts(tally, &cases);
}

/// A file by its table, and what is to be said of its start index.
struct Case {
    entries: Vec<Entry>,
    /// Where the start index stands in the table, each of them if it is doubled.
    places: Vec<usize>,
    minor: u8,
    /// 0 if the body is not filled.
    keys: u64,
    edges: u64,
    /// The entries of the start index, if its length is right and it lies in the
    /// file.
    starts: Vec<u64>,
    /// What is told if a skipped kind stands in its place.
    otherwise: Option<Refusal>,
}

impl Case {
    fn of(file: &[u8]) -> Self {
        let (entries, rest) = entries(file);
        let counts = rest.filter(|rest| rest.len() == COUNTS);
        let count = |at: usize| counts.map_or(0, |counts| read_le(&counts[at..at + 8]));
        let is_index = |&i: &usize| entries[i].kind == KIND;
        let places: Vec<usize> = (0..entries.len()).filter(is_index).collect();
        let mut skipping = file.to_vec();
        for &place in &places {
            // The lower byte of the kind: 0x0201 is skipped.
            skipping[entries[place].at] = 1;
        }
        mend(&mut skipping);
        let mut case = Case {
            entries,
            places,
            minor: file[9],
            keys: count(0),
            edges: count(8),
            starts: Vec::new(),
            otherwise: told(&skipping),
        };
        case.starts = case.starts_in(file).unwrap_or_default();
        case
    }

    /// The only start index.
    fn index(&self) -> Option<&Entry> {
        match self.places[..] {
            [place] => Some(&self.entries[place]),
            _ => None,
        }
    }

    fn length_is_right(&self) -> bool {
        let right = 8 * (u128::from(self.keys) + 1);
        self.index()
            .is_some_and(|index| u128::from(index.length) == right)
    }

    fn starts_in(&self, file: &[u8]) -> Option<Vec<u64>> {
        let index = self.index().filter(|_| self.length_is_right())?;
        let begin = usize::try_from(index.offset).ok()?;
        let bytes = file.get(begin..begin.checked_add(index.length as usize)?)?;
        let number = |i: usize| bytes[8 * i..8 * i + 8].try_into().map(u64::from_le_bytes);
        let numbers = (0..bytes.len() / 8).map(|i| number(i).expect("8 bytes"));
        Some(numbers.collect())
    }

    /// The first entry that breaks a rule: by the run that rises from the first.
    fn bad_start(&self) -> Option<usize> {
        let (first, last) = (self.starts.first()?, self.starts.last()?);
        let rising = self.starts.windows(2).take_while(|pair| pair[0] < pair[1]);
        let end = rising.count();
        if *first != 0 {
            Some(0)
        } else if end + 1 < self.starts.len() {
            Some(end + 1)
        } else {
            (*last != self.edges).then_some(end)
        }
    }

    /// The start index's own fault.
    fn own(&self) -> Option<Refusal> {
        let named = |&place: &usize| self.entries[place].name_length > 0;
        let coded = |&&place: &&usize| self.entries[place].codec != 0;
        if self.places.is_empty() {
            None
        } else if self.places.len() > 1 || self.places.iter().any(named) {
            Some(Refusal::at(9, 0))
        } else if let Some(&place) = self.places.iter().find(coded) {
            Some(Refusal::at(10, place as u64))
        } else if !self.length_is_right() {
            Some(Refusal::at(12, 0))
        } else {
            let place = self.bad_start()?;
            Some(Refusal::at(37, place as u64))
        }
    }

    /// The earlier of its own fault and of what is told without it.
    fn expected(&self) -> Option<Refusal> {
        let turn = |refusal: &Refusal| {
            let number = NUMBERS.iter().position(|&n| n == refusal.number);
            (number, refusal.place)
        };
        self.own()
            .into_iter()
            .chain(self.otherwise)
            .min_by_key(turn)
    }

    /// Is nothing else wrong with the file?
    fn alone(&self) -> bool {
        self.otherwise.is_none() && self.places.len() == 1
    }

    /// Does the start index follow after bytes that belong to no section?
    fn after_gap(&self) -> bool {
        let Some(index) = self.index() else {
            return false;
        };
        let end = |entry: &Entry| entry.offset + entry.length;
        let before = self.entries[..self.places[0]].last();
        index.offset > before.map_or(64, end)
    }
}

/// What is asked of a file, and of the refusal that its author intended.
type Sort = (String, Box<dyn Fn(&Case, Option<Refusal>) -> bool>);

fn sort(what: impl Into<String>, is: impl Fn(&Case, Option<Refusal>) -> bool + 'static) -> Sort {
    (what.into(), Box::new(is))
}

/// There is a file of each sort.
fn check_sorts(tally: &mut Tally, cases: &[(Case, Option<Refusal>)]) {
    let mut sorts = place_sorts();
    sorts.extend(count_sorts());
    sorts.extend(own_sorts());
    sorts.extend(entry_sorts());
    sorts.extend(high_sorts());
    sorts.extend(order_sorts());
    for (what, is) in &sorts {
        let found = cases.iter().any(|(case, intended)| is(case, *intended));
        tally.same(&format!("a file with {what}"), found, true);
    }
    let indexed = cases.iter().filter(|(case, _)| !case.places.is_empty());
    tally.notes.push(format!(
        "start index: {} files with an intended verdict, {} sorts",
        indexed.count(),
        sorts.len()
    ));
}

/// A sound start index at this place of so many entries.
fn sound_at(place: usize, of: usize, word: &str, is: impl Fn(&Case) -> bool + 'static) -> Sort {
    let what = format!("a start index as entry {place} of {of}{word}");
    sort(what, move |case, intended| {
        let there = case.places == [place] && case.entries.len() == of;
        there && intended.is_none() && is(case)
    })
}

/// A sound index as each of nine entries, side by side and after a gap; as the
/// first and the last of 64; and as first, middle and last at each minor version.
fn place_sorts() -> Vec<Sort> {
    let mut sorts = Vec::new();
    for place in 0..9 {
        for (word, gap) in [("", false), (" after a gap", true)] {
            let is = move |case: &Case| case.after_gap() == gap;
            sorts.push(sound_at(place, 9, word, is));
        }
    }
    for place in [0, 4, 8] {
        for minor in [0, 1, 200] {
            let word = format!(" at minor {minor}");
            let is = move |case: &Case| case.minor == minor;
            sorts.push(sound_at(place, 9, &word, is));
        }
    }
    for (place, of) in [(0, 64), (63, 64), (0, 5), (2, 5), (4, 5)] {
        sorts.push(sound_at(place, of, "", |_| true));
    }
    sorts
}

/// Key counts, with a start index and without.
fn count_sorts() -> Vec<Sort> {
    let mut sorts = Vec::new();
    for (keys, indexed) in [
        (0, true),
        (1, true),
        (1_024, true),
        (1_025, true),
        (65_537, true),
        (65_537, false),
    ] {
        let word = if indexed { "a" } else { "no" };
        let what = format!("{keys} keys and {word} start index");
        sorts.push(sort(what, move |case, intended| {
            intended.is_none() && case.keys == keys && case.places.is_empty() != indexed
        }));
    }
    sorts
}

/// A fault of the section itself that is told by this number, with nothing else
/// wrong.
fn own_fault(what: String, number: u8, is: impl Fn(&Case, &Entry) -> bool + 'static) -> Sort {
    sort(what, move |case, intended| {
        let told = intended.is_some_and(|refusal| refusal.number == number);
        told && case.alone() && case.index().is_some_and(|index| is(case, index))
    })
}

fn own_sorts() -> Vec<Sort> {
    let what = "a name on the start index".to_string();
    let mut sorts = vec![own_fault(what, 9, |_, index| index.name_length > 0)];
    for codec in [1, 255] {
        let what = format!("codec {codec} of the start index");
        sorts.push(own_fault(what, 10, move |_, index| index.codec == codec));
    }
    for keys in [0, 1, 5] {
        let right = 8 * (keys + 1);
        for length in [0, right - 8, right - 1, right + 1, right + 8] {
            let what = format!("a start index of {keys} keys in {length} bytes");
            sorts.push(own_fault(what, 12, move |case, index| {
                case.keys == keys && index.length == length
            }));
        }
    }
    sorts.push(sort("two start indexes", |case, intended| {
        case.places.len() == 2 && intended == Some(Refusal::at(9, 0))
    }));
    sorts
}

/// Which entry is told of how many.
#[derive(Clone, Copy, PartialEq)]
enum Spot {
    Second,
    Middle,
    Last,
}

impl Spot {
    fn of(case: &Case, place: usize) -> Self {
        match place {
            1 if case.keys > 1 => Spot::Second,
            _ if place as u64 == case.keys => Spot::Last,
            _ => Spot::Middle,
        }
    }
}

/// A file that is told 37 at an entry of which this holds, and nothing else is
/// wrong with it.
fn told_37(what: String, is: impl Fn(&Case, usize) -> bool + 'static) -> Sort {
    sort(format!("37, {what}"), move |case, intended| {
        let told = intended.filter(|refusal| refusal.number == 37);
        told.is_some_and(|refusal| case.alone() && is(case, refusal.place as usize))
    })
}

/// Refusal 37 by the entry that is told and what is wrong with it.
fn entry_sorts() -> Vec<Sort> {
    let mut sorts = Vec::new();
    for (word, few) in [
        ("the first entry not 0", false),
        ("the only entry not 0", true),
    ] {
        let is = move |case: &Case, place: usize| place == 0 && (case.keys == 0) == few;
        sorts.push(told_37(word.to_string(), is));
    }
    for (word, spot, equal) in [
        ("the second equal", Spot::Second, true),
        ("a middle one equal", Spot::Middle, true),
        ("a middle one below", Spot::Middle, false),
        ("the last equal", Spot::Last, true),
        ("the last below the one before", Spot::Last, false),
    ] {
        sorts.push(told_37(word.to_string(), move |case, place| {
            let falls = place > 0 && case.starts[place] <= case.starts[place - 1];
            let is_equal = falls && case.starts[place] == case.starts[place - 1];
            falls && is_equal == equal && Spot::of(case, place) == spot
        }));
    }
    for (word, above) in [("below", false), ("above", true)] {
        let what = format!("the last rising and {word} the edge count");
        sorts.push(told_37(what, move |case, place| {
            let rises = place > 0 && case.starts[place - 1] < case.starts[place];
            rises && (case.starts[place] > case.edges) == above
        }));
    }
    sorts
}

/// Middle entries above the edge count: told at the next entry that does not
/// rise, in the midst and at the end, or at the end because of its number.
fn high_sorts() -> Vec<Sort> {
    let mut sorts = Vec::new();
    for (word, at_end, falls) in [
        ("told in the midst", false, true),
        ("told at the end, which does not rise", true, true),
        ("told at the end, which rises", true, false),
    ] {
        let what = format!("a middle entry above the edge count, {word}");
        sorts.push(told_37(what, move |case, place| {
            place > 1
                && case.starts[place - 1] > case.edges
                && (place as u64 == case.keys) == at_end
                && (case.starts[place] <= case.starts[place - 1]) == falls
        }));
    }
    let two = |case: &Case, intended: Option<Refusal>| {
        let bad = |i: &usize| case.starts[*i] <= case.starts[*i - 1];
        let falls: Vec<usize> = (1..case.starts.len()).filter(bad).collect();
        case.alone() && falls.len() > 1 && intended == Some(Refusal::at(37, falls[0] as u64))
    };
    sorts.push(sort("37 at the first of two entries that do not rise", two));
    sorts
}

/// Refusal 37 and each number before it, which is told.
fn order_sorts() -> Vec<Sort> {
    let mut sorts = Vec::new();
    for number in [9, 36, 10, 11, 12, 13, 14, 15] {
        let what = format!("{number} and a bad entry of the start index");
        sorts.push(sort(what, move |case, intended| {
            let told = intended.is_some_and(|refusal| refusal.number == number);
            told && case.otherwise == intended && case.bad_start().is_some()
        }));
    }
    sorts
}
