//! The start index in the full check by another way, and the sorts of files that
//! the corpus has to hold for it.

use super::Tally;
use crate::corpus::check_files::CheckFile;
use crate::format::kind;
use crate::full_check::full_check;
use crate::layout::mend;
use crate::numbers::read_le;
use crate::open::{bytes_of, open, Opened};
use crate::refusal::Refusal;

/// A file that opens and has a start index.
struct Case {
    opened: Opened,
    /// Where it stands in the table.
    place: usize,
    minor: u8,
    starts: Vec<u64>,
    /// What is told of the file if the index is a section of a skipped kind.
    otherwise: Option<Refusal>,
    /// The degrees, if the file passes then.
    degrees: Option<Vec<u64>>,
    intended: Option<Result<(), Refusal>>,
}

pub fn check(tally: &mut Tally, files: &[CheckFile]) {
    let cases: Vec<(&CheckFile, Case)> = files
        .iter()
        .filter_map(|file| Some((file, case(file)?)))
        .collect();
    for (file, case) in &cases {
        let what = format!("start index of {}", file.name);
        tally.same(&what, file.verdict(), case.expected());
    }
    check_sorts(tally, &cases);
}

fn case(file: &CheckFile) -> Option<Case> {
    let opened = open(&file.bytes).ok()?;
    let range = opened.record.starts?;
    let place = opened
        .rows
        .iter()
        .position(|row| row.kind == kind::START_INDEX)?;
    // The kind stands 28 bytes before the name; its lower byte becomes 1.
    let mut skipping = file.bytes.clone();
    skipping[opened.rows[place].name_place as usize - 28] = 1;
    mend(&mut skipping);
    let checked = full_check(&skipping);
    let degrees = checked.as_ref().ok().map(|contents| {
        let groups = contents.groups.iter();
        groups.map(|group| group.edges.len() as u64).collect()
    });
    Some(Case {
        place,
        minor: file.bytes[9],
        starts: bytes_of(&file.bytes, range)
            .chunks_exact(8)
            .map(read_le)
            .collect(),
        otherwise: checked.err(),
        degrees,
        intended: file.intended,
        opened,
    })
}

impl Case {
    /// Differences in place of sums: each entry and the next are as far apart as
    /// the degree says. What is told without the index is told with it, and its
    /// own 23 is the last.
    fn expected(&self) -> Result<(), Refusal> {
        if let Some(refusal) = self.otherwise {
            return Err(refusal);
        }
        let apart: Vec<u64> = self
            .starts
            .windows(2)
            .map(|pair| pair[1] - pair[0])
            .collect();
        match self.degrees.as_ref() == Some(&apart) && self.starts[0] == 0 {
            true => Ok(()),
            false => Err(Refusal::at(23, 0)),
        }
    }

    /// The entries that are not as the degrees, if nothing else is wrong.
    fn wrong(&self) -> Option<Vec<usize>> {
        let degrees = self.degrees.as_ref()?;
        let before = |i: usize| degrees[..i].iter().sum::<u64>();
        let all = 0..self.starts.len();
        Some(all.filter(|&i| self.starts[i] != before(i)).collect())
    }

    fn is_23_at(&self, places: &[usize]) -> bool {
        self.intended == Some(Err(Refusal::at(23, 0))) && self.wrong().as_deref() == Some(places)
    }
}

/// What is asked of a file.
type Sort = (String, Box<dyn Fn(&Case) -> bool>);

fn sort(what: impl Into<String>, is: impl Fn(&Case) -> bool + 'static) -> Sort {
    (what.into(), Box::new(is))
}

fn check_sorts(tally: &mut Tally, cases: &[(&CheckFile, Case)]) {
    let mut sorts = sound_sorts();
    sorts.extend(wrong_sorts());
    sorts.extend(order_sorts());
    for (what, is) in &sorts {
        let found = cases.iter().any(|(_, case)| is(case));
        tally.same(&format!("full check: a file with {what}"), found, true);
    }
    tally.notes.push(format!(
        "full check: {} files with a start index that open, {} sorts",
        cases.len(),
        sorts.len()
    ));
}

/// Files that pass, by where the index stands, and by minor version.
fn sound_sorts() -> Vec<Sort> {
    let mut sorts = Vec::new();
    for place in 0..9 {
        for minor in [0, 1, 200] {
            let what = format!("a right start index at entry {place}, minor {minor}");
            sorts.push(sort(what, move |case| {
                let there = case.place == place && case.opened.rows.len() == 9;
                there && case.minor == minor && case.intended == Some(Ok(()))
            }));
        }
    }
    for keys in [0, 1] {
        let what = format!("a right start index of {keys} keys");
        sorts.push(sort(what, move |case| {
            case.opened.record.key_count == keys && case.intended == Some(Ok(()))
        }));
    }
    sorts
}

/// 23 by one entry that is wrong, lower and higher: the first after 0, one in the
/// midst, the last before the edge count. And by several.
fn wrong_sorts() -> Vec<Sort> {
    let mut sorts = Vec::new();
    for (keys, spots) in [(5, [1, 2, 4]), (12, [1, 6, 11])] {
        for place in spots {
            let what = format!("start {place} of {keys} keys wrong");
            sorts.push(sort(what, move |case| {
                case.opened.record.key_count == keys && case.is_23_at(&[place])
            }));
        }
    }
    for (word, higher) in [("lower", false), ("higher", true)] {
        sorts.push(sort(format!("one start {word}"), move |case| {
            let wrong = case.wrong().unwrap_or_default();
            let [place] = wrong[..] else {
                return false;
            };
            let right: u64 = case.degrees.iter().flatten().take(place).sum();
            case.is_23_at(&[place]) && (case.starts[place] > right) == higher
        }));
    }
    sorts.push(sort("start 1,024 of 1,025 keys wrong", |case| {
        case.opened.record.key_count == 1_025 && case.is_23_at(&[1_024])
    }));
    sorts.push(sort("all inner starts wrong", |case| {
        case.is_23_at(&[1, 2, 3, 4])
    }));
    sorts
}

/// A wrong sum of the index itself, and the faults that come before 23.
fn order_sorts() -> Vec<Sort> {
    let mut sorts = Vec::new();
    for place in [0, 3, 8] {
        let what = format!("a wrong sum of the start index at entry {place}");
        sorts.push(sort(what, move |case| {
            let own = Some(Refusal::at(22, place as u64));
            case.place == place && case.intended == own.map(Err) && case.otherwise == own
        }));
    }
    sorts.push(sort("a faulty group and a wrong start index", |case| {
        let told = case.otherwise.filter(|refusal| refusal.number == 16);
        let rises_by_one = case.starts.windows(2).all(|pair| pair[0] + 1 == pair[1]);
        told.is_some() && case.intended == told.map(Err) && !rises_by_one
    }));
    sorts.push(sort(
        "a right start index and another fault under 23",
        |case| {
            let told = case.otherwise.filter(|refusal| refusal.number == 23);
            told.is_some() && case.intended == told.map(Err)
        },
    ));
    sorts
}
