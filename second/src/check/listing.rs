//! Checks of the section list and of its corpus.

use super::{opening, Tally};
use crate::corpus::list_files::{self, blank, sort, Sort, OF_EACH_COUNT, OF_EACH_REFUSAL, ROOM};
use crate::corpus::open_files::{self, OpenFile};
use crate::list::list;
use crate::open::open;
use crate::refusal::Refusal;
use std::collections::BTreeMap;

pub fn check(tally: &mut Tally) {
    let files = list_files::files();
    check_chosen(tally, &files);
    for file in &files {
        if let Some(intended) = file.intended {
            tally.same(&file.name, file.verdict(), intended);
        }
    }
    for file in open_files::small() {
        check_listed(tally, &file);
    }
}

/// The files are few and leave no refusal and no count of sections out.
fn check_chosen(tally: &mut Tally, files: &[OpenFile]) {
    let mut sorts: BTreeMap<Sort, usize> = BTreeMap::new();
    for file in files {
        *sorts.entry(sort(file)).or_default() += 1;
    }
    for number in opening::NUMBERS {
        let found = sorts.get(&Sort::Refused(number)).copied();
        let what = format!("refusal {number} listed");
        tally.same(&what, found, Some(OF_EACH_REFUSAL));
    }
    for count in [4, 5, 6, 7, 8, 9, 64] {
        let found = sorts.get(&Sort::Sections(count)).copied().unwrap_or(0);
        let some = (1..=OF_EACH_COUNT).contains(&found);
        tally.same(&format!("{count} sections listed"), some, true);
    }
    let few = (160..=200).contains(&files.len());
    tally.same("160 to 200 listed", few, true);
    tally.notes.push(format!(
        "corpus of the section list: {} files, {} bytes in, {} bytes out",
        files.len(),
        open_files::stdin(files).len(),
        list_files::stdout(files).len()
    ));
}

/// A table of every length: what opening refuses is refused alike, a short one
/// is refused and stays, and in a longer one the other rows stay.
fn check_listed(tally: &mut Tally, file: &OpenFile) {
    for room in [0, 1, 3, 4, 5, 7, 8, ROOM - 1, ROOM, ROOM + 1] {
        let mut table = vec![blank(); room];
        let answer = list(&file.bytes, &mut table);
        let mut left = vec![blank(); room];
        let expected = open(&file.bytes).and_then(|opened| {
            let needed = opened.rows.len();
            if room < needed {
                return Err(Refusal::at(20, needed as u64));
            }
            left.splice(..needed, opened.rows);
            Ok(needed as u64)
        });
        let what = format!("{} in {room} rows", file.name);
        tally.same(&what, (answer, table), (expected, left));
    }
}
