//! The corpus of the section list: some files of the corpus of opening, and what
//! the list says of each.

use super::open_files::samples::heading_only;
use super::open_files::{self, row_text, OpenFile, Verdict};
use crate::list::list;
use crate::open::{open, Range, SectionRow};
use crate::refusal::Refusal;
use std::collections::BTreeMap;

/// The rows of the table that each call fills. No file has more sections.
pub const ROOM: usize = 64;
/// Of each refusal number this many files are chosen.
pub const OF_EACH_REFUSAL: usize = 5;
/// Of each count of sections at most this many files are chosen.
pub const OF_EACH_COUNT: usize = 20;

/// What decides on a file: its refusal's number or its count of sections.
#[derive(Clone, Copy, Debug, PartialEq, Eq, PartialOrd, Ord)]
pub enum Sort {
    Refused(u8),
    Sections(usize),
}

pub fn sort(file: &OpenFile) -> Sort {
    match open(&file.bytes) {
        Err(refusal) => Sort::Refused(refusal.number),
        Ok(opened) => Sort::Sections(opened.rows.len()),
    }
}

/// A file of one section. None that opens has fewer than four.
fn one_section() -> OpenFile {
    let missing = Refusal::at(9, 0);
    OpenFile {
        name: "list-one-section".to_string(),
        bytes: heading_only().with(|l| l.sections.truncate(1)).bytes(),
        intended: Some(Verdict::Refused(missing)),
    }
}

/// The first files of each sort.
pub fn files() -> Vec<OpenFile> {
    let mut counts: BTreeMap<Sort, usize> = BTreeMap::new();
    let chosen = |file: &OpenFile| {
        let sort = sort(file);
        let count = counts.entry(sort).or_default();
        *count += 1;
        *count
            <= match sort {
                Sort::Refused(_) => OF_EACH_REFUSAL,
                Sort::Sections(_) => OF_EACH_COUNT,
            }
    };
    let mut files = vec![one_section()];
    files.extend(open_files::small());
    files.retain(chosen);
    files
}

/// What each row of a table is before a call.
pub fn blank() -> SectionRow {
    SectionRow {
        kind: 65_535,
        codec: 255,
        name_place: 1,
        name_length: 254,
        range: Range {
            offset: 2,
            length: 3,
        },
        checksum: 4,
    }
}

/// A line of the answer; a line for each row that was written; a line with the
/// count of the other rows that are as before. For a file that is not refused
/// also a line of the answer for a table with one row too little.
fn lines(file: &OpenFile) -> String {
    let mut table = vec![blank(); ROOM];
    let answer = list(&file.bytes, &mut table);
    let written = answer.unwrap_or(0) as usize;
    let (rows, rest) = table.split_at(written);
    let left = rest.iter().filter(|row| **row == blank()).count();
    let mut text = match answer {
        Err(refusal) => format!("{}: {refusal}\n", file.name),
        Ok(count) => format!("{}: {count} sections\n", file.name),
    };
    for row in rows {
        text += &format!("{}\n", row_text(row));
    }
    text += &format!("  left {left}\n");
    if let Ok(count) = answer {
        let mut short = vec![blank(); count as usize - 1];
        let refused = list(&file.bytes, &mut short).expect_err("a row too little");
        text += &format!("  short {refused}\n");
    }
    text
}

pub fn stdout(files: &[OpenFile]) -> Vec<u8> {
    files
        .iter()
        .flat_map(|file| lines(file).into_bytes())
        .collect()
}
