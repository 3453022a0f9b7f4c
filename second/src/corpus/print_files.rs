//! The corpus of the printing program: some files of the corpus of the full
//! check, and what the program prints for each.

use super::check_files::{self, CheckFile};
use crate::open::open;
use crate::print::print;
use std::collections::BTreeMap;

/// No chosen file has more edges than this.
pub const MOST_EDGES: u64 = 40;
/// Of each refusal number this many files are chosen.
pub const OF_EACH_REFUSAL: usize = 2;

/// Files that pass, by name.
const CHOSEN: [&str; 43] = [
    "example",
    "board",
    "check-heading-only",
    "check-heading-only-inverse",
    "check-three-groups-inverse",
    "check-board-inverse",
    "check-three-groups-48-bits",
    "check-gaps-of-ones",
    "check-sections-reversed",
    "check-1-edges-all-dead",
    "check-8-edges-none-dead",
    "check-8-edges-all-dead",
    "check-9-edges-last-dead",
    "check-16-edges-first-dead",
    "check-17-edges-last-dead",
    "check-24-edges-no-section-5",
    "check-no-edges-section-5",
    "check-split-degree-16",
    "check-dense-degree-17",
    "check-dense-group-1-of-3",
    "check-split-though-dear",
    "check-split-ends",
    "check-dense-ends",
    "check-log-numbers",
    "check-log-number-0",
    "check-log-number-most",
    "check-minor-200-unknown-section",
    "check-minor-255-unknown-sections",
    "check-property-streams",
    "check-starts-five",
    "check-starts-no-keys",
    "check-starts-at-0-minor-200",
    "check-65536-bytes",
    "check-chance-0",
    "check-chance-1",
    "check-chance-2",
    "check-chance-3",
    "check-chance-4",
    "check-chance-5",
    "check-chance-6",
    "check-chance-7",
    "check-chance-8",
    "check-chance-9",
];

/// The files chosen by name, and the first of each refusal number.
pub fn files() -> Vec<CheckFile> {
    let mut refused: BTreeMap<u8, usize> = BTreeMap::new();
    let chosen = |file: &CheckFile| match file.verdict() {
        Ok(()) => CHOSEN.contains(&file.name.as_str()),
        Err(refusal) => {
            let count = refused.entry(refusal.number).or_default();
            *count += 1;
            *count <= OF_EACH_REFUSAL
        }
    };
    let mut files = check_files::files();
    files.retain(chosen);
    files
}

/// The edge count of a file that opens.
pub fn edge_count(file: &CheckFile) -> Option<u64> {
    Some(open(&file.bytes).ok()?.record.edge_count)
}

pub fn stdout(files: &[CheckFile]) -> Vec<u8> {
    let text = |file: &CheckFile| format!("== {}\n{}", file.name, print(&file.bytes));
    files
        .iter()
        .flat_map(|file| text(file).into_bytes())
        .collect()
}
