//! The corpus of the full check, of the summary and of read-out: whole files,
//! sound and damaged, those of the other corpora among them.

mod bad_groups;
mod chance;
mod order;
pub mod samples;
mod sound;
mod starts;
mod summaries;
mod sums;
mod totals;

use super::{framed, fresh_output, lookup_calls, open_files};
use crate::full_check::full_check;
use crate::layout::Layout;
use crate::print::LONGEST;
use crate::read_out::read_out;
use crate::refusal::Refusal;
use crate::summary::summary;
use crate::xxh3::xxh3_64;
use std::collections::BTreeSet;

/// The room for each read-out. No file of the corpus needs more.
pub const ROOM: usize = 262_144;

pub struct CheckFile {
    /// Words of small letters and digits, joined by `-`.
    pub name: String,
    pub bytes: Vec<u8>,
    /// What the full check has to say in the author's view, where there is one.
    pub intended: Option<Result<(), Refusal>>,
    /// What the summary has to say in the author's view, where there is one.
    pub summed: Option<String>,
}

/// The files made for the full check come first, then those of the other
/// corpora.
pub fn files() -> Vec<CheckFile> {
    let mut files = Files::default();
    sound::add(&mut files);
    sums::add(&mut files);
    bad_groups::add(&mut files);
    totals::add(&mut files);
    starts::add(&mut files);
    order::add(&mut files);
    chance::add(&mut files);
    summaries::add(&mut files);
    other_corpora(&mut files);
    files.0
}

/// A name tells one file in all corpora, so it is taken in once.
fn other_corpora(files: &mut Files) {
    let mut names = BTreeSet::new();
    for file in open_files::small() {
        // Opening is the beginning of the full check. Of a file that opens
        // its author has said no more than that.
        let intended = match file.intended {
            Some(open_files::Verdict::Refused(refusal)) => Some(Err(refusal)),
            _ => None,
        };
        names.insert(file.name.clone());
        files.bytes(file.name, file.bytes, intended);
    }
    for file in lookup_calls::files() {
        if file.bytes.len() <= LONGEST && names.insert(file.name.clone()) {
            files.bytes(file.name, file.bytes, file.checked.map(Err));
        }
    }
}

#[derive(Default)]
struct Files(Vec<CheckFile>);

impl Files {
    fn fine(&mut self, name: impl Into<String>, layout: Layout) {
        self.bytes(name, layout.bytes(), Some(Ok(())));
    }

    /// A file that passes, and its summary.
    fn summed(&mut self, name: impl Into<String>, layout: Layout, summary: String) {
        self.fine(name, layout);
        let file = self.0.last_mut().expect("the file");
        file.summed = Some(summary);
    }

    fn refused(&mut self, name: impl Into<String>, layout: Layout, number: u8, place: u64) {
        let refusal = Refusal::at(number, place);
        self.bytes(name, layout.bytes(), Some(Err(refusal)));
    }

    /// Refused for this byte of the group with this index.
    fn faulty(
        &mut self,
        name: impl Into<String>,
        layout: Layout,
        number: u8,
        byte: u64,
        group: usize,
    ) {
        let refusal = Refusal::in_group(number, byte, group as u64);
        self.bytes(name, layout.bytes(), Some(Err(refusal)));
    }

    fn bytes(
        &mut self,
        name: impl Into<String>,
        bytes: Vec<u8>,
        intended: Option<Result<(), Refusal>>,
    ) {
        self.0.push(CheckFile {
            name: name.into(),
            bytes,
            intended,
            summed: None,
        });
    }
}

impl CheckFile {
    pub fn verdict(&self) -> Result<(), Refusal> {
        full_check(&self.bytes).map(drop)
    }

    /// What the read-out into an output of this length says, and the output
    /// after it.
    pub fn read_out(&self, room: usize) -> (Result<u64, Refusal>, Vec<u8>) {
        let mut output = fresh_output(room);
        let told = read_out(&self.bytes, &mut output);
        (told, output)
    }

    /// A line for the check, one for the summary and one for the read-out; for a
    /// file that passes also one for the read-out with a byte too little.
    fn lines(&self) -> String {
        let name = &self.name;
        let check = match self.verdict() {
            Ok(()) => "fine".to_string(),
            Err(refusal) => refusal.to_string(),
        };
        let (told, output) = self.read_out(ROOM);
        let sum = xxh3_64(&output);
        let summary = summary_text(&self.bytes);
        let mut lines = format!("{name}: check {check}\n{name}: summary {summary}\n");
        match told {
            Err(refusal) => lines += &format!("{name}: read-out {refusal} sum {sum:016x}\n"),
            Ok(size) => {
                lines += &format!("{name}: read-out {size} bytes sum {sum:016x}\n");
                lines += &self.short_line(size as usize - 1);
            }
        }
        lines
    }

    fn short_line(&self, room: usize) -> String {
        let (told, output) = self.read_out(room);
        let refusal = told.expect_err("too little room");
        format!(
            "{}: short {refusal} sum {:016x}\n",
            self.name,
            xxh3_64(&output)
        )
    }
}

/// What the summary says of a file, as a line has it.
pub fn summary_text(file: &[u8]) -> String {
    match summary(file) {
        Ok(summary) => summary.to_string(),
        Err(refusal) => refusal.to_string(),
    }
}

pub fn stdin(files: &[CheckFile]) -> Vec<u8> {
    files
        .iter()
        .flat_map(|file| framed(&file.name, &file.bytes))
        .collect()
}

pub fn stdout(files: &[CheckFile]) -> Vec<u8> {
    files
        .iter()
        .flat_map(|file| file.lines().into_bytes())
        .collect()
}
