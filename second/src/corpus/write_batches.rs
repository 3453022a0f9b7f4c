//! The corpus of the writer: batches, sound and faulty, and what becomes of
//! each.

mod chance;
mod forms;
mod large;
mod malformed;
mod order;
mod records;
mod sound;

use super::check_files::summary_text;
use super::{framed, fresh_output};
use crate::full_check::full_check;
use crate::numbers::hex;
use crate::read_out::read_out;
use crate::refusal::Refusal;
use crate::write::{needed, write};
use crate::xxh3::xxh3_64;

/// The room for each file, and the most bytes of a batch.
pub const ROOM: usize = 262_144;
/// The room for the files of large batches.
pub const LARGE_ROOM: usize = 3_145_728;
/// Files up to this size are told byte by byte.
const SHOWN: u64 = 300;

pub struct WriteBatch {
    /// Words of small letters and digits, joined by `-`.
    pub name: String,
    pub bytes: Vec<u8>,
    /// The size of the file in the author's view, or the refusal; batches made
    /// by chance have no such view.
    pub intended: Option<Result<u64, Refusal>>,
}

/// The batches kept beside the library.
pub fn small() -> Vec<WriteBatch> {
    let mut batches = Batches::default();
    sound::add(&mut batches);
    forms::add(&mut batches);
    malformed::add(&mut batches);
    order::add(&mut batches);
    chance::add(&mut batches);
    batches.0
}

/// Batches about the key count above which there are fences, and of large
/// degrees.
pub fn large() -> Vec<WriteBatch> {
    let mut batches = Batches::default();
    large::add(&mut batches);
    batches.0
}

#[derive(Default)]
struct Batches(Vec<WriteBatch>);

impl Batches {
    fn written(&mut self, name: impl Into<String>, bytes: Vec<u8>, size: u64) {
        self.add(name, bytes, Some(Ok(size)));
    }

    fn refused(&mut self, name: impl Into<String>, bytes: Vec<u8>, number: u8, place: usize) {
        let place = place as u64;
        self.add(name, bytes, Some(Err(Refusal::at(number, place))));
    }

    fn add(
        &mut self,
        name: impl Into<String>,
        bytes: Vec<u8>,
        intended: Option<Result<u64, Refusal>>,
    ) {
        self.0.push(WriteBatch {
            name: format!("batch-{}", name.into()),
            bytes,
            intended,
        });
    }
}

/// What a call of the writer says, and the output after it.
pub struct Outcome {
    pub told: Result<u64, Refusal>,
    pub output: Vec<u8>,
}

impl WriteBatch {
    pub fn write(&self, room: usize) -> Outcome {
        let mut output = fresh_output(room);
        let told = write(&self.bytes, &mut output);
        Outcome { told, output }
    }

    /// What is needed, what is written, the writing with a byte too little,
    /// the bytes of a small file, and the file read back.
    fn lines(&self) -> String {
        let Outcome { told, output } = self.write(ROOM);
        let mut lines = self.first_lines(told, &output);
        let Ok(size) = told else {
            return lines;
        };
        let file = &output[..size as usize];
        let short = self.write(file.len() - 1);
        let refusal = short.told.expect_err("too little room");
        let name = &self.name;
        let sum = xxh3_64(&short.output);
        lines += &format!("{name}: short {refusal} all {sum:016x}\n");
        if size <= SHOWN {
            lines += &format!("{name}: bytes {}\n", hex(file));
        }
        lines + &self.back_lines(file)
    }

    /// The lines of a large batch, without those about too little room and of
    /// the bytes.
    fn large_lines(&self) -> String {
        let Outcome { told, output } = self.write(LARGE_ROOM);
        let mut lines = self.first_lines(told, &output);
        if let Ok(size) = told {
            lines += &self.back_lines(&output[..size as usize]);
        }
        lines
    }

    fn first_lines(&self, told: Result<u64, Refusal>, output: &[u8]) -> String {
        let name = &self.name;
        let needed = match needed(&self.bytes) {
            Ok(size) => size.to_string(),
            Err(refusal) => refusal.to_string(),
        };
        let wrote = match told {
            Ok(size) => {
                let sum = xxh3_64(&output[..size as usize]);
                format!("wrote {size} sum {sum:016x}")
            }
            Err(refusal) => format!("write {refusal}"),
        };
        let all = xxh3_64(output);
        format!("{name}: needed {needed}\n{name}: {wrote} all {all:016x}\n")
    }

    /// A written file passes the full check, has a summary, and its read-out is
    /// the batch.
    fn back_lines(&self, file: &[u8]) -> String {
        let name = &self.name;
        full_check(file).expect("a sound file");
        assert!(self.reads_back(file), "{name} reads back");
        let summary = summary_text(file);
        format!("{name}: check fine\n{name}: summary {summary}\n{name}: reads back\n")
    }

    pub fn reads_back(&self, file: &[u8]) -> bool {
        let mut batch = vec![0; self.bytes.len()];
        let told = read_out(file, &mut batch);
        told == Ok(self.bytes.len() as u64) && batch == self.bytes
    }
}

pub fn stdin(batches: &[WriteBatch]) -> Vec<u8> {
    batches
        .iter()
        .flat_map(|batch| framed(&batch.name, &batch.bytes))
        .collect()
}

pub fn stdout(batches: &[WriteBatch]) -> Vec<u8> {
    batches
        .iter()
        .flat_map(|batch| batch.lines().into_bytes())
        .collect()
}

pub fn large_stdout(batches: &[WriteBatch]) -> Vec<u8> {
    batches
        .iter()
        .flat_map(|batch| batch.large_lines().into_bytes())
        .collect()
}
