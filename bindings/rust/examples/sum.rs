//! Sums the sections of a file as they come down in chunks, two at a time.
//!
//!     cargo run --offline --example sum -- FILE
//!
//! A line for each section, at its end. FILE stands for the other end of the line.
//! Status: 0 all fine, 1 a section has another sum than the table says, or a refusal,
//! 2 usage or input.

use edge_sst::{EdgeSst, Refusal, RunningSum, Section};
use std::collections::VecDeque;
use std::process::ExitCode;

const CHUNK: usize = 100;
const AT_ONCE: usize = 2;

/// A section that comes down, and the sum of what came so far.
struct Download<'a> {
    entry: usize,
    section: Section<'a>,
    left: &'a [u8],
    sum: RunningSum,
}

impl<'a> Download<'a> {
    fn begin(file: &'a [u8], entry: usize, section: Section<'a>) -> Download<'a> {
        let left = &file[section.start as usize..][..section.len as usize];
        Download {
            entry,
            section,
            left,
            sum: RunningSum::new(),
        }
    }

    /// The next chunk is summed, and need not be kept.
    fn take_chunk(&mut self) -> Result<(), Refusal> {
        let (chunk, left) = self.left.split_at(CHUNK.min(self.left.len()));
        self.left = left;
        self.sum.update(chunk)
    }

    fn is_whole(&self) -> bool {
        self.sum.total() == self.section.len
    }

    /// Whether its sum is the table's.
    fn tell(&self) -> bool {
        let (sum, expected) = (self.sum.sum(), self.section.sum);
        print!("entry {}: {} bytes, ", self.entry, self.sum.total());
        match sum == expected {
            true => println!("fine"),
            false => println!("{sum:016x} where the table says {expected:016x}"),
        }
        sum == expected
    }
}

/// Those that are open get a chunk in turns; where one ends the next section begins.
fn download(file: &[u8]) -> Result<bool, Refusal> {
    let sections = EdgeSst::open(file)?.sections()?.into_iter().enumerate();
    let mut waiting = sections.map(|(entry, section)| Download::begin(file, entry, section));
    let mut open: VecDeque<Download> = waiting.by_ref().take(AT_ONCE).collect();
    let mut fine = true;
    while let Some(mut next) = open.pop_front() {
        next.take_chunk()?;
        if next.is_whole() {
            fine &= next.tell();
            open.extend(waiting.next());
        } else {
            open.push_back(next);
        }
    }
    Ok(fine)
}

fn main() -> ExitCode {
    let Some(path) = std::env::args().nth(1) else {
        eprintln!("usage: sum FILE");
        return ExitCode::from(2);
    };
    let file = match std::fs::read(&path) {
        Ok(file) => file,
        Err(error) => {
            eprintln!("{path}: {error}");
            return ExitCode::from(2);
        }
    };
    match download(&file) {
        Ok(true) => ExitCode::SUCCESS,
        Ok(false) => ExitCode::FAILURE,
        Err(refusal) => {
            eprintln!("{path}: {refusal}");
            ExitCode::FAILURE
        }
    }
}
