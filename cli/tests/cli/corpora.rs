//! The corpora of the second program: files and batches, and what is said of them.

use crate::run::top;
use std::collections::HashMap;
use std::fs;

/// A file or batch with its name.
pub struct Named {
    pub name: String,
    pub bytes: Vec<u8>,
}

/// The inputs of a corpus: the length of a name, the name, four bytes of length,
/// the bytes.
pub fn inputs(corpus: &str) -> Vec<Named> {
    let bytes = fs::read(top("crates").join(corpus).join("stdin")).expect("a corpus");
    let mut reader = Reader { rest: &bytes };
    let mut inputs = Vec::new();
    while !reader.rest.is_empty() {
        let name = reader.name();
        let length = reader.length();
        let bytes = reader.take(length).to_vec();
        inputs.push(Named { name, bytes });
    }
    inputs
}

/// The lines of a corpus' output.
pub fn lines(corpus: &str) -> Vec<String> {
    let text = fs::read_to_string(top("crates").join(corpus).join("stdout"));
    text.expect("a corpus")
        .lines()
        .map(str::to_string)
        .collect()
}

/// A refusal as a corpus tells it.
#[derive(Clone, Copy, Debug, PartialEq, Eq)]
pub struct Told {
    pub number: u64,
    pub place: u64,
    pub beside: u64,
}

impl Told {
    /// Is the place a byte of a group, and the group beside it?
    pub fn of_group(&self) -> bool {
        matches!(self.number, 16 | 28..=35)
    }
}

/// The refusal of each `NAME: WHAT refused NUMBER at PLACE beside BESIDE`.
pub fn refusals(corpus: &str, what: &str) -> HashMap<String, Told> {
    let mut refusals = HashMap::new();
    for line in lines(corpus) {
        let Some((name, told)) = line.split_once(": ") else {
            continue;
        };
        let words: Vec<&str> = told.split(' ').collect();
        if let [first, "refused", number, "at", place, "beside", beside, ..] = words[..] {
            if first == what {
                let told = Told {
                    number: number.parse().unwrap(),
                    place: place.parse().unwrap(),
                    beside: beside.parse().unwrap(),
                };
                refusals.insert(name.to_string(), told);
            }
        }
    }
    refusals
}

/// A lookup on a file alone.
pub struct Call {
    pub name: String,
    /// Which of the files.
    pub file: usize,
    /// Log numbers and dead marks too.
    pub full: bool,
    pub key: [u8; 16],
}

/// The files and calls of the corpus of lookups; calls by a record are left out.
pub fn lookups() -> (Vec<Vec<u8>>, Vec<Call>) {
    let bytes = fs::read(top("crates/test_lookup/stdin")).expect("a corpus");
    let mut reader = Reader { rest: &bytes };
    let (mut files, mut calls) = (Vec::new(), Vec::new());
    while !reader.rest.is_empty() {
        let kind = reader.byte();
        if kind == 1 {
            let length = reader.length();
            files.push(reader.take(length).to_vec());
            continue;
        }
        let call = Call {
            name: reader.name(),
            file: files.len() - 1,
            full: reader.byte() == 1,
            key: reader.take(16).try_into().unwrap(),
        };
        reader.take(12);
        match kind {
            2 => calls.push(call),
            _ => drop(reader.take(10 * 8 + 1 + 2 * 8 + 1 + 2 * 8 + 1)),
        }
    }
    (files, calls)
}

struct Reader<'a> {
    rest: &'a [u8],
}

impl<'a> Reader<'a> {
    fn take(&mut self, count: usize) -> &'a [u8] {
        let (taken, rest) = self.rest.split_at(count);
        self.rest = rest;
        taken
    }

    fn byte(&mut self) -> u8 {
        self.take(1)[0]
    }

    fn length(&mut self) -> usize {
        u32::from_le_bytes(self.take(4).try_into().unwrap()) as usize
    }

    fn name(&mut self) -> String {
        let length = self.byte() as usize;
        String::from_utf8(self.take(length).to_vec()).expect("a name")
    }
}
