//! The corpus of lookups: files, and the calls that are made on each.

mod call;
mod chance;
mod earlier_groups;
mod fields;
mod group_faults;
mod openings;
mod ranges;
pub(super) mod raw;
mod records;
mod rooms;
mod searches;
mod sound;
mod starts;
mod unsorted;

pub use call::{Call, Intended, LentRecord, Outcome, Rooms, LONGEST_FILE};

use crate::groups::Group;
use crate::layout::Layout;
use crate::numbers::Id;
use crate::refusal::Refusal;
use std::fmt::Display;

/// A file of the corpus, and what is asked of it.
pub struct LookupFile {
    /// Words of small letters and digits, joined by `-`.
    pub name: String,
    pub bytes: Vec<u8>,
    /// The edges that a sound file was made from, where they are at hand.
    pub groups: Option<Vec<Group>>,
    /// What the full check refuses it with in the author's view, where there is
    /// one.
    pub checked: Option<Refusal>,
    pub calls: Vec<Call>,
}

pub fn files() -> Vec<LookupFile> {
    let mut files = Files::default();
    sound::add(&mut files);
    searches::add(&mut files);
    rooms::add(&mut files);
    group_faults::add(&mut files);
    earlier_groups::add(&mut files);
    openings::add(&mut files);
    records::add(&mut files);
    fields::add(&mut files);
    ranges::add(&mut files);
    unsorted::add(&mut files);
    starts::add(&mut files);
    chance::add(&mut files);
    files.0
}

pub fn stdin(files: &[LookupFile]) -> Vec<u8> {
    files.iter().flat_map(LookupFile::input).collect()
}

pub fn stdout(files: &[LookupFile]) -> Vec<u8> {
    let mut lines = Vec::new();
    for file in files {
        for call in &file.calls {
            lines.extend(call.lines(&file.bytes).into_bytes());
        }
    }
    lines
}

/// A refusal that the author of a call intends.
fn expect(number: u8, place: u64) -> Intended {
    Intended::Refused(Refusal::at(number, place))
}

/// A fault within a group that the author of a call intends: its number, the
/// byte of the group, the group.
fn faulty(number: u8, byte: u64, group: u64) -> Intended {
    Intended::Refused(Refusal::in_group(number, byte, group))
}

fn found(degree: u64, index: u64) -> Intended {
    Intended::Found { degree, index }
}

/// What a call asks, whichever of the two lookups it is.
#[derive(Clone)]
struct Question {
    key: Id,
    rooms: Rooms,
    record: Option<LentRecord>,
}

/// Asks for a key on the file alone, with room for up to four partners and a
/// little more.
fn ask(key: Id) -> Question {
    Question {
        key,
        rooms: Rooms::more(4),
        record: None,
    }
}

impl Question {
    fn rooms(self, rooms: Rooms) -> Self {
        Question { rooms, ..self }
    }

    /// The same question with a record in place of opening.
    fn by(self, record: &LentRecord) -> Self {
        Question {
            record: Some(record.clone()),
            ..self
        }
    }
}

#[derive(Default)]
struct Files(Vec<LookupFile>);

impl Files {
    fn bytes(&mut self, name: impl Into<String>, bytes: Vec<u8>) -> &mut LookupFile {
        self.0.push(LookupFile {
            name: name.into(),
            bytes,
            groups: None,
            checked: None,
            calls: Vec::new(),
        });
        self.0.last_mut().expect("just put there")
    }

    fn layout(&mut self, name: impl Into<String>, layout: &Layout) -> &mut LookupFile {
        self.bytes(name, layout.bytes())
    }
}

impl LookupFile {
    fn size(&self) -> u64 {
        self.bytes.len() as u64
    }

    /// Kind 1, then the calls.
    fn input(&self) -> Vec<u8> {
        let mut input = vec![1];
        input.extend((self.bytes.len() as u32).to_le_bytes());
        input.extend(&self.bytes);
        for call in &self.calls {
            input.extend(call.input());
        }
        input
    }

    fn call(
        &mut self,
        full: bool,
        name: impl Display,
        question: Question,
        intended: Option<Intended>,
    ) {
        let form = if full { "full" } else { "alone" };
        self.calls.push(Call {
            name: format!("{}-{name}-{form}", self.name),
            full,
            key: question.key,
            rooms: question.rooms,
            record: question.record,
            intended,
        });
    }

    /// A lookup with log numbers and dead marks.
    fn full(
        &mut self,
        name: impl Display,
        question: Question,
        intended: impl Into<Option<Intended>>,
    ) {
        self.call(true, name, question, intended.into());
    }

    /// A lookup of the partners alone.
    fn alone(
        &mut self,
        name: impl Display,
        question: Question,
        intended: impl Into<Option<Intended>>,
    ) {
        self.call(false, name, question, intended.into());
    }

    /// Both lookups, where they are to say the same.
    fn both(
        &mut self,
        name: impl Display,
        question: Question,
        intended: impl Into<Option<Intended>>,
    ) {
        let intended = intended.into();
        self.full(&name, question.clone(), intended);
        self.alone(&name, question, intended);
    }

    /// Both lookups, where only the partners alone are to be had: an earlier
    /// degree is at fault, the start index or the edge count.
    fn misplaced(&mut self, name: impl Display, question: Question, degree: u64, index: u64) {
        self.full(&name, question.clone(), expect(19, index));
        self.alone(&name, question, found(degree, index));
    }
}
