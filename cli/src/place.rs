//! The place of a refusal in words. What a place counts is fixed by the number.

use crate::failure::{Failure, Refused};
use crate::id::Hex;
use crate::input::Name;
use crate::kinds;
use edge_sst::{EdgeSst, Heading, Record, Refusal};

/// What was refused: the words of a place may need it.
pub enum Source<'a> {
    File(&'a [u8]),
    Batch,
    /// A batch that was made of a text: on which line each edge stands.
    Text(&'a [u64]),
    /// A part of a file of any sort.
    Chunk,
}

/// What the place of a refusal counts.
enum Counts {
    Nothing,
    Entries,
    Keys,
    Offsets,
    /// Entries of the start index.
    Starts,
    Groups,
    /// The bytes of a group; the group stands beside.
    GroupBytes,
    Needed,
    Bytes,
    /// A number that is not known here.
    Unknown,
}

impl Counts {
    fn of(number: u64) -> Counts {
        match number {
            1..=9 | 12 | 15 | 21 | 23 | 26 | 27 => Counts::Nothing,
            10 | 11 | 22 | 36 => Counts::Entries,
            13 => Counts::Keys,
            14 => Counts::Offsets,
            37 => Counts::Starts,
            16 | 28..=35 => Counts::GroupBytes,
            19 => Counts::Groups,
            20 => Counts::Needed,
            24 | 25 => Counts::Bytes,
            _ => Counts::Unknown,
        }
    }
}

/// The failure of a call on a named file, or on a batch or text.
pub fn refused(name: &Name, source: &Source, refusal: Refusal) -> Failure {
    Failure::Refused(Refused {
        file: name.clone(),
        refusal,
        place: words(&refusal, source),
    })
}

fn words(refusal: &Refusal, source: &Source) -> String {
    let place = refusal.place;
    match Counts::of(refusal.number) {
        Counts::Nothing => String::new(),
        Counts::Entries => with("entry", place, section(source, place)),
        Counts::Keys => with("key", place, None),
        Counts::Offsets => with("offset", place, None),
        Counts::Starts => with("start", place, None),
        Counts::Groups => group(source, place),
        Counts::GroupBytes => format!("{}, byte {place}", group(source, refusal.beside)),
        Counts::Needed => format!("{place} needed"),
        Counts::Bytes => record(source, place),
        Counts::Unknown => with("place", place, None),
    }
}

fn with(what: &str, place: u64, beside: Option<String>) -> String {
    match beside {
        Some(beside) => format!("{what} {place} ({beside})"),
        None => format!("{what} {place}"),
    }
}

/// The section of an entry, where the file opens: only then is it listed.
fn section(source: &Source, entry: u64) -> Option<String> {
    let Source::File(bytes) = source else {
        return None;
    };
    let sections = EdgeSst::open(bytes).ok()?.sections().ok()?;
    let section = sections.get(usize::try_from(entry).ok()?)?;
    Some(kinds::describe(section))
}

fn group(source: &Source, group: u64) -> String {
    with("group", group, key(source, group))
}

/// The key of a group, where the file opens.
fn key(source: &Source, group: u64) -> Option<String> {
    let Source::File(bytes) = source else {
        return None;
    };
    let opened = EdgeSst::open(bytes).ok()?;
    let key = opened.keys().nth(usize::try_from(group).ok()?)?;
    Some(format!("key {}", Hex(key)))
}

/// The record that begins at a byte of a batch: the records before it are whole.
fn record(source: &Source, byte: u64) -> String {
    let (heading, edge) = (Heading::LEN as u64, Record::LEN as u64);
    let Some(place) = byte.checked_sub(heading) else {
        return with("byte", byte, Some("the heading".to_string()));
    };
    let index = place / edge;
    let line = match source {
        Source::Text(lines) => usize::try_from(index).ok().and_then(|i| lines.get(i)),
        _ => None,
    };
    let beside = format!("edge {index}");
    match line {
        Some(line) => with("line", *line, Some(beside)),
        None => with("byte", byte, Some(beside)),
    }
}
