//! The corpus of opening: whole files, sound and damaged, as one input, and
//! what opening says of each.

mod changed;
mod checksums;
mod counts;
mod fences;
mod heads;
mod keys_and_offsets;
mod kinds;
mod large;
mod pairs;
mod ranges;
mod reserved;
pub(super) mod samples;
mod sound;
mod starts;
mod table;
mod unread;

use super::framed;
use crate::header::{header, HeaderFields};
use crate::layout::Layout;
use crate::numbers::hex;
use crate::open::{open, OpenedRecord, Range, SectionRow};
use crate::refusal::Refusal;

/// One file of the corpus.
pub struct OpenFile {
    /// Words of small letters and digits, joined by `-`.
    pub name: String,
    pub bytes: Vec<u8>,
    /// What opening has to say in the author's view; files made by chance have
    /// no such view.
    pub intended: Option<Verdict>,
}

#[derive(Clone, Copy, Debug, PartialEq, Eq)]
pub enum Verdict {
    Opens,
    Refused(Refusal),
}

const fn expect(number: u8, place: u64) -> Verdict {
    Verdict::Refused(Refusal::at(number, place))
}

/// The files kept beside the library.
pub fn small() -> Vec<OpenFile> {
    let mut files = Files::default();
    sound::add(&mut files);
    kinds::add(&mut files);
    unread::add(&mut files);
    heads::add(&mut files);
    checksums::add(&mut files);
    table::add(&mut files);
    ranges::add(&mut files);
    counts::add(&mut files);
    keys_and_offsets::add(&mut files);
    fences::add(&mut files);
    reserved::add(&mut files);
    starts::add(&mut files);
    pairs::add(&mut files);
    changed::add(&mut files);
    files.0
}

/// Files about the key count above which fences are required, and with many
/// starts.
pub fn large() -> Vec<OpenFile> {
    let mut files = Files::default();
    large::add(&mut files);
    files.0
}

#[derive(Default)]
struct Files(Vec<OpenFile>);

impl Files {
    fn opens(&mut self, name: impl Into<String>, layout: Layout) {
        self.bytes(name, layout.bytes(), Some(Verdict::Opens));
    }

    fn refused(&mut self, name: impl Into<String>, layout: Layout, intended: Verdict) {
        self.bytes(name, layout.bytes(), Some(intended));
    }

    fn bytes(&mut self, name: impl Into<String>, bytes: Vec<u8>, intended: Option<Verdict>) {
        self.0.push(OpenFile {
            name: name.into(),
            bytes,
            intended,
        });
    }
}

impl OpenFile {
    pub fn verdict(&self) -> Verdict {
        match open(&self.bytes) {
            Ok(_) => Verdict::Opens,
            Err(refusal) => Verdict::Refused(refusal),
        }
    }

    /// A line of the refusal or of the record, and one of the header; for an
    /// opened file also a line for each section.
    fn lines(&self) -> String {
        let name = &self.name;
        let (verdict, rows) = match open(&self.bytes) {
            Err(refusal) => (refusal.to_string(), Vec::new()),
            Ok(opened) => (record_text(&opened.record), opened.rows),
        };
        let header = match header(&self.bytes) {
            Err(refusal) => refusal.to_string(),
            Ok(fields) => fields_text(&fields),
        };
        let mut text = format!("{name}: {verdict}\n  header {header}\n");
        for row in &rows {
            text += &format!("{}\n", row_text(row));
        }
        text
    }
}

fn range_text(range: Range) -> String {
    format!("{} {}", range.offset, range.length)
}

fn record_text(record: &OpenedRecord) -> String {
    let or_none = |range: Option<Range>| range.map_or("none".to_string(), range_text);
    let dead = or_none(record.tombstones);
    let starts = or_none(record.starts);
    format!(
        "opens keys {} offsets {} partners {} logs {} dead {dead} starts {starts} n {} e {} bits {}",
        range_text(record.keys),
        range_text(record.offsets),
        range_text(record.partners),
        range_text(record.logs),
        record.key_count,
        record.edge_count,
        record.offset_bits,
    )
}

fn fields_text(fields: &HeaderFields) -> String {
    let HeaderFields {
        minor,
        inverse,
        flags,
        ids,
    } = fields;
    let [edge_type, source, destination] = ids.map(|id| hex(&id));
    format!(
        "minor {minor} direction {} flags {flags} ids {edge_type} {source} {destination}",
        u8::from(*inverse)
    )
}

/// The line of a section, without its end.
pub fn row_text(row: &SectionRow) -> String {
    format!(
        "  section {} {} {} {} {} {:016x}",
        row.kind,
        row.codec,
        row.name_place,
        row.name_length,
        range_text(row.range),
        row.checksum,
    )
}

pub fn stdin(files: &[OpenFile]) -> Vec<u8> {
    files
        .iter()
        .flat_map(|file| framed(&file.name, &file.bytes))
        .collect()
}

pub fn stdout(files: &[OpenFile]) -> Vec<u8> {
    files
        .iter()
        .flat_map(|file| file.lines().into_bytes())
        .collect()
}
