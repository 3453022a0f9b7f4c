//! Groups that are refused, each with the number and the byte that its author
//! intended. The corpora of lookups and of the full check put them into files.

mod degrees;
mod dense;
mod long;
mod split;
mod tags;
mod two_faults;
mod varints;
mod widths;

use super::lookup_calls::raw::group;
use crate::refusal::Refusal;

pub struct BadGroup {
    pub name: String,
    pub bytes: Vec<u8>,
    /// What it is refused with, and at which byte, counted from its first.
    pub number: u8,
    pub byte: u64,
    /// What its first varint says, if that is readable and not 0.
    pub degree: Option<u64>,
}

impl BadGroup {
    /// The refusal if this is the group with this index.
    pub fn refusal(&self, index: u64) -> Refusal {
        Refusal::in_group(self.number, self.byte, index)
    }
}

pub fn all() -> Vec<BadGroup> {
    let mut bad = BadGroups::default();
    degrees::add(&mut bad);
    tags::add(&mut bad);
    dense::add(&mut bad);
    split::add(&mut bad);
    varints::add(&mut bad);
    widths::add(&mut bad);
    two_faults::add(&mut bad);
    long::add(&mut bad);
    bad.0
}

#[derive(Default)]
struct BadGroups(Vec<BadGroup>);

impl BadGroups {
    /// A group that begins with this degree.
    fn of(&mut self, name: impl Into<String>, degree: u64, rest: &[&[u8]], number: u8, byte: u64) {
        self.0.push(BadGroup {
            name: name.into(),
            bytes: group(degree, rest),
            number,
            byte,
            degree: Some(degree),
        });
    }

    /// A group without a readable degree, or of degree 0: told at the first
    /// byte of the varint, which is that of the group.
    fn raw(&mut self, name: impl Into<String>, bytes: &[&[u8]], number: u8) {
        self.0.push(BadGroup {
            name: name.into(),
            bytes: bytes.concat(),
            number,
            byte: 0,
            degree: None,
        });
    }
}
