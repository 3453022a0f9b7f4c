//! Why a call refuses.

use std::error::Error;
use std::fmt;

/// A refusal's number and its place: an index, a count or a byte, by the number. `beside` is a second
/// place beside it, 0 where there is none: of a fault at a byte of a group it is the group.
#[derive(Clone, Copy, Debug, PartialEq, Eq, Hash)]
pub struct Refusal {
    pub number: u64,
    pub place: u64,
    pub beside: u64,
}

/// The text of each number, as in the C header.
// texts: from refusals.txt
const TEXTS: [&str; 38] = [
    "no refusal",
    "file under 84 or over 2^30 bytes",
    "magic",
    "major version not 1",
    "header size not 64",
    "a flag bit 4 to 31 is set",
    "tail magic",
    "footer length",
    "footer checksum",
    "section table",
    "a section of kind 1 to 6 or 0x0200 is not raw",
    "section range",
    "counts, lengths or presence of sections",
    "key not above the one before",
    "offset",
    "fence section",
    "unknown tag",
    "no longer given: see 33 to 35",
    "no longer given: see 28 to 32",
    "an earlier degree, a start index unlike the degree, or edges past the edge count",
    "output too short",
    "opened record that cannot be of this file",
    "a section's checksum",
    "degree sum, flag bit 1 or 2, unused tombstone bits, or start index",
    "batch record unknown, cut or misplaced",
    "batch order",
    "more keys, edges or file bytes than the bounds",
    "chunk past 2^30 bytes in all",
    "degree 0",
    "partner order",
    "upper half too large",
    "group cut short",
    "bytes left over",
    "varint cut",
    "varint not shortest",
    "varint too large",
    "a section of a reserved kind",
    "start index entry",
];
// texts: to here

impl Refusal {
    /// The number of a refusal for want of room; its place is what is needed.
    pub const ROOM: u64 = 20;

    /// What `place` and `beside` count, of a number that has both.
    fn places(&self) -> Option<(&'static str, &'static str)> {
        match self.number {
            // places: from refusals.txt
            16 => Some(("byte", "group")),
            28 => Some(("byte", "group")),
            29 => Some(("byte", "group")),
            30 => Some(("byte", "group")),
            31 => Some(("byte", "group")),
            32 => Some(("byte", "group")),
            33 => Some(("byte", "group")),
            34 => Some(("byte", "group")),
            35 => Some(("byte", "group")),
            // places: to here
            _ => None,
        }
    }

    /// What the number says, for people.
    pub fn text(&self) -> &'static str {
        let known = usize::try_from(self.number).ok().and_then(|i| TEXTS.get(i));
        known.copied().unwrap_or("unknown refusal")
    }
}

impl fmt::Display for Refusal {
    fn fmt(&self, f: &mut fmt::Formatter<'_>) -> fmt::Result {
        let (number, place, beside) = (self.number, self.place, self.beside);
        write!(f, "refused {number} at ")?;
        match self.places() {
            Some((what, whose)) => write!(f, "{whose} {beside}, {what} {place}")?,
            None => write!(f, "{place}")?,
        }
        write!(f, ": {}", self.text())
    }
}

impl Error for Refusal {}

/// Fine where the number is 0.
pub(crate) fn refuse_if(number: u64, place: u64, beside: u64) -> Result<(), Refusal> {
    match number {
        0 => Ok(()),
        _ => Err(Refusal {
            number,
            place,
            beside,
        }),
    }
}
