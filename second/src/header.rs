//! The header of a file: what it says beside the fields that opening asks for.

use crate::format::flag;
use crate::numbers::{read_le, Id};
use crate::open::open;
use crate::refusal::Refusal;

#[derive(Clone, Copy, Debug, PartialEq, Eq)]
pub struct HeaderFields {
    pub minor: u8,
    pub inverse: bool,
    pub flags: u32,
    /// Of the edge type, the source label and the destination label.
    pub ids: [Id; 3],
}

/// The header of a file that opens.
pub fn header(file: &[u8]) -> Result<HeaderFields, Refusal> {
    open(file)?;
    Ok(fields(file))
}

/// What the first 64 bytes say.
pub fn fields(file: &[u8]) -> HeaderFields {
    let flags = read_le(&file[12..16]) as u32;
    HeaderFields {
        minor: file[9],
        inverse: flags & flag::INVERSE != 0,
        flags,
        ids: [16, 32, 48].map(|at| file[at..at + 16].try_into().expect("16 bytes")),
    }
}
