//! One question about number codes: its bytes on standard input and the line
//! that answers it.

use crate::numbers::{compare_ids, hex, id_number, read_be, read_le, write_be, write_le, Id};
use crate::varint;
use std::cmp::Ordering;

#[derive(Clone, Debug, PartialEq, Eq)]
pub enum Record {
    /// Kind 0: read the varint at place 0 of at most 255 bytes.
    ReadVarint(Vec<u8>),
    /// Kind 1: write a number as a varint.
    WriteVarint(u64),
    /// Kind 2: compare the first id with the second.
    CompareIds(Id, Id),
    /// Kind 3: read numbers of several widths.
    ReadNumbers([u8; 8]),
    /// Kind 4: write the low bytes of a number, at a width of 1 to 8.
    WriteNumber { width: u8, number: u64 },
    /// Kind 5: an id's two halves.
    SplitId(Id),
}

impl Record {
    /// The kind byte, then a body whose length follows from its own bytes.
    pub fn bytes(&self) -> Vec<u8> {
        match self {
            Record::ReadVarint(bytes) => {
                let length = u8::try_from(bytes.len()).expect("at most 255 bytes");
                [&[0, length], &bytes[..]].concat()
            }
            Record::WriteVarint(number) => [&[1], &write_le(*number, 8)[..]].concat(),
            Record::CompareIds(a, b) => [&[2], &a[..], &b[..]].concat(),
            Record::ReadNumbers(bytes) => [&[3], &bytes[..]].concat(),
            Record::WriteNumber { width, number } => {
                [&[4, *width], &write_le(*number, 8)[..]].concat()
            }
            Record::SplitId(id) => [&[5], &id[..]].concat(),
        }
    }

    /// The record that `input` begins with and what follows it, or nothing if
    /// `input` begins with no whole record.
    pub fn parse(input: &[u8]) -> Option<(Record, &[u8])> {
        let (kind, body) = input.split_first()?;
        match kind {
            0 => {
                let (length, body) = body.split_first()?;
                let (bytes, rest) = body.split_at_checked(usize::from(*length))?;
                Some((Record::ReadVarint(bytes.to_vec()), rest))
            }
            1 => {
                let (number, rest) = body.split_first_chunk::<8>()?;
                Some((Record::WriteVarint(read_le(number)), rest))
            }
            2 => {
                let (a, body) = body.split_first_chunk::<16>()?;
                let (b, rest) = body.split_first_chunk::<16>()?;
                Some((Record::CompareIds(*a, *b), rest))
            }
            3 => {
                let (bytes, rest) = body.split_first_chunk::<8>()?;
                Some((Record::ReadNumbers(*bytes), rest))
            }
            4 => {
                let (&width, body) = body.split_first()?;
                let (number, rest) = body.split_first_chunk::<8>()?;
                let number = read_le(number);
                (1..=8)
                    .contains(&width)
                    .then_some((Record::WriteNumber { width, number }, rest))
            }
            5 => {
                let (id, rest) = body.split_first_chunk::<16>()?;
                Some((Record::SplitId(*id), rest))
            }
            _ => None,
        }
    }

    pub fn line(&self) -> String {
        match self {
            Record::ReadVarint(bytes) => match varint::read(bytes, 0) {
                varint::Read::Value { value, next } => format!("value {value} next {next}"),
                varint::Read::Cut => "cut".to_string(),
                varint::Read::Long => "long".to_string(),
                varint::Read::Large => "large".to_string(),
            },
            Record::WriteVarint(number) => {
                let bytes = varint::write(*number);
                format!("bytes {} {}", varint::length(*number), hex(&bytes))
            }
            Record::CompareIds(a, b) => match compare_ids(a, b) {
                Ordering::Less => "less".to_string(),
                Ordering::Equal => "equal".to_string(),
                Ordering::Greater => "greater".to_string(),
            },
            Record::ReadNumbers(bytes) => {
                let le = [2, 3, 4, 5, 6, 8].map(|width| read_le(&bytes[..width]).to_string());
                format!("le {} be {}", le.join(" "), read_be(bytes))
            }
            Record::WriteNumber { width, number } => {
                let width = usize::from(*width);
                let le = hex(&write_le(*number, width));
                let be = hex(&write_be(*number, width));
                format!("put {le} {be}")
            }
            Record::SplitId(id) => {
                let number = id_number(id);
                let upper = number >> 64;
                let lower = number % (1 << 64);
                format!("id {upper} {lower} {}", hex(id))
            }
        }
    }
}
