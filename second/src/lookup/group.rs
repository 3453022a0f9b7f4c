//! Reading a group: its degree, its tag, its partners. Faults are told in the
//! order in which the bytes are read, each with its byte.

use crate::groups::Form;
use crate::numbers::read_le;
use crate::refusal::Refusal;
use crate::varint;

mod tag {
    pub const SPLIT: u8 = 0x01;
    pub const DENSE: u8 = 0x10;
}

#[derive(Clone, Copy, Debug, PartialEq, Eq)]
pub enum Wrong {
    /// Neither split nor dense.
    Tag,
    DegreeZero,
    /// A partner that is not above the one before it.
    PartnerOrder,
    /// An upper half of 2^64 or more, by the sum of differences.
    UpperHalf,
    /// The group ends before its tag, or before the end of a partner.
    GroupCut,
    /// Bytes after the last partner.
    SpareBytes,
    /// The group ends before the end of a varint. No byte left is so too.
    VarintCut,
    /// A varint that is not the shortest of its number.
    VarintLong,
    /// A varint of 2^64 or more.
    VarintLarge,
}

impl Wrong {
    fn number(self) -> u8 {
        match self {
            Wrong::Tag => 16,
            Wrong::DegreeZero => 28,
            Wrong::PartnerOrder => 29,
            Wrong::UpperHalf => 30,
            Wrong::GroupCut => 31,
            Wrong::SpareBytes => 32,
            Wrong::VarintCut => 33,
            Wrong::VarintLong => 34,
            Wrong::VarintLarge => 35,
        }
    }

    fn at(self, byte: usize) -> Fault {
        Fault { wrong: self, byte }
    }
}

/// What is wrong, and at which byte, counted from the group's first.
#[derive(Clone, Copy, Debug, PartialEq, Eq)]
pub struct Fault {
    pub wrong: Wrong,
    pub byte: usize,
}

impl Fault {
    /// The refusal if this is the group with this index.
    pub fn refusal(self, group: u64) -> Refusal {
        Refusal::in_group(self.wrong.number(), self.byte as u64, group)
    }
}

/// The degree alone, whatever comes after it.
pub fn degree(group: &[u8]) -> Result<u64, Fault> {
    Reader::new(group).degree()
}

/// All partners of a group that is right to its end.
pub fn partners(group: &[u8]) -> Result<Vec<u128>, Fault> {
    let (_, partners) = read(group)?;
    Ok(partners)
}

/// The form of a group that is right to its end, and all its partners.
pub fn read(group: &[u8]) -> Result<(Form, Vec<u128>), Fault> {
    let mut reader = Reader::new(group);
    let degree = reader.degree()?;
    let form = reader.form()?;
    let mut partners: Vec<u128> = Vec::new();
    // The degree may be any number; the bytes run out before the memory does.
    for _ in 0..degree {
        let begin = reader.at;
        let last = partners.last().copied();
        let partner = match form {
            Form::Dense => reader.dense()?,
            Form::Split => reader.split(last)?,
        };
        if last.is_some_and(|last| partner <= last) {
            return Err(Wrong::PartnerOrder.at(begin));
        }
        partners.push(partner);
    }
    if reader.at < group.len() {
        return Err(Wrong::SpareBytes.at(reader.at));
    }
    Ok((form, partners))
}

/// A place in a group, up to which it has been read.
struct Reader<'a> {
    group: &'a [u8],
    at: usize,
}

impl<'a> Reader<'a> {
    fn new(group: &'a [u8]) -> Self {
        Reader { group, at: 0 }
    }

    fn degree(&mut self) -> Result<u64, Fault> {
        let begin = self.at;
        match self.varint()? {
            0 => Err(Wrong::DegreeZero.at(begin)),
            degree => Ok(degree),
        }
    }

    fn form(&mut self) -> Result<Form, Fault> {
        let begin = self.at;
        match self.take(1) {
            None => Err(Wrong::GroupCut.at(begin)),
            Some(&[tag::SPLIT]) => Ok(Form::Split),
            Some(&[tag::DENSE]) => Ok(Form::Dense),
            Some(_) => Err(Wrong::Tag.at(begin)),
        }
    }

    /// A partner of 16 bytes.
    fn dense(&mut self) -> Result<u128, Fault> {
        let begin = self.at;
        let id = self.take(16).ok_or(Wrong::GroupCut.at(begin))?;
        Ok(u128::from_be_bytes(id.try_into().expect("16 bytes")))
    }

    /// A partner by the distance of its upper half from that of the last one,
    /// as a varint, and by its lower half, little-endian. The first one's
    /// distance is from 0.
    fn split(&mut self, last: Option<u128>) -> Result<u128, Fault> {
        let begin = self.at;
        let last_upper = last.map_or(0, |last| (last >> 64) as u64);
        let difference = self.varint()?;
        let upper = last_upper.checked_add(difference);
        let upper = upper.ok_or(Wrong::UpperHalf.at(begin))?;
        let lower = self.take(8).ok_or(Wrong::GroupCut.at(begin))?;
        Ok(u128::from(upper) << 64 | u128::from(read_le(lower)))
    }

    fn varint(&mut self) -> Result<u64, Fault> {
        let wrong = match varint::read(self.group, self.at) {
            varint::Read::Value { value, next } => {
                self.at = next;
                return Ok(value);
            }
            varint::Read::Cut => Wrong::VarintCut,
            varint::Read::Long => Wrong::VarintLong,
            varint::Read::Large => Wrong::VarintLarge,
        };
        Err(wrong.at(self.at))
    }

    /// The next bytes, if there are so many.
    fn take(&mut self, count: usize) -> Option<&'a [u8]> {
        let taken = self.group[self.at..].get(..count)?;
        self.at += count;
        Some(taken)
    }
}
