//! The full check: opening, the checksum of each section, all groups, and then
//! what only all of them together can tell.

use crate::format::flag;
use crate::groups::{Edge, Form, Group};
use crate::header::{self, HeaderFields};
use crate::lookup::{group, Sections};
use crate::numbers::Id;
use crate::open::{bytes_of, open, refuse_at, refuse_if, OpenedRecord, SectionRow};
use crate::refusal::Refusal;
use crate::xxh3::xxh3_64;

/// What a file that passes holds.
#[derive(Clone, Debug, PartialEq, Eq)]
pub struct Contents {
    pub minor: u8,
    pub inverse: bool,
    /// Of the edge type, the source label and the destination label.
    pub ids: [Id; 3],
    pub groups: Vec<Group>,
}

pub fn full_check(file: &[u8]) -> Result<Contents, Refusal> {
    let opened = open(file)?;
    let wrong_sum = |row: &SectionRow| xxh3_64(bytes_of(file, row.range)) != row.checksum;
    refuse_at(22, opened.rows.iter().position(wrong_sum))?;

    let sections = Sections::new(file, &opened.record);
    let partners = all_partners(&sections, &opened.record)?;
    let HeaderFields {
        minor,
        inverse,
        flags,
        ids,
    } = header::fields(file);
    let totals_wrong = totals_are_wrong(flags, &opened.record, &partners, &sections);
    refuse_if(23, totals_wrong)?;

    Ok(Contents {
        minor,
        inverse,
        ids,
        groups: with_edges(&partners, &sections),
    })
}

/// The form and the partners of each group, in key order. The first faulty
/// group refuses, with its first fault in reading order.
fn all_partners(
    sections: &Sections,
    record: &OpenedRecord,
) -> Result<Vec<(Form, Vec<u128>)>, Refusal> {
    (0..record.key_count)
        .map(|index| {
            let bytes = sections.group(index as usize);
            let bytes = bytes.expect("opening has looked at the offsets");
            group::read(bytes).map_err(|fault| fault.refusal(index))
        })
        .collect()
}

/// Check 23: the degrees make up the edge count, bit 1 says whether an edge is
/// dead, bit 2 whether a group is dense, no unused tombstone bit is set, and the
/// start index is as the degrees.
fn totals_are_wrong(
    flags: u32,
    record: &OpenedRecord,
    partners: &[(Form, Vec<u128>)],
    sections: &Sections,
) -> bool {
    let degrees: usize = partners.iter().map(|(_, partners)| partners.len()).sum();
    let dense = partners.iter().any(|(form, _)| *form == Form::Dense);
    let edge_count = record.edge_count as usize;
    let bit_count = record
        .tombstones
        .map_or(edge_count, |range| 8 * range.length as usize);
    let is_set = |bit: usize| sections.mark(bit) == 1;

    degrees != edge_count
        || (flags & flag::TOMBSTONES != 0) != (0..edge_count).any(is_set)
        || (flags & flag::DENSE != 0) != dense
        || (edge_count..bit_count).any(is_set)
        || starts_are_wrong(partners, sections)
}

/// Does an entry of the start index, if there is one, differ from the sum of
/// the degrees before it?
fn starts_are_wrong(partners: &[(Form, Vec<u128>)], sections: &Sections) -> bool {
    let mut sums = vec![0];
    for (_, partners) in partners {
        sums.push(sums[sums.len() - 1] + partners.len() as u64);
    }
    sections.starts().is_some_and(|starts| starts != sums)
}

/// The groups with keys, log numbers and dead marks. The degrees make up the
/// edge count.
fn with_edges(partners: &[(Form, Vec<u128>)], sections: &Sections) -> Vec<Group> {
    let mut numbers = 0..;
    let mut edge = |partner: &u128| {
        let number = numbers.next().expect("numbers without end");
        Edge {
            partner: partner.to_be_bytes(),
            log: sections.log(number),
            dead: sections.mark(number) == 1,
        }
    };
    let groups = partners.iter().enumerate();
    groups
        .map(|(index, (form, partners))| Group {
            key: sections.key(index),
            form: *form,
            edges: partners.iter().map(&mut edge).collect(),
        })
        .collect()
}
