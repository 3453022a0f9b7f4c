//! Files with faults that opening does not look for: they open, though a full
//! check or a lookup would refuse them.

use super::samples::{full, heading_only, one_edge};
use super::Files;
use crate::format::{flag, kind};
use crate::layout::Section;

pub fn add(files: &mut Files) {
    checksums(files);
    groups(files);
    edge_counts(files);
    flag_bits(files);
    tombstones(files);
}

fn checksums(files: &mut Files) {
    for index in 0..8 {
        let layout = full().with(|l| l.sections[index].stated.checksum = Some(1 << index));
        files.opens(format!("unread-checksum-of-section-{index}"), layout);
    }
    let layout = heading_only().with(|l| {
        for section in &mut l.sections {
            section.stated.checksum = Some(0);
        }
    });
    files.opens("unread-checksums-of-empty-sections", layout);
}

fn groups(files: &mut Files) {
    let partners =
        |bytes: [u8; 11]| one_edge().with(|l| l.section(kind::PARTNERS).bytes = bytes.into());
    files.opens("unread-group-of-degree-0", partners([0; 11]));
    let other_tag = [1, 2, 0, 0, 0, 0, 0, 0, 0, 0, 0];
    files.opens("unread-group-of-other-tag", partners(other_tag));
    files.opens("unread-group-of-no-end", partners([0xFF; 11]));
}

/// The edge count has its log numbers, but the groups have other degrees.
fn edge_counts(files: &mut Files) {
    for (word, edge_count) in [("one", 2), ("two", 3)] {
        let layout = one_edge().with(|l| {
            l.edge_count = edge_count;
            l.section(kind::LOGS).bytes = vec![9; 8 * edge_count as usize];
        });
        files.opens(format!("unread-edges-{word}-too-many"), layout);
    }
    let layout = full().with(|l| {
        l.edge_count = 3;
        l.section(kind::LOGS).bytes.truncate(24);
    });
    files.opens("unread-edges-as-few-as-keys", layout);
}

fn flag_bits(files: &mut Files) {
    let layout = one_edge().with(|l| l.header.flags = flag::DENSE);
    files.opens("unread-bit-2-without-dense-group", layout);
    let layout = full().with(|l| l.header.flags &= !flag::DENSE);
    files.opens("unread-dense-group-without-bit-2", layout);
    let layout = full().with(|l| l.header.flags &= !flag::TOMBSTONES);
    files.opens("unread-dead-edge-without-bit-1", layout);
}

fn tombstones(files: &mut Files) {
    for byte in [0x02, 0x80, 0xFF] {
        let layout = one_edge().with(|l| l.sections.push(Section::new(kind::TOMBSTONES, [byte])));
        files.opens(format!("unread-unused-tombstone-bits-{byte:02x}"), layout);
    }
}
