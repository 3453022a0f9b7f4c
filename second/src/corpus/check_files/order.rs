//! Two faults in one file: opening comes first, then the sums, then the groups,
//! then the totals.

use super::samples::of_bytes;
use super::Files;
use crate::corpus::lookup_calls::raw::{group, halves, single, DENSE, SPLIT};
use crate::corpus::open_files::samples::{set_key, set_offset, SKIPPED};
use crate::format::{flag, kind};
use crate::groups;
use crate::layout::{Layout, Section};
use crate::numbers::id_of;

pub fn add(files: &mut Files) {
    // Each number with its byte.
    for (number, byte, bytes) in [
        (16, 1, group(1, &[&[0x03], &halves(5, 1)])),
        (29, 18, group(2, &[DENSE, &[7; 32]])),
        (31, 2, group(1, &[DENSE, &[7; 15]])),
        (35, 2, group(1, &[SPLIT, &[0x80; 12]])),
    ] {
        let faulty = |index: usize| {
            let mut groups = vec![single(1, 1), single(2, 2), single(3, 3)];
            groups[index] = bytes.clone();
            of_bytes(&groups, 3)
        };
        sum_before_group(files, number, &faulty);
        group_before_totals(files, number, byte, &faulty);
        opening_before_group(files, number, &faulty);
    }
    sum_before_totals(files);
    opening_before_sum(files);
    reserved_before_sums(files);
}

fn three() -> Layout {
    of_bytes(&[single(1, 1), single(2, 2), single(3, 3)], 3)
}

fn wrong_sum(layout: Layout, index: usize) -> Layout {
    layout.with(|l| l.sections[index].stated.checksum = Some(5))
}

/// Even the sum of the last entry, which is skipped, comes before the first
/// group.
fn sum_before_group(files: &mut Files, number: u8, faulty: &impl Fn(usize) -> Layout) {
    for index in [0, 2] {
        for entry in [0, 2, 4] {
            let skipped = Section::new(SKIPPED, *b"skipped");
            let layout = wrong_sum(faulty(index).with(|l| l.sections.push(skipped)), entry);
            let name = format!("check-sum-{entry}-before-{number}-at-{index}");
            files.refused(name, layout, 22, entry as u64);
        }
    }
}

fn group_before_totals(
    files: &mut Files,
    number: u8,
    byte: u64,
    faulty: &impl Fn(usize) -> Layout,
) {
    let tombstones = |byte: u8| Section::new(kind::TOMBSTONES, [byte]);
    for index in [0, 2] {
        let mut add = |what: &str, change: &dyn Fn(&mut Layout)| {
            let name = format!("check-{number}-at-{index}-before-{what}");
            let layout = faulty(index).with(change);
            files.faulty(name, layout, number, byte, index);
        };
        add("edge-count", &|l| {
            l.edge_count = 4;
            l.section(kind::LOGS).bytes.extend([9; 8]);
        });
        add("bit-1", &|l| l.sections.push(tombstones(0b010)));
        add("unused-bit", &|l| l.sections.push(tombstones(0x80)));
        add("bit-2", &|l| l.header.flags ^= flag::DENSE);
    }
}

fn opening_before_group(files: &mut Files, number: u8, faulty: &impl Fn(usize) -> Layout) {
    let keys = faulty(0).with(|l| set_key(l, 2, id_of(0, 1)));
    files.refused(format!("check-13-before-{number}"), keys, 13, 2);
    let offsets = faulty(0).with(|l| set_offset(l, 3, 1));
    files.refused(format!("check-14-before-{number}"), offsets, 14, 3);
    let fences = faulty(0).with(|l| l.sections.push(Section::new(kind::FENCES, [0; 8])));
    files.refused(format!("check-15-before-{number}"), fences, 15, 0);
    let new = faulty(0).with(|l| l.sections.insert(1, reserved()));
    files.refused(format!("check-36-before-{number}"), new, 36, 1);
}

fn reserved() -> Section {
    Section::new(0x00FF, *b"new")
}

fn sum_before_totals(files: &mut Files) {
    let mut add = |what: &str, change: &dyn Fn(&mut Layout)| {
        files.refused(format!("check-{what}"), three().with(change), 23, 0);
        for entry in [1, 3] {
            let layout = wrong_sum(three().with(change), entry);
            let name = format!("check-sum-{entry}-before-{what}");
            files.refused(name, layout, 22, entry as u64);
        }
    };
    add("four-edges-of-three", &|l| {
        l.edge_count = 4;
        l.section(kind::LOGS).bytes.extend([9; 8]);
    });
    add("dead-edge-no-bit-1", &|l| {
        l.sections.push(Section::new(kind::TOMBSTONES, [0b001]));
    });
    add("bit-2-no-dense-group", &|l| l.header.flags |= flag::DENSE);
    add("unused-bit-3", &|l| {
        l.sections.push(Section::new(kind::TOMBSTONES, [0b1000]));
    });
}

/// The reserved section's own sum is wrong, and others before and after it.
fn reserved_before_sums(files: &mut Files) {
    for entry in [0, 2, 4] {
        let layout = three().with(|l| l.sections.insert(2, reserved()));
        let name = format!("check-36-before-sum-of-entry-{entry}");
        files.refused(name, wrong_sum(layout, entry), 36, 2);
    }
}

fn opening_before_sum(files: &mut Files) {
    let mut add = |number: u8, place: u64, change: &dyn Fn(&mut Layout)| {
        let layout = wrong_sum(three().with(change), 0);
        files.refused(format!("check-{number}-before-sum"), layout, number, place);
    };
    add(2, 0, &|l| l.header.magic[0] = b'X');
    add(3, 0, &|l| l.header.major = 2);
    add(4, 0, &|l| l.header.size = 65);
    add(5, 0, &|l| l.header.flags |= 1 << 4);
    add(6, 0, &|l| l.tail_magic[7] = 1);
    add(7, 0, &|l| l.footer_length = Some(38));
    add(8, 0, &|l| l.footer_checksum = Some(0));
    add(9, 0, &|l| l.sections[3].kind = SKIPPED);
    add(36, 4, &|l| l.sections.push(reserved()));
    add(10, 2, &|l| l.sections[2].codec = 1);
    add(11, 0, &|l| l.sections[0].stated.offset = Some(63));
    add(12, 0, &|l| l.header.flags |= flag::PROPERTIES);
    add(13, 1, &|l| set_key(l, 1, id_of(0, 0)));
    add(14, 0, &|l| set_offset(l, 0, 1));
    add(15, 0, &|l| l.sections.push(Section::new(kind::FENCES, [])));
    add(37, 0, &|l| {
        l.sections.push(groups::start_index(&[1, 2, 3, 4]))
    });
}
