//! Checks of what is told of a faulty group: the number and the byte, by another
//! way to them, by the bytes before the fault and by those after it.

mod spots;
mod walk;

use super::Tally;
use crate::corpus::bad_groups;
use crate::groups::Form;
use crate::lookup::group;
use crate::numbers::{id_of, read_le};
use crate::open::{bytes_of, OpenedRecord};
use crate::random::Random;
use crate::refusal::Refusal;
use crate::varint;
use walk::step_by_step;

pub use spots::Spots;

/// The refusals that tell a byte of a group.
pub const FAULTS: [u8; 9] = [16, 28, 29, 30, 31, 32, 33, 34, 35];
pub const DEGREE_ZERO: u8 = 28;
const SPARE_BYTES: u8 = 32;

pub fn check(tally: &mut Tally) {
    check_marked_cases(tally);
    for bad in bad_groups::all() {
        let refusal = Refusal::in_group(bad.number, bad.byte, 0);
        check_fault(tally, &bad.name, &bad.bytes, refusal);
        let degree = group::degree(&bad.bytes).ok();
        tally.same(&bad.name, degree, bad.degree);
        for end in 0..bad.bytes.len() {
            check_any(tally, &bad.bytes[..end]);
        }
    }
    check_changed(tally);
    check_chance(tally);
}

/// The bytes of a group by the offsets, which lead to a part of the partners.
pub fn group_bytes<'a>(file: &'a [u8], record: &OpenedRecord, index: usize) -> &'a [u8] {
    let width = usize::from(record.offset_bits / 8);
    let offsets = bytes_of(file, record.offsets);
    let offset = |index: usize| read_le(&offsets[width * index..][..width]) as usize;
    &bytes_of(file, record.partners)[offset(index)..offset(index + 1)]
}

/// The marked cases 5, 8 and 9 of the format's rules.
fn check_marked_cases(tally: &mut Tally) {
    let told = |group: &[u8]| group::partners(group).map_err(|fault| fault.refusal(3));
    let refused = |number, byte| Err(Refusal::in_group(number, byte, 3));
    tally.same("marked 80 00", told(&[0x80, 0x00]), refused(34, 0));
    let mut two = vec![2, 1, 5, 1, 0, 0, 0, 0, 0, 0, 0, 0, 2, 0, 0, 0, 0, 0, 0, 0];
    let partners = vec![5 << 64 | 1, 5 << 64 | 2];
    tally.same("marked lower halves 1 and 2", told(&two), Ok(partners));
    two[3] = 2;
    tally.same("marked lower halves 2 and 2", told(&two), refused(29, 11));
}

/// The fault that was told of a group is the one that another way finds, lies
/// right after bytes without a fault, and is told whatever follows it.
pub fn check_fault(tally: &mut Tally, name: &str, group: &[u8], refusal: Refusal) {
    let what = format!("fault of {name}");
    let Refusal { number, place, .. } = refusal;
    let by_steps = step_by_step(group);
    tally.same(&what, by_steps, Some((number, place)));
    if by_steps != Some((number, place)) {
        return;
    }
    let byte = place as usize;

    // Cut at the told byte, the group lacks what should begin there.
    let varint_begins = byte == 0 || (byte > tag_place(group) && form(group) == Some(Form::Split));
    let cut = match number {
        SPARE_BYTES => None,
        _ if varint_begins => Some((33, place)),
        _ => Some((31, place)),
    };
    tally.same(&what, told(&group[..byte]), cut);

    if [31, 33].contains(&number) {
        // With as much as could be missing, something else is told.
        let longer = [group, &[0x01; 17]].concat();
        tally.same(&what, told(&longer) == Some((number, place)), false);
        return;
    }
    // What comes after the fault is no matter.
    let end = fault_end(group, number, byte);
    for after in [&[][..], &[0x00], &[0x01], &[0x80; 12], &[0xFF; 40]] {
        let other = [&group[..end], after].concat();
        tally.same(&what, told(&other), Some((number, place)));
    }
    // Nor is it told a byte earlier: then a lower half, or what lacked above, is
    // not yet there.
    let earlier = if number == 29 { Some((31, place)) } else { cut };
    tally.same(&what, told(&group[..end - 1]), earlier);
}

/// The number and byte that the reader tells.
fn told(group: &[u8]) -> Option<(u8, u64)> {
    let refusal = group::read(group).err()?.refusal(0);
    Some((refusal.number, refusal.place))
}

/// Where the bytes end that make a fault: a byte, a varint or a partner.
fn fault_end(group: &[u8], number: u8, byte: usize) -> usize {
    match number {
        16 | SPARE_BYTES => byte + 1,
        29 if form(group) == Some(Form::Dense) => byte + 16,
        29 => varint_end(group, byte) + 8,
        _ => varint_end(group, byte),
    }
}

/// A varint ends with the first byte below 128, or with its tenth.
fn varint_end(group: &[u8], begin: usize) -> usize {
    let bytes = group[begin..].iter().take(varint::LONGEST);
    let open = bytes.take_while(|&&byte| byte >= 128).count();
    begin + (open + 1).min(varint::LONGEST)
}

fn tag_place(group: &[u8]) -> usize {
    varint_end(group, 0)
}

/// The form that the tag says.
fn form(group: &[u8]) -> Option<Form> {
    match group.get(tag_place(group)) {
        Some(0x01) => Some(Form::Split),
        Some(0x10) => Some(Form::Dense),
        _ => None,
    }
}

/// Any bytes: the other way says the same, and a fault keeps the rules.
fn check_any(tally: &mut Tally, group: &[u8]) {
    match group::read(group) {
        Ok(_) => tally.same("a group without a fault", step_by_step(group), None),
        Err(fault) => check_fault(tally, "any bytes", group, fault.refusal(0)),
    }
}

/// Each byte of some right groups changed, and each of their beginnings.
fn check_changed(tally: &mut Tally) {
    let dense = [&[3, 0x10][..], &id_of(1, 2), &id_of(1, 3), &id_of(2, 0)].concat();
    let lower = |byte: u8| [byte, 0, 0, 0, 0, 0, 0, 9];
    let split = [
        &[3, 0x01, 5][..],
        &lower(1),
        &[0],
        &lower(2),
        &[0x80, 0x01],
        &lower(0),
    ]
    .concat();
    for right in [&dense, &split] {
        tally.same("a right group", told(right), None);
        for at in 0..right.len() {
            check_any(tally, &right[..at]);
            for byte in 0..=255 {
                let mut changed = right.clone();
                changed[at] = byte;
                check_any(tally, &changed);
            }
        }
    }
}

/// Groups of any bytes, of which many go on, and are right for a while.
fn check_chance(tally: &mut Tally) {
    let mut random = Random::new(13);
    for _ in 0..20_000 {
        let length = random.below(60) as usize;
        let mut group: Vec<u8> = (0..length)
            .map(|_| match random.below(3) {
                0 => [0x00, 0x01, 0x10, 0x7F, 0x80, 0x81, 0xFF][random.below(7) as usize],
                1 => random.byte() | 0x80,
                _ => random.byte(),
            })
            .collect();
        if let [degree, tag, ..] = &mut group[..] {
            *degree = 1 + random.below(4) as u8;
            *tag = [0x01, 0x10][random.below(2) as usize];
        }
        check_any(tally, &group);
    }
}
