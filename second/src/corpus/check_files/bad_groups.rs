//! Refusals 16 and 28 to 35: the first faulty group in key order, its first
//! fault in reading order, and the fault's byte.

use super::samples::of_bytes;
use super::Files;
use crate::corpus::lookup_calls::raw::{group, halves, single, DENSE, SPLIT};
use crate::corpus::open_files::samples::set_offset;
use crate::layout::Layout;
use crate::numbers::id_of;

/// A group's bytes, and the number and byte that it is refused with.
type Bad = (Vec<u8>, u8, u64);

pub fn add(files: &mut Files) {
    files.fine("check-five-groups", five_but(&[]));
    let varints = bad_degrees().into_iter().chain(bad_uppers());
    let others = bad_shapes().into_iter().chain(bad_partners());
    for (name, (bytes, number, byte)) in varints.chain(others) {
        for index in [0, 2, 4] {
            let layout = five_but(&[(index, &bytes)]);
            let name = format!("check-{name}-at-{index}");
            files.faulty(name, layout, number, byte, index);
        }
    }
    two_bad_groups(files);
    moved_offsets(files);
}

/// Nine edges in five groups of both forms, some of the groups replaced.
fn five_but(others: &[(usize, &[u8])]) -> Layout {
    let mut groups = [
        single(5, 1),
        group(2, &[DENSE, &id_of(1, 2), &id_of(3, 4)]),
        group(3, &[SPLIT, &halves(0, 7), &halves(300, 6), &halves(0, 9)]),
        group(1, &[DENSE, &id_of(1 << 60, 8)]),
        group(2, &[SPLIT, &halves(1 << 62, 1), &halves(1, 0)]),
    ];
    for &(index, other) in others {
        groups[index] = other.to_vec();
    }
    of_bytes(&groups, 9)
}

/// Nine bytes of a varint and a tenth that makes it too large.
const TOO_LARGE: &[u8] = b"\x80\x80\x80\x80\x80\x80\x80\x80\x80\x02";

fn bad_degrees() -> Vec<(&'static str, Bad)> {
    let right = &[SPLIT, &halves(5, 2)].concat()[..];
    let bad = |bytes: &[&[u8]], number: u8| (bytes.concat(), number, 0);
    vec![
        ("degree-cut", bad(&[&[0x80]], 33)),
        ("degree-cut-after-9", bad(&[&[0x80; 9]], 33)),
        ("degree-80-00", bad(&[&[0x80, 0x00]], 34)),
        ("degree-long", bad(&[&[0x81, 0x00], right], 34)),
        ("degree-large", bad(&[TOO_LARGE, &[1; 8]], 35)),
        ("degree-large-alone", bad(&[&[0xFF; 10]], 35)),
        ("degree-0", bad(&[&[0, 1]], 28)),
        ("degree-0-alone", bad(&[&[0]], 28)),
        ("degree-0-tag-07", bad(&[&[0, 7]], 28)),
    ]
}

/// Upper halves of split partners, which begin at 2, 11 and 20.
fn bad_uppers() -> Vec<(&'static str, Bad)> {
    let (a, b) = (&halves(5, 2)[..], &halves(1, 1)[..]);
    let bad = |degree: u64, partners: &[&[u8]], number: u8, byte: u64| {
        let bytes = group(degree, &[SPLIT, &partners.concat()]);
        (bytes, number, byte)
    };
    let long = &[0x80, 0x00, 1, 1, 1, 1, 1, 1, 1, 1][..];
    let large = &[TOO_LARGE, &[1; 8]].concat()[..];
    let passes = &halves(u64::MAX, 3)[..];
    vec![
        ("upper-missing", bad(1, &[], 33, 2)),
        ("upper-cut", bad(1, &[&[0x80]], 33, 2)),
        ("upper-long", bad(1, &[long], 34, 2)),
        ("upper-large", bad(1, &[large], 35, 2)),
        ("second-missing", bad(2, &[a], 33, 11)),
        ("second-cut", bad(3, &[a, &[0x80; 9]], 33, 11)),
        ("second-long", bad(3, &[a, long, b], 34, 11)),
        ("second-large", bad(3, &[a, large, b], 35, 11)),
        ("upper-passes", bad(2, &[a, passes], 30, 11)),
        ("upper-passes-cut", bad(2, &[a, &passes[..12]], 30, 11)),
        ("third-missing", bad(3, &[a, b], 33, 20)),
        ("third-long", bad(3, &[a, b, long], 34, 20)),
        ("third-large", bad(3, &[a, b, large], 35, 20)),
        ("third-passes", bad(3, &[a, b, passes], 30, 20)),
    ]
}

/// The tag is unknown or missing, a partner is cut, or there is more.
fn bad_shapes() -> Vec<(&'static str, Bad)> {
    let (a, b) = (&halves(5, 2)[..], &halves(1, 1)[..]);
    let (c, d) = (&id_of(5, 1)[..], &id_of(5, 2)[..]);
    let bad = |degree: u64, rest: &[&[u8]], number: u8, byte: u64| {
        let bytes = group(degree, rest);
        (bytes, number, byte)
    };
    vec![
        ("tag-00", bad(1, &[&[0x00], a], 16, 1)),
        ("tag-11", bad(128, &[&[0x11], a], 16, 2)),
        ("tag-ff-alone", bad(u64::MAX, &[&[0xFF]], 16, 10)),
        ("no-tag", bad(1, &[], 31, 1)),
        ("no-tag-128", bad(128, &[], 31, 2)),
        ("no-tag-most", bad(u64::MAX, &[], 31, 10)),
        ("lower-missing", bad(1, &[SPLIT, &[5]], 31, 2)),
        ("lower-cut", bad(1, &[SPLIT, &a[..8]], 31, 2)),
        ("second-lower-cut", bad(2, &[SPLIT, a, &b[..8]], 31, 11)),
        ("third-lower-cut", bad(3, &[SPLIT, a, b, &b[..8]], 31, 20)),
        ("dense-cut", bad(1, &[DENSE, &c[..15]], 31, 2)),
        ("dense-second-cut", bad(3, &[DENSE, c, &d[..1]], 31, 18)),
        ("dense-third-missing", bad(3, &[DENSE, c, d], 31, 34)),
        ("dense-most", bad(u64::MAX, &[DENSE, c], 31, 27)),
        ("dense-overlong", bad(1, &[DENSE, c, &[0]], 32, 18)),
        ("dense-of-2-overlong", bad(2, &[DENSE, c, d, c], 32, 34)),
        ("split-overlong", bad(1, &[SPLIT, a, &[0]], 32, 11)),
        ("split-of-2-overlong", bad(2, &[SPLIT, a, b, &[0]], 32, 20)),
    ]
}

/// A partner is not above the one before, and that comes before what is wrong
/// with the next one.
fn bad_partners() -> Vec<(&'static str, Bad)> {
    let (a, falls) = (&halves(5, 2)[..], &halves(0, 1)[..]);
    let (c, d, e) = (&id_of(5, 1)[..], &id_of(5, 2)[..], &id_of(9, 0)[..]);
    let bad = |degree: u64, rest: &[&[u8]], byte: u64| (group(degree, rest), 29, byte);
    vec![
        ("split-equal", bad(2, &[SPLIT, a, &halves(0, 2)], 11)),
        ("split-falls", bad(2, &[SPLIT, a, falls], 11)),
        (
            "split-third-falls",
            bad(3, &[SPLIT, a, &halves(0, 3), falls], 20),
        ),
        ("split-most-falls", bad(u64::MAX, &[SPLIT, a, falls], 20)),
        ("falls-then-cut", bad(3, &[SPLIT, a, falls, &[0x80]], 11)),
        ("falls-then-more", bad(2, &[SPLIT, a, falls, &[0x80]], 11)),
        ("dense-equal", bad(2, &[DENSE, &[7; 32]], 18)),
        ("dense-falls", bad(3, &[DENSE, d, c, e], 18)),
        ("dense-third-falls", bad(3, &[DENSE, c, e, d], 34)),
        ("dense-most-falls", bad(u64::MAX, &[DENSE, d, c], 27)),
        ("dense-falls-then-cut", bad(3, &[DENSE, d, c, &e[..9]], 18)),
    ]
}

/// A group with each fault, its number and its byte.
fn each_number() -> [Bad; 9] {
    let a = &halves(5, 2)[..];
    let bad = |degree: u64, rest: &[&[u8]], number: u8, byte: u64| {
        let bytes = group(degree, rest);
        (bytes, number, byte)
    };
    [
        bad(1, &[&[0x02], a], 16, 1),
        (vec![0x00, 0x10], 28, 0),
        bad(2, &[DENSE, &[3; 32]], 29, 18),
        bad(2, &[SPLIT, a, &halves(u64::MAX, 3)], 30, 11),
        bad(9, &[DENSE, &[3; 16]], 31, 18),
        bad(1, &[DENSE, &[3; 17]], 32, 18),
        bad(2, &[SPLIT, a], 33, 11),
        bad(1, &[SPLIT, &[0x80, 0x00], &[1; 8]], 34, 2),
        bad(1, &[SPLIT, TOO_LARGE, &[1; 8]], 35, 2),
    ]
}

/// Any two faults in two groups: the earlier group's is told.
fn two_bad_groups(files: &mut Files) {
    let all = each_number();
    let mut places = [(0, 1), (0, 4), (1, 3), (3, 4)].into_iter().cycle();
    for (first, number, byte) in &all {
        for (second, other, _) in all.iter().filter(|bad| bad.1 != *number) {
            let (i, j) = places.next().expect("places without end");
            let layout = five_but(&[(i, first), (j, second)]);
            let name = format!("check-groups-{i}-and-{j}-{number}-and-{other}");
            files.faulty(name, layout, *number, *byte, i);
        }
    }
    let all = five_but(&[0, 1, 2, 3, 4].map(|i| (i, &[0x00, 0x10][..])));
    files.faulty("check-groups-all-of-degree-0", all, 28, 0, 0);
}

/// An end that is one too far or too near, so that the bytes of a group are
/// all there, but not within its offsets: the byte after its last, or the first
/// byte of its last partner.
fn moved_offsets(files: &mut Files) {
    for (group, begin, length, last) in [
        (0, 0, 11, 2),
        (1, 11, 34, 18),
        (2, 45, 30, 21),
        (3, 75, 18, 2),
    ] {
        let end = begin + length;
        for (word, offset, number, byte) in
            [("late", end + 1, 32, length), ("early", end - 1, 31, last)]
        {
            let index = group + 1;
            let layout = five_but(&[]).with(|l| set_offset(l, index, offset));
            let name = format!("check-offset-{index}-one-too-{word}");
            files.faulty(name, layout, number, byte, group);
        }
    }
}
