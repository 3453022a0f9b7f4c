//! Refusal 8: the checksum of the footer body.

use super::samples::{full, one_edge};
use super::{expect, Files};
use crate::format::{HEADER, TRAILER};
use crate::layout::mend;
use crate::numbers::read_le;
use crate::xxh3::xxh3_64;

pub fn add(files: &mut Files) {
    other_sums(files);
    longer_bodies(files);
    fields(files);
    footer_lengths(files);
}

/// Sums of other bytes than the body, and the right one misread.
fn other_sums(files: &mut Files) {
    let file = one_edge().bytes();
    let (before, footer) = file.split_at(one_edge().footer_place() as usize);
    let (body, trailer) = footer.split_at(footer.len() - TRAILER);
    let right = read_le(&trailer[..8]);
    let mut with_sum = |name: &str, sum: u64| {
        let layout = one_edge().with(|l| l.footer_checksum = Some(sum));
        files.refused(format!("checksum-{name}"), layout, expect(8, 0));
    };
    for at in 0..8 {
        with_sum(&format!("byte-{at}"), right ^ 0x10 << (8 * at));
    }
    with_sum("zero", 0);
    with_sum("of-nothing", xxh3_64(&[]));
    with_sum("big-endian", right.swap_bytes());
    with_sum("complement", !right);
    let body_and_length = [body, &trailer[8..12]].concat();
    with_sum("of-body-and-length", xxh3_64(&body_and_length));
    with_sum("of-all-before", xxh3_64(&[before, body].concat()));
    with_sum("of-sections", xxh3_64(&before[HEADER..]));
    let but_last = &body[..body.len() - 1];
    with_sum("of-body-but-last-byte", xxh3_64(but_last));
}

/// Bodies longer than those of one edge take other ways through the sum.
fn longer_bodies(files: &mut Files) {
    let other = one_edge().bytes();
    let other_sum = read_le(&other[other.len() - TRAILER..][..8]);
    let layout = full().with(|l| l.footer_checksum = Some(other_sum));
    files.refused("checksum-of-another-file", layout, expect(8, 0));
    for (word, from_footer) in [("first", 0), ("middle", 100), ("last", 255)] {
        let mut bytes = full().bytes();
        bytes[full().footer_place() as usize + from_footer] ^= 0x04;
        let name = format!("checksum-after-change-of-{word}-byte");
        files.bytes(name, bytes, Some(expect(8, 0)));
    }
}

/// Every field of the body is under the sum.
fn fields(files: &mut Files) {
    let footer_place = one_edge().footer_place() as usize;
    for (field, from_footer) in [
        ("section-count", 0),
        ("kind", 2),
        ("codec", 4),
        ("name-length", 5),
        ("offset", 6),
        ("length", 14),
        ("section-checksum", 22),
        ("last-row", 2 + 3 * 28),
        ("key-count", 114),
        ("edge-count", 122),
        ("offset-bits", 130),
    ] {
        let mut bytes = one_edge().bytes();
        bytes[footer_place + from_footer] ^= 0x08;
        let name = format!("checksum-after-change-of-{field}");
        files.bytes(name, bytes, Some(expect(8, 0)));
    }
}

/// The footer length is not under the sum, but it says which bytes are.
fn footer_lengths(files: &mut Files) {
    for length in [39, 150, 152] {
        let mut bytes = one_edge().bytes();
        let length_place = bytes.len() - TRAILER + 8;
        bytes[length_place] = length;
        let name = format!("checksum-for-footer-length-{length}");
        files.bytes(name, bytes.clone(), Some(expect(8, 0)));
        mend(&mut bytes);
        let name = format!("checksum-mended-for-footer-length-{length}");
        files.bytes(name, bytes, Some(expect(9, 0)));
    }
}
