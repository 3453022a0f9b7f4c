//! Refusals 1 to 7: the size, the header's fields, the tail magic and the
//! footer length.

use super::samples::{full, heading_only, one_edge};
use super::{expect, Files, Verdict};
use crate::format::{HEADER, MAGIC, TRAILER};
use crate::layout::{Header, Layout};

/// The magic as the public draft ends a file with it.
const DRAFT_TAIL: [u8; 8] = *b"TGEDGE\xFE\xEF";

pub fn add(files: &mut Files) {
    sizes(files);
    header_and_trailer(files);
    cut_files(files);
    shortest_footers(files);
    one_byte_more(files);
    magics(files);
    major_versions(files);
    header_sizes(files);
    flags(files);
    tail_magic(files);
    footer_lengths(files);
    footer_lengths_of_other_bodies(files);
    footer_after_header(files);
}

/// A file without sections whose footer body is these bytes.
fn bare(body: &[u8]) -> Layout {
    Layout::new(Header::new(0), Vec::new()).with(|l| {
        l.body_cut = 2 + 17;
        l.body_rest = body.to_vec();
    })
}

fn sizes(files: &mut Files) {
    let whole = one_edge().bytes();
    for size in [0, 1, 7, 8, 63, 64, 82, 83] {
        let cut = whole[..size].to_vec();
        files.bytes(format!("size-{size}"), cut, Some(expect(1, 0)));
    }
    let zeros = |size| vec![0; size];
    files.bytes("size-83-zeros", zeros(83), Some(expect(1, 0)));
    files.bytes("size-84-zeros", zeros(84), Some(expect(2, 0)));
}

/// Header and trailer of one file, and nothing between them.
fn header_and_trailer(files: &mut Files) {
    let whole = one_edge().bytes();
    let size = 83;
    let (header, trailer) = (&whole[..HEADER], &whole[whole.len() - TRAILER..]);
    let both = [&header[..size - TRAILER], trailer].concat();
    files.bytes("size-83-header-and-trailer", both, Some(expect(1, 0)));
    let both = [header, trailer].concat();
    files.bytes("size-84-header-and-trailer", both, Some(expect(7, 0)));
}

/// Files of enough bytes that end early.
fn cut_files(files: &mut Files) {
    let whole = one_edge().bytes();
    for size in [84, 102, 103, 150, 255] {
        let cut = whole[..size].to_vec();
        files.bytes(format!("size-{size}-cut"), cut, Some(expect(6, 0)));
    }
}

/// A footer of 39 bytes is the shortest, and 103 bytes the shortest file that
/// can have one.
fn shortest_footers(files: &mut Files) {
    files.refused("size-84-footer-20", bare(&[]), expect(7, 0));
    files.refused("size-102-footer-38", bare(&[0; 18]), expect(7, 0));
    let stated = bare(&[0; 18]).with(|l| l.footer_length = Some(39));
    files.refused("size-102-footer-said-39", stated, expect(7, 0));
    let stated = bare(&[0; 19]).with(|l| l.footer_length = Some(38));
    files.refused("size-103-footer-said-38", stated, expect(7, 0));
    let stated = bare(&[0; 19]).with(|l| l.footer_length = Some(40));
    files.refused("size-103-footer-said-40", stated, expect(7, 0));
    let unmended = bare(&[0; 19]).with(|l| l.footer_checksum = Some(0));
    files.refused("size-103-footer-checksum", unmended, expect(8, 0));
    files.refused("size-103-no-section", bare(&[0; 19]), expect(9, 0));
    let mut one_section = [0; 19];
    one_section[0] = 1;
    let no_room = bare(&one_section);
    files.refused("size-103-no-room-for-section", no_room, expect(9, 0));
}

fn one_byte_more(files: &mut Files) {
    let whole = one_edge().bytes();
    let behind = [&[0], &whole[..]].concat();
    files.bytes("one-byte-before-the-file", behind, Some(expect(2, 0)));
    let longer = [&whole[..], &[0]].concat();
    files.bytes("one-byte-after-the-file", longer, Some(expect(6, 0)));
}

fn magics(files: &mut Files) {
    for at in 0..8 {
        let layout = one_edge().with(|l| l.header.magic[at] ^= 0x01);
        files.refused(format!("magic-byte-{at}"), layout, expect(2, 0));
    }
    for (word, magic) in [
        ("small-letters", *b"tgedge\0\0"),
        ("of-the-draft", DRAFT_TAIL),
        ("zeros", [0; 8]),
        ("backwards", *b"\0\0EGDEGT"),
    ] {
        let layout = one_edge().with(|l| l.header.magic = magic);
        files.refused(format!("magic-{word}"), layout, expect(2, 0));
    }
}

fn major_versions(files: &mut Files) {
    for major in [0, 2, 3, 129, 255] {
        let layout = one_edge().with(|l| l.header.major = major);
        files.refused(format!("major-{major}"), layout, expect(3, 0));
    }
    let swapped = one_edge().with(|l| (l.header.major, l.header.minor) = (0, 1));
    files.refused("major-and-minor-swapped", swapped, expect(3, 0));
}

fn header_sizes(files: &mut Files) {
    for size in [0, 1, 63, 65, 128, 64 + 256, 64 << 8, 65_535] {
        let layout = one_edge().with(|l| l.header.size = size);
        files.refused(format!("header-size-{size}"), layout, expect(4, 0));
    }
}

fn flags(files: &mut Files) {
    for bit in 4..32 {
        let layout = one_edge().with(|l| l.header.flags = 1 << bit);
        files.refused(format!("flag-bit-{bit}"), layout, expect(5, 0));
    }
    let mut flagged = |name: &str, layout: Layout, flags: u32| {
        let layout = layout.with(|l| l.header.flags = flags);
        files.refused(format!("flags-{name}"), layout, expect(5, 0));
    };
    flagged("all-32", one_edge(), u32::MAX);
    flagged("all-but-the-known", one_edge(), !0b1111);
    flagged("known-and-bit-4", full(), 0b1_0111);
    flagged(
        "bit-31-at-minor-200",
        one_edge().with(|l| l.header.minor = 200),
        1 << 31,
    );
    flagged("on-heading-only", heading_only(), 1 << 8);
}

fn tail_magic(files: &mut Files) {
    for at in 0..8 {
        let layout = one_edge().with(|l| l.tail_magic[at] ^= 0x80);
        files.refused(format!("tail-magic-byte-{at}"), layout, expect(6, 0));
    }
    for (word, magic) in [("of-the-draft", DRAFT_TAIL), ("zeros", [0; 8])] {
        let layout = one_edge().with(|l| l.tail_magic = magic);
        files.refused(format!("tail-magic-{word}"), layout, expect(6, 0));
    }
    let swapped = one_edge().with(|l| {
        l.header.magic = DRAFT_TAIL;
        l.tail_magic = MAGIC;
    });
    files.refused("tail-magic-alone-right", swapped, expect(2, 0));
}

/// The file of one edge, with another footer length.
fn footer_length(files: &mut Files, name: &str, length: u64, intended: Verdict) {
    let layout = one_edge().with(|l| l.footer_length = Some(length as u32));
    files.refused(format!("footer-length-{name}"), layout, intended);
}

fn footer_lengths(files: &mut Files) {
    let size = one_edge().size();
    let right = size - one_edge().footer_place();
    for length in [0, 1, 19, 20, 21, 37, 38] {
        footer_length(files, &length.to_string(), length, expect(7, 0));
    }
    for (word, length) in [
        ("into-header", size - 63),
        ("to-the-first-byte", size),
        ("past-the-first-byte", size + 1),
        ("2-to-31", 1 << 31),
        ("largest", u64::from(u32::MAX)),
        ("wrapping-to-right", (1 << 32) - right),
        ("two-bytes-shifted", right << 16),
        ("high-byte-set", right | 1 << 24),
    ] {
        footer_length(files, word, length, expect(7, 0));
    }
}

/// Lengths that pass 7. The checksum is right for the body they give, which is
/// not what the table fills.
fn footer_lengths_of_other_bodies(files: &mut Files) {
    let size = one_edge().size();
    let right = size - one_edge().footer_place();
    for (word, length) in [
        ("39", 39),
        ("40", 40),
        ("one-less", right - 1),
        ("one-more", right + 1),
        ("without-trailer", right - 20),
        ("with-trailer-twice", right + 20),
        ("to-the-header", size - 64),
    ] {
        footer_length(files, word, length, expect(9, 0));
    }
}

/// The footer begins where the header ends: there is no room for the one
/// offset of a file without keys.
fn footer_after_header(files: &mut Files) {
    let no_room = heading_only().with(|l| l.sections[1].bytes.clear());
    files.refused("footer-right-after-header", no_room, expect(12, 0));
}
