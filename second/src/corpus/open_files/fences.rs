//! Refusal 15: the fence section.

use super::samples::{set_key, single_groups};
use super::{expect, Files};
use crate::format::{kind, FENCE, FENCE_HEAD};
use crate::groups;
use crate::layout::Layout;
use crate::numbers::id_of;

pub fn add(files: &mut Files) {
    strides(files);
    entry_counts(files);
    entry_counts_in_earnest(files);
    large_strides(files);
    lengths(files);
    entries(files);
    exchanged_entries(files);
    entries_at_strides(files);
    over_no_keys(files);
}

fn fenced(count: u64, stride: u32) -> Layout {
    let groups = single_groups(count);
    groups::layout(&groups, 24).with(|l| l.sections.push(groups::fences(&groups, stride)))
}

/// Five keys at stride 2: entries for the keys 0, 2 and 4.
fn five() -> Layout {
    fenced(5, 2)
}

/// The description with a change in the bytes of the fence section.
fn change(layout: Layout, change: impl FnOnce(&mut Vec<u8>)) -> Layout {
    layout.with(|l| change(&mut l.section(kind::FENCES).bytes))
}

fn set_stride(bytes: &mut [u8], stride: u32) {
    bytes[..4].copy_from_slice(&stride.to_le_bytes());
}

fn set_count(bytes: &mut [u8], count: u32) {
    bytes[4..8].copy_from_slice(&count.to_le_bytes());
}

fn entry(bytes: &mut [u8], index: usize) -> &mut [u8] {
    &mut bytes[FENCE_HEAD + FENCE * index..][..FENCE]
}

/// The first so many entries, and their count.
fn keep(bytes: &mut Vec<u8>, count: u32) {
    set_count(bytes, count);
    bytes.truncate(FENCE_HEAD + FENCE * count as usize);
}

fn strides(files: &mut Files) {
    for stride in [0, 1, 3, 5, 2 << 24, 2 << 8, u32::MAX] {
        let layout = change(five(), |bytes| set_stride(bytes, stride));
        let name = format!("fence-stride-2-said-{stride}");
        files.refused(name, layout, expect(15, 0));
    }
}

fn entry_counts(files: &mut Files) {
    for count in [0, 1, 2, 4, 5, 3 << 24, 3 + 256, u32::MAX] {
        let layout = change(five(), |bytes| set_count(bytes, count));
        files.refused(format!("fence-count-3-said-{count}"), layout, expect(15, 0));
    }
}

/// Count and length agree, but not with key count and stride.
fn entry_counts_in_earnest(files: &mut Files) {
    let down = change(five(), |bytes| keep(bytes, 2));
    files.refused("fence-count-rounded-down", down, expect(15, 0));
    let more = change(fenced(4, 2), |bytes| {
        set_count(bytes, 3);
        bytes.extend(id_of(1, 3));
        bytes.extend(48u64.to_le_bytes());
    });
    files.refused("fence-count-one-more-than-even", more, expect(15, 0));
    let none = change(five(), |bytes| keep(bytes, 0));
    files.refused("fence-count-0-in-earnest", none, expect(15, 0));
    let stride_0 = change(five(), |bytes| {
        set_stride(bytes, 0);
        keep(bytes, 0);
    });
    files.refused("fence-stride-0-count-0", stride_0, expect(15, 0));
    // Two entries either way, but for other keys.
    let near = change(fenced(5, 3), |bytes| set_stride(bytes, 4));
    files.refused("fence-stride-3-said-4-of-five-keys", near, expect(15, 0));
    // At stride 3 there are 2 entries.
    let swapped = change(five(), |bytes| bytes[..8].rotate_left(4));
    files.refused("fence-stride-and-count-swapped", swapped, expect(15, 0));
}

/// A stride above the key count has one entry, and one at it too.
fn large_strides(files: &mut Files) {
    for stride in [5, 6, u32::MAX] {
        let layout = change(fenced(5, stride), |bytes| {
            set_count(bytes, 2);
            bytes.extend([0; FENCE]);
        });
        let name = format!("fence-count-2-at-stride-{stride}");
        files.refused(name, layout, expect(15, 0));
        let layout = change(fenced(5, stride), |bytes| keep(bytes, 0));
        let name = format!("fence-count-0-at-stride-{stride}");
        files.refused(name, layout, expect(15, 0));
    }
}

fn lengths(files: &mut Files) {
    let right = FENCE_HEAD + 3 * FENCE;
    for length in [
        0,
        1,
        3,
        4,
        7,
        8,
        FENCE_HEAD + 2 * FENCE,
        right - 8,
        right - 1,
        right + 1,
        right + 8,
        right + FENCE,
    ] {
        let layout = change(five(), |bytes| bytes.resize(length, 0));
        files.refused(format!("fence-length-{length}"), layout, expect(15, 0));
    }
}

/// Another key or offset in one of the three entries.
fn entries(files: &mut Files) {
    for index in 0..3 {
        entry_keys(files, index);
        entry_offsets(files, index);
        if index > 0 {
            lower_offsets(files, index);
        }
    }
}

/// Five keys, with a change in the entry with this index.
fn entry_changed(files: &mut Files, index: usize, word: &str, with: impl FnOnce(&mut [u8])) {
    let layout = change(five(), |bytes| with(entry(bytes, index)));
    let name = format!("fence-{index}-{word}");
    files.refused(name, layout, expect(15, 0));
}

fn entry_keys(files: &mut Files, index: usize) {
    entry_changed(files, index, "key-first-byte", |entry| entry[0] ^= 0x80);
    entry_changed(files, index, "key-middle-byte", |entry| entry[7] ^= 0x02);
    entry_changed(files, index, "key-last-byte", |entry| entry[15] ^= 0x01);
    entry_changed(files, index, "key-reversed", |entry| entry[..16].reverse());
}

fn entry_offset(files: &mut Files, index: usize, word: &str, offset: u64) {
    entry_changed(files, index, &format!("offset-{word}"), |entry| {
        entry[16..].copy_from_slice(&offset.to_le_bytes());
    });
}

/// Where the key of an entry lies at stride 2.
fn right_offset(index: usize) -> u64 {
    32 * index as u64
}

fn entry_offsets(files: &mut Files, index: usize) {
    let right = right_offset(index);
    entry_offset(files, index, "one-more", right + 1);
    entry_offset(files, index, "of-next-key", right + 16);
    entry_offset(files, index, "in-the-file", right + 64);
    entry_offset(files, index, "high-byte", right ^ 0x80 << 56);
    entry_offset(files, index, "2-to-32-more", right + (1 << 32));
}

/// Offsets below that of a later entry, and the key before its own.
fn lower_offsets(files: &mut Files, index: usize) {
    let right = right_offset(index);
    entry_offset(files, index, "one-less", right - 1);
    entry_offset(files, index, "as-key-index", right / 16);
    entry_offset(files, index, "as-entry-index", index as u64);
    entry_offset(files, index, "zero", 0);
    entry_changed(files, index, "of-the-key-before", |entry| {
        entry[..16].copy_from_slice(&id_of(1, 2 * index as u64 - 1));
        entry[16..].copy_from_slice(&(right - 16).to_le_bytes());
    });
}

/// Entries of other keys, or out of order.
fn exchanged_entries(files: &mut Files) {
    let exchanged = change(five(), |bytes| {
        bytes[FENCE_HEAD + FENCE..].rotate_left(FENCE);
    });
    files.refused("fences-1-and-2-exchanged", exchanged, expect(15, 0));
    let zeros = change(five(), |bytes| bytes[FENCE_HEAD..].fill(0));
    files.refused("fences-all-zero", zeros, expect(15, 0));
    // The fences of other keys: all rules of the keys themselves are kept.
    let layout = fenced(3, 1).with(|l| set_key(l, 2, id_of(9, 9)));
    files.refused("fences-of-another-last-key", layout, expect(15, 0));
    // A key that no fence has is nothing to them.
    let layout = fenced(4, 4).with(|l| set_key(l, 3, id_of(9, 9)));
    files.opens("fences-of-another-unfenced-key", layout);
}

/// The first or the last entry is wrong, at several strides.
fn entries_at_strides(files: &mut Files) {
    for stride in [1, 2, 5, u32::MAX] {
        let layout = change(fenced(5, stride), |bytes| entry(bytes, 0)[3] ^= 1);
        let name = format!("fence-0-wrong-at-stride-{stride}");
        files.refused(name, layout, expect(15, 0));
    }
    let layout = change(fenced(5, 1), |bytes| entry(bytes, 4)[20] = 1);
    files.refused("fence-4-wrong-at-stride-1", layout, expect(15, 0));
}

fn over_no_keys(files: &mut Files) {
    let base = || fenced(0, 256);
    let mut refused = |word: &str, with: &dyn Fn(&mut Vec<u8>)| {
        let layout = change(base(), with);
        files.refused(format!("fences-over-no-keys-{word}"), layout, expect(15, 0));
    };
    refused("stride-0", &|bytes| set_stride(bytes, 0));
    refused("count-1", &|bytes| set_count(bytes, 1));
    refused("count-1-in-earnest", &|bytes| {
        set_count(bytes, 1);
        bytes.extend([0; FENCE]);
    });
    refused("count-largest", &|bytes| set_count(bytes, u32::MAX));
    refused("longer-by-1", &|bytes| bytes.push(0));
    refused("longer-by-an-entry", &|bytes| bytes.extend([0; FENCE]));
    refused("shorter-by-1", &|bytes| bytes.truncate(FENCE_HEAD - 1));
    refused("empty", &|bytes| bytes.clear());
}
