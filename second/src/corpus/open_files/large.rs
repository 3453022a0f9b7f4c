//! Files around the key count above which fences are required, and start
//! indexes of so many keys.

use super::samples::{live, set_key, set_offset, set_start, split};
use super::{expect, Files};
use crate::format::{bound, kind, FENCE, FENCE_HEAD};
use crate::groups::{self, Group};
use crate::layout::Layout;
use crate::numbers::id_of;
use crate::random::Random;

const STRIDE: u32 = 256;

pub fn add(files: &mut Files) {
    let groups = many_groups(bound::KEYS_WITHOUT_FENCES + 1);
    let (_, fewer) = groups.split_last().expect("a group");
    files.opens("large-65536-keys-without-fences", groups::layout(fewer, 24));

    let bare = groups::layout(&groups, 24);
    let fenced = bare
        .clone()
        .with(|l| l.sections.push(groups::fences(&groups, STRIDE)));
    files.opens("large-65537-keys-with-fences", fenced.clone());
    files.refused("large-65537-keys-without-fences", bare, expect(12, 0));
    wrong_fences(files, &fenced);
    equal_neighbours(files, &fenced, &groups);
    start_indexes(files, fenced, &groups);
}

fn wrong_fences(files: &mut Files, fenced: &Layout) {
    let changed = |change: fn(&mut Vec<u8>)| -> Layout {
        let mut layout = fenced.clone();
        change(&mut layout.section(kind::FENCES).bytes);
        layout
    };
    // Entry 256 is the last: it stands for the key above 65,536 alone.
    let wrong_key = changed(|bytes| bytes[FENCE_HEAD + 256 * FENCE + 15] ^= 1);
    files.refused("large-wrong-last-fence-key", wrong_key, expect(15, 0));
    let wrong_offset = changed(|bytes| bytes[FENCE_HEAD + 128 * FENCE + 16 + 2] ^= 1);
    files.refused(
        "large-wrong-middle-fence-offset",
        wrong_offset,
        expect(15, 0),
    );
    let rounded_down = changed(|bytes| {
        bytes[4..8].copy_from_slice(&256u32.to_le_bytes());
        bytes.truncate(FENCE_HEAD + 256 * FENCE);
    });
    files.refused(
        "large-fence-count-rounded-down",
        rounded_down,
        expect(15, 0),
    );
}

/// A key or an offset that equals the one before it.
fn equal_neighbours(files: &mut Files, fenced: &Layout, groups: &[Group]) {
    let before = groups[64_999].key;
    let equal_keys = fenced.clone().with(|l| set_key(l, 65_000, before));
    files.refused("large-key-65000-equal", equal_keys, expect(13, 65_000));
    let before = groups::group_offsets(groups)[65_499];
    let equal_offsets = fenced.clone().with(|l| set_offset(l, 65_500, before));
    files.refused(
        "large-offset-65500-equal",
        equal_offsets,
        expect(14, 65_500),
    );
}

/// A sound start index, entries that equal the one before, and one that is not
/// the edge count.
fn start_indexes(files: &mut Files, fenced: Layout, groups: &[Group]) {
    let indexed = fenced.with(|l| {
        l.sections.push(groups::starts(groups));
        l.header.minor = 1;
    });
    files.opens("large-65537-keys-with-starts", indexed.clone());
    let equal = indexed.clone().with(|l| set_start(l, 65_500, 65_499));
    files.refused("large-start-65500-equal", equal, expect(37, 65_500));
    let above = indexed.with(|l| set_start(l, 65_537, 65_538));
    files.refused("large-last-start-above", above, expect(37, 65_537));
}

/// Keys with pseudo-random distances, one live edge each.
fn many_groups(count: u64) -> Vec<Group> {
    let mut random = Random::new(4);
    let mut upper = 0;
    (0..count)
        .map(|i| {
            upper += random.below(1 << 40) + 1;
            let edge = live(random.below(128), random.number(), i);
            split(id_of(upper, random.number()), &[edge])
        })
        .collect()
}
