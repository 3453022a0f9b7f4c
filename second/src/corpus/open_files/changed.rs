//! Sound files with one byte changed by chance. The program's own opening is
//! all that says what becomes of them.

use super::samples::{five_with_starts, full, heading_only, one_edge, single_groups, FIVE_STARTS};
use super::Files;
use crate::format::{ENTRY, HEADER, TRAILER};
use crate::groups;
use crate::layout::{mend, Layout, Section};
use crate::random::Random;

pub fn add(files: &mut Files) {
    let mut random = Random::new(3);
    let bases = [
        heading_only(),
        one_edge(),
        one_edge().with(|l| l.sections.push(Section::new(300, *b"?").named(*b"skipped"))),
        groups::layout(&single_groups(2), 32).with(|l| {
            l.sections.push(groups::fences(&single_groups(2), 1));
            l.sections.swap(0, 2);
        }),
        full(),
    ];
    let mut count = 0;
    let mut add = |word: &str, times: usize, base: &Layout, part: Part, mended: bool| {
        for _ in 0..times {
            let (bytes, at) = changed(base, part, mended, &mut random);
            files.bytes(format!("changed-{word}-{count}-at-{at}"), bytes, None);
            count += 1;
        }
    };
    for base in &bases {
        add("header", 8, base, Part::Header, true);
        add("footer", 40, base, Part::Footer, true);
        add("unmended", 8, base, Part::Footer, false);
    }
    for base in &bases[3..] {
        add("section", 20, base, Part::Sections, true);
    }
    for base in [&bases[2], &bases[4]] {
        add("kind", 20, base, Part::Kinds, true);
    }
    let indexed = five_with_starts(&FIVE_STARTS);
    add("indexed-footer", 16, &indexed, Part::Footer, true);
    add("indexed-starts", 20, &indexed, Part::Starts, true);
}

#[derive(Clone, Copy)]
enum Part {
    /// Without the ids, in which nothing can be wrong.
    Header,
    Sections,
    /// The start index, which is the last section.
    Starts,
    /// The bytes of the kinds alone.
    Kinds,
    /// If it is mended, without the checksum, which would be mended too.
    Footer,
}

/// Where the kinds stand in the table, two bytes each.
fn kind_places(base: &Layout) -> Vec<usize> {
    let mut row = base.footer_place() as usize + 2;
    let mut places = Vec::new();
    for section in &base.sections {
        places.extend([row, row + 1]);
        row += ENTRY + section.name.len();
    }
    places
}

/// The file of the description with another byte at a place of the part, and
/// that place.
fn changed(base: &Layout, part: Part, mended: bool, random: &mut Random) -> (Vec<u8>, usize) {
    let mut bytes = base.bytes();
    let footer = base.footer_place() as usize;
    let checksum = bytes.len() - TRAILER..bytes.len() - TRAILER + 8;
    let places: Vec<usize> = match part {
        Part::Header => (0..16).collect(),
        Part::Sections => (HEADER..footer).collect(),
        Part::Starts => (footer - 8 * FIVE_STARTS.len()..footer).collect(),
        Part::Kinds => kind_places(base),
        Part::Footer => (footer..bytes.len())
            .filter(|at| !(mended && checksum.contains(at)))
            .collect(),
    };
    let at = places[random.below(places.len() as u64) as usize];
    // Half of the changes are small: a field near its right value is what a
    // slip would let pass.
    bytes[at] = match random.below(4) {
        0 => bytes[at].wrapping_add(1),
        1 => bytes[at] ^ 1 << random.below(8),
        _ => bytes[at] ^ (1 + random.below(255) as u8),
    };
    if mended {
        mend(&mut bytes);
    }
    (bytes, at)
}
