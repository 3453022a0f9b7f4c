//! Files made by chance: sound ones of all sorts, and the same with a byte
//! changed under mended checksums. Of those the program's own check is all
//! that says what becomes of them.

use super::Files;
use crate::corpus::open_files::samples::{dense, live, split, SKIPPED};
use crate::format::{flag, kind, OFFSET_BITS};
use crate::groups::{self, Edge, Group};
use crate::layout::{Layout, Section};
use crate::numbers::id_of;
use crate::random::Random;

pub fn add(files: &mut Files) {
    let mut random = Random::new(11);
    for count in 0..60 {
        let layout = sound(&mut random);
        files.fine(format!("check-chance-{count}"), layout.clone());
        for turn in 0..3 {
            let name = format!("check-chance-{count}-changed-{turn}");
            files.bytes(name, changed(&layout, &mut random).bytes(), None);
        }
    }
}

fn sound(random: &mut Random) -> Layout {
    let key_count = random.below(7);
    // Some files have no dead edge, some a few, some many.
    let dead_of_8 = [0, 1, 5][random.below(3) as usize];
    let mut upper = 0;
    let groups: Vec<Group> = (0..key_count)
        .map(|_| {
            upper += 1 + random.below(1 << 50);
            chance_group(upper, dead_of_8, random)
        })
        .collect();
    let offset_bits = OFFSET_BITS[random.below(4) as usize];
    let mut layout = groups::layout(&groups, offset_bits);
    layout.header.minor = random.byte();
    if random.below(2) == 0 {
        layout.header.flags |= flag::INVERSE;
    }
    layout.header.source = random.bytes();
    more_sections(&mut layout, &groups, random);
    layout
}

fn chance_group(key_upper: u64, dead_of_8: u64, random: &mut Random) -> Group {
    let degree = 1 + random.below(5);
    let step = 1 << random.below(60);
    let mut upper = random.below(step);
    let edges: Vec<Edge> = (0..degree)
        .map(|_| {
            upper += 1 + random.below(step);
            Edge {
                dead: random.below(8) < dead_of_8,
                ..live(upper, random.number(), random.number())
            }
        })
        .collect();
    let group = if random.below(3) == 0 { dense } else { split };
    group(id_of(key_upper, random.number()), &edges)
}

/// Fences, unknown sections, property streams and gaps.
fn more_sections(layout: &mut Layout, groups: &[Group], random: &mut Random) {
    if random.below(3) == 0 {
        let stride = 1 + random.below(4) as u32;
        layout.sections.push(groups::fences(groups, stride));
    }
    for _ in 0..random.below(3) {
        let kind = [kind::PROPERTIES, SKIPPED, 0xABCD][random.below(3) as usize];
        if kind == kind::PROPERTIES {
            layout.header.flags |= flag::PROPERTIES;
        }
        let bytes = vec![random.byte(); random.below(40) as usize];
        let at = random.below(layout.sections.len() as u64 + 1) as usize;
        let section = Section::new(kind, bytes).named(*b"chance");
        layout.sections.insert(at, section);
    }
    for section in &mut layout.sections {
        let gap = random.below(12).saturating_sub(8) as usize;
        section.gap = vec![random.byte(); gap];
    }
}

/// A byte of the sections changed, most often one of the partners or of the
/// tombstones; or the flags; or a sum.
fn changed(layout: &Layout, random: &mut Random) -> Layout {
    let mut layout = layout.clone();
    let index = random.below(layout.sections.len() as u64) as usize;
    match random.below(8) {
        0 => layout.header.flags ^= 1 << random.below(4),
        1 => layout.sections[index].stated.checksum = Some(random.number()),
        turn => {
            let wanted = match turn {
                2 => kind::TOMBSTONES,
                3..=6 => kind::PARTNERS,
                _ => layout.sections[index].kind,
            };
            let found = layout.sections.iter_mut().find(|s| s.kind == wanted);
            change_byte(found.map(|section| &mut section.bytes), random);
        }
    }
    layout
}

fn change_byte(bytes: Option<&mut Vec<u8>>, random: &mut Random) {
    let Some(bytes) = bytes.filter(|bytes| !bytes.is_empty()) else {
        return;
    };
    let at = random.below(bytes.len() as u64) as usize;
    bytes[at] = match random.below(3) {
        0 => bytes[at].wrapping_add(1),
        1 => bytes[at] ^ 1 << random.below(8),
        _ => random.byte(),
    };
}
