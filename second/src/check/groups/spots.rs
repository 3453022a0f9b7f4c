//! Which faults occur at which places of a group.

use super::{form, tag_place, varint_end, DEGREE_ZERO, FAULTS, SPARE_BYTES};
use crate::check::Tally;
use crate::groups::Form;
use crate::lookup::group;
use crate::refusal::Refusal;
use std::collections::BTreeSet;
use Form::{Dense, Split};
use Spot::{After, Degree, First, Last, Middle, Tag};

/// What the byte of a fault is the first of: the degree, the tag, the first, a
/// middle or the last partner, or what follows it.
#[derive(Clone, Copy, Debug, PartialEq, Eq, PartialOrd, Ord)]
enum Spot {
    Degree,
    Tag,
    First(Form),
    Middle(Form),
    Last(Form),
    After(Form),
}

/// Where each fault can occur.
const SPOTS: [(u8, &[Spot]); 9] = [
    (16, &[Tag]),
    (28, &[Degree]),
    (
        29,
        &[Middle(Split), Last(Split), Middle(Dense), Last(Dense)],
    ),
    (30, &[Middle(Split), Last(Split)]),
    (31, CUT),
    (32, &[After(Split), After(Dense)]),
    (33, VARINTS),
    (34, VARINTS),
    (35, VARINTS),
];

const CUT: &[Spot] = &[
    Tag,
    First(Split),
    Middle(Split),
    Last(Split),
    First(Dense),
    Middle(Dense),
    Last(Dense),
];

const VARINTS: &[Spot] = &[Degree, First(Split), Middle(Split), Last(Split)];

/// Which faults were told where, and after how many bytes of a degree.
#[derive(Default)]
pub struct Spots {
    seen: BTreeSet<(u8, Spot)>,
    widths: BTreeSet<(u8, usize)>,
}

impl Spots {
    pub fn note(&mut self, group: &[u8], refusal: Refusal) {
        let Refusal { number, place, .. } = refusal;
        let spot = spot(group, number, place as usize);
        self.seen.insert((number, spot));
        if spot != Degree {
            self.widths.insert((number, tag_place(group)));
        }
    }

    /// Each fault was told wherever it can occur, and nowhere else; and after
    /// degrees of one, two and ten bytes. No group of a degree of ten bytes is
    /// long enough for bytes left over.
    pub fn check(&self, tally: &mut Tally, what: &str) {
        let each = |(number, spots): &(u8, &'static [Spot])| {
            let number = *number;
            spots.iter().map(move |&spot| (number, spot))
        };
        let expected: BTreeSet<(u8, Spot)> = SPOTS.iter().flat_map(each).collect();
        tally.same(&format!("{what}: spots"), &self.seen, &expected);
        for number in FAULTS {
            let widths: &[usize] = match number {
                DEGREE_ZERO => &[],
                SPARE_BYTES => &[1, 2],
                _ => &[1, 2, 10],
            };
            let met = |width: &usize| self.widths.contains(&(number, *width));
            let what = format!("{what}: degrees before {number}");
            tally.same(&what, widths.iter().all(met), true);
        }
    }
}

fn spot(group: &[u8], number: u8, byte: usize) -> Spot {
    let tag = tag_place(group);
    let form = match byte {
        0 => return Degree,
        _ if byte == tag => return Tag,
        _ => form(group).expect("a fault after the tag"),
    };
    let mut partner = tag + 1;
    let mut index = 0;
    while partner < byte {
        partner = match form {
            Split => varint_end(group, partner) + 8,
            Dense => partner + 16,
        };
        index += 1;
    }
    match (number, index, group::degree(group)) {
        (SPARE_BYTES, ..) => After(form),
        (_, 0, _) => First(form),
        (_, _, Ok(degree)) if index + 1 == degree => Last(form),
        _ => Middle(form),
    }
}
