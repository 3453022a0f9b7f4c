//! The tag is missing or unknown. It stands right after the degree.

use super::BadGroups;
use crate::corpus::lookup_calls::raw::halves;
use crate::numbers::id_of;

/// Degrees, and how many bytes each has.
const DEGREES: [(&str, u64, u64); 10] = [
    ("1", 1, 1),
    ("2", 2, 1),
    ("127", 127, 1),
    ("128", 128, 2),
    ("16383", 16_383, 2),
    ("16384", 16_384, 3),
    ("2-to-32", 1 << 32, 5),
    ("2-to-62", 1 << 62, 9),
    ("2-to-63", 1 << 63, 10),
    ("most", u64::MAX, 10),
];

pub fn add(bad: &mut BadGroups) {
    for (word, degree, length) in DEGREES {
        bad.of(format!("no-tag-degree-{word}"), degree, &[], 31, length);
        let name = format!("tag-2-degree-{word}");
        bad.of(name, degree, &[&[0x02], &halves(5, 1)], 16, length);
    }
    for tag in [0x00, 0x03, 0x0F, 0x11, 0x20, 0x80, 0x81, 0x90, 0xFF] {
        let name = format!("tag-{tag:02x}");
        bad.of(name, 1, &[&[tag], &halves(5, 1)], 16, 1);
    }
    bad.of("tag-at-the-end", 1, &[&[0x00]], 16, 1);
    // What either form would make of the rest is no matter.
    bad.of("tag-before-open-varint", 1, &[&[0x80, 0x80]], 16, 1);
    bad.of("tag-before-dense", 1, &[&[0x02], &id_of(5, 1)], 16, 1);
    // The tag where the degree should be, and the degree where the tag should.
    // Degree 16 in split form: nine bytes for a partner, seven of the next.
    bad.of("tag-first-dense", 0x10, &[&[1], &id_of(5, 1)], 31, 11);
    let partners = [halves(5, 1), halves(1, 1)].concat();
    bad.of("tag-first-split", 0x01, &[&[2], &partners], 16, 1);
}
