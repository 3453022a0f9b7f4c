//! The degree cannot be read, or is 0.

use super::BadGroups;
use crate::corpus::lookup_calls::raw::{halves, SPLIT};

pub fn add(bad: &mut BadGroups) {
    let right = &[SPLIT, &halves(5, 1)].concat()[..];
    bad.raw("degree-cut-after-1", &[&[0x80]], 33);
    bad.raw("degree-cut-after-2", &[&[0x81, 0xFF]], 33);
    bad.raw("degree-cut-after-8", &[&[0x80; 8]], 33);
    bad.raw("degree-cut-after-9", &[&[0xFF; 9]], 33);
    bad.raw("degree-cut-after-nine-80", &[&[0x80; 9]], 33);

    // The marked case `80 00` is not shortest before it is 0.
    bad.raw("degree-0-in-two-alone", &[&[0x80, 0x00]], 34);
    bad.raw("degree-0-in-two", &[&[0x80, 0x00], right], 34);
    bad.raw("degree-127-in-three", &[&[0xFF, 0x80, 0x00]], 34);
    bad.raw("degree-1-in-two", &[&[0x81, 0x00], right], 34);
    let in_ten = [&[0x81][..], &[0x80; 8], &[0x00]].concat();
    bad.raw("degree-1-in-ten", &[&in_ten, right], 34);

    bad.raw("degree-without-end", &[&[0xFF; 30]], 35);
    bad.raw("degree-without-end-10", &[&[0xFF; 10]], 35);

    bad.raw("degree-0-nothing-after", &[&[0x00]], 28);
    bad.raw("degree-0-split", &[&[0x00, 0x01]], 28);
    bad.raw("degree-0-dense", &[&[0x00, 0x10]], 28);
    bad.raw("degree-0-other-tag", &[&[0x00, 0xFF]], 28);
    bad.raw("degree-0-open-varint", &[&[0x00, 0x01, 0x80]], 28);
    bad.raw("degree-0-partner", &[&[0x00], right], 28);
}
