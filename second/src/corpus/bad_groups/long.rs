//! Groups of 128 partners, whose degree has two bytes, with a fault at the last
//! partner or after it.

use super::BadGroups;
use crate::corpus::lookup_calls::raw::{halves, DENSE, SPLIT};
use crate::numbers::id_of;

/// Where the first partner begins.
const FIRST: u64 = 3;

pub fn add(bad: &mut BadGroups) {
    split(bad);
    dense(bad);
}

/// Nine bytes for each partner.
fn split(bad: &mut BadGroups) {
    let before: Vec<u8> = (0..127).flat_map(|i| halves(0, i)).collect();
    let last = FIRST + 9 * 127;
    let mut add = |what: &str, rest: &[u8], number: u8, byte: u64| {
        let name = format!("split-of-128-{what}");
        bad.of(name, 128, &[SPLIT, &before, rest], number, byte);
    };
    add("last-missing", &[], 33, last);
    add("last-long", &[0x81, 0x00], 34, last);
    add("last-equal", &halves(0, 126), 29, last);
    let more = [halves(0, 127), vec![0x80]].concat();
    add("overlong", &more, 32, FIRST + 9 * 128);
}

/// Sixteen bytes for each partner.
fn dense(bad: &mut BadGroups) {
    let before: Vec<u8> = (0..127).flat_map(|i| id_of(7, i)).collect();
    let last = FIRST + 16 * 127;
    let mut add = |what: &str, rest: &[u8], number: u8, byte: u64| {
        let name = format!("dense-of-128-{what}");
        bad.of(name, 128, &[DENSE, &before, rest], number, byte);
    };
    add("last-missing", &[], 31, last);
    add("last-equal", &id_of(7, 126), 29, last);
    let more = [&id_of(7, 127)[..], &[0]].concat();
    add("overlong", &more, 32, FIRST + 16 * 128);
}
