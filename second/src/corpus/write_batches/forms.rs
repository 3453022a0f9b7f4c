//! Batches about the choice between the split and the dense form.

use super::records::{batch, dead, live, size, size_with_dead};
use super::Batches;
use crate::numbers::{id_of, Id};
use crate::varint;

pub fn add(batches: &mut Batches) {
    one_partner(batches);
    some_partners(batches);
    time_ordered_ids(batches);
    degrees(batches);
    mixed_forms(batches);
}

const KEY: (u64, u64) = (1, 2);

fn key() -> Id {
    id_of(KEY.0, KEY.1)
}

/// Partners with these upper halves under one key. The lower halves rise.
fn with_uppers(uppers: &[u64]) -> Vec<u8> {
    let edges: Vec<Vec<u8>> = uppers
        .iter()
        .enumerate()
        .map(|(i, &upper)| live(key(), id_of(upper, 1 + i as u64), 7))
        .collect();
    batch(&edges)
}

/// The marked cases of 2^49 - 1 and 2^49, and both sides of all other lengths.
fn one_partner(batches: &mut Batches) {
    for k in 1..=9 {
        let power = 1 << (7 * k);
        for (word, upper, cost) in [("below", power - 1, k + 8), ("at", power, k + 9)] {
            let payload = if cost < 16 { cost } else { 16 };
            let name = format!("upper-half-{word}-2-to-{}", 7 * k);
            batches.written(name, with_uppers(&[upper]), size(1, 2 + payload, 1));
        }
    }
    let most = with_uppers(&[u64::MAX]);
    batches.written("upper-half-most", most, size(1, 2 + 16, 1));
    batches.written("upper-half-0", with_uppers(&[0]), size(1, 2 + 9, 1));
}

/// The cost of a group is that of all its partners: one that is dear alone may
/// be outweighed.
fn some_partners(batches: &mut Batches) {
    let mut add = |name: &str, uppers: &[u64], partner_bytes: u64| {
        let size = size(1, partner_bytes, uppers.len() as u64);
        batches.written(name, with_uppers(uppers), size);
    };
    add("two-of-marked-case", &[5, 5], 20);
    // 16 and 15, 16 and 16.
    add("costs-16-and-15", &[1 << 49, (1 << 49) + (1 << 42)], 2 + 31);
    add("costs-16-and-16", &[1 << 49, 1 << 50], 2 + 32);
    // 18 and 13, 18 and 14.
    let top: u64 = 1 << 63;
    add("costs-18-and-13", &[top, top + (1 << 35) - 1], 2 + 31);
    add("costs-18-and-14", &[top, top + (1 << 35)], 2 + 32);
    // The difference counts, not the upper half itself.
    add("costs-9-and-18", &[1, 1 + top], 2 + 27);
    add("costs-18-and-9", &[top, top], 2 + 27);
    add("costs-18-17-17", &[top, top + (1 << 62), u64::MAX], 2 + 48);
    add(
        "costs-18-17-12",
        &[top, top + (1 << 56), top + (1 << 56) + (1 << 21)],
        2 + 47,
    );
    add(
        "costs-18-17-13",
        &[top, top + (1 << 56), top + (1 << 56) + (1 << 28)],
        2 + 48,
    );
    add("costs-9-each", &[0, 0, 0, 0], 2 + 36);
}

/// Ids that begin with a time. One alone is dense; two of one time are split.
fn time_ordered_ids(batches: &mut Batches) {
    let time = |ms: u64, random: u64| (0x018F_6E2A_7C10 + ms) << 16 | 0x7000 | random;
    let mut add = |name: &str, uppers: &[u64], partner_bytes: u64| {
        let size = size(1, partner_bytes, uppers.len() as u64);
        let name = format!("time-ordered-{name}");
        batches.written(name, with_uppers(uppers), size);
    };
    add("alone", &[time(0, 0xABC)], 2 + 16);
    // 17 and 10, 17 and 11, and three of them.
    add("same-time", &[time(0, 0x100), time(0, 0x200)], 2 + 27);
    add("next-time", &[time(0, 0x100), time(1, 0x100)], 2 + 28);
    add("three", &[time(0, 1), time(0, 1), time(9, 9)], 2 + 37);
}

/// Degrees at which the form may be forced. The partners are as cheap as can
/// be, but for the last batch.
fn degrees(batches: &mut Batches) {
    let edges = |degree: u64, step: u64| -> Vec<Vec<u8>> {
        (0..degree)
            .map(|i| live(key(), id_of(step * i, i), i))
            .collect()
    };
    for degree in [127, 128, 1_023, 1_024] {
        let varint = varint::length(degree) as u64;
        let size = size(1, varint + 1 + 9 * degree, degree);
        let name = format!("degree-{degree}");
        batches.written(name, batch(&edges(degree, 0)), size);
    }
    for degree in [1_025, 2_000] {
        let size = size(1, 3 + 16 * degree, degree);
        let name = format!("degree-{degree}");
        batches.written(name, batch(&edges(degree, 0)), size);
    }
    // All but the first cost 16.
    let size = size(1, 3 + 9 + 16 * 1_023, 1_024);
    let dear = batch(&edges(1_024, 1 << 49));
    batches.written("degree-1024-nearly-dense", dear, size);
}

/// Groups of both forms, and a forced one between two others.
fn mixed_forms(batches: &mut Batches) {
    let dear = id_of(1 << 60, 4);
    let edges = [
        live(id_of(1, 0), id_of(5, 1), 1),
        dead(id_of(2, 0), dear, 2),
        live(id_of(3, 0), id_of(5, 1), 3),
        live(id_of(3, 0), dear, 4),
        live(id_of(4, 0), dear, 5),
    ];
    // 9, then 16, then 9 and 17, then 16.
    let partner_bytes = 11 + 18 + (2 + 26) + 18;
    let size_of_5 = size_with_dead(4, partner_bytes, 5);
    batches.written("four-groups-of-both-forms", batch(&edges), size_of_5);

    let forced = (0..1_025).map(|i| live(id_of(2, 0), id_of(0, i), i));
    let mut edges = vec![live(id_of(1, 0), id_of(5, 1), 1)];
    edges.extend(forced);
    edges.push(live(id_of(3, 0), id_of(5, 1), 1));
    let size = size(3, 11 + 3 + 16 * 1_025 + 11, 1_027);
    batches.written("degree-1025-between-two", batch(&edges), size);
}
