//! Batches that become files, but for those about the forms of groups.

use super::records::{batch, dead, heading, heading_with, live, rising, size, size_with_dead};
use super::{Batches, ROOM};
use crate::numbers::id_of;

pub fn add(batches: &mut Batches) {
    headings(batches);
    log_numbers(batches);
    dead_edges(batches);
    key_orders(batches);
    partner_orders(batches);
    many_keys(batches);
    start_indexes(batches);
    full_rooms(batches);
}

/// The smallest files, 218 bytes without an edge and 256 with one.
fn headings(batches: &mut Batches) {
    let one = || live(id_of(1, 2), id_of(5, 1), 7);
    for (word, direction) in [("forward", 0), ("inverse", 1)] {
        let heading = heading(direction);
        let name = format!("heading-only-{word}");
        batches.written(name, heading.clone(), 218);
        let bytes = [heading, one()].concat();
        batches.written(format!("one-edge-{word}"), bytes, 256);
    }
    for (word, ids) in [
        ("zero", [0; 3]),
        ("ones", [0xFF; 3]),
        ("swapped", [0x22, 0x33, 0x11]),
    ] {
        let bytes = [heading_with(0, ids), one()].concat();
        batches.written(format!("ids-{word}"), bytes, 256);
    }
    let inverse = [heading_with(1, [1, 2, 3]), rising(5).concat()].concat();
    batches.written("five-keys-inverse", inverse, size(5, 55, 5));
}

fn log_numbers(batches: &mut Batches) {
    for (word, log) in [("0", 0), ("most", u64::MAX), ("top-bit", 1 << 63)] {
        let bytes = batch(&[live(id_of(1, 2), id_of(5, 1), log)]);
        batches.written(format!("log-{word}"), bytes, 256);
    }
    // They need not rise.
    let logs = [5, u64::MAX, 0, 0x0123_4567_89AB_CDEF, 5, 0];
    let edges: Vec<Vec<u8>> = (0..6)
        .map(|i| live(id_of(1, 2), id_of(0, i), logs[i as usize]))
        .collect();
    batches.written("logs-of-any-order", batch(&edges), size(1, 2 + 6 * 9, 6));
}

/// The first, the last, all, or every third edge dead, in whole tombstone bytes
/// and in others.
fn dead_edges(batches: &mut Batches) {
    for count in [1, 2, 7, 8, 9, 16, 17, 64] {
        let mut add = |word: &str, is_dead: &dyn Fn(u64) -> bool| {
            let edge = |i: u64| {
                let edge = if is_dead(i) { dead } else { live };
                edge(id_of(7, 8), id_of(0, i), i)
            };
            let edges: Vec<Vec<u8>> = (0..count).map(edge).collect();
            let size = size_with_dead(1, 2 + 9 * count, count);
            batches.written(format!("{count}-edges-{word}"), batch(&edges), size);
        };
        add("all-dead", &|_| true);
        add("first-dead", &|i| i == 0);
        add("last-dead", &|i| i + 1 == count);
        add("third-dead", &|i| i % 3 == 0);
    }
    // One edge for each key, so that the marks go over the groups.
    let edges: Vec<Vec<u8>> = (0..20)
        .map(|i| {
            let edge = if i * i % 5 == 1 { dead } else { live };
            edge(id_of(1, i), id_of(1, 20 - i), i)
        })
        .collect();
    let size = size_with_dead(20, 20 * 11, 20);
    batches.written("20-keys-some-dead", batch(&edges), size);
}

/// Keys that rise as big-endian numbers, and would not if they were read
/// otherwise.
fn key_orders(batches: &mut Batches) {
    let mut keyed = |name: &str, keys: &[(u64, u64)]| {
        let edges: Vec<Vec<u8>> = keys
            .iter()
            .map(|&(upper, lower)| live(id_of(upper, lower), id_of(3, 3), 1))
            .collect();
        let count = keys.len() as u64;
        let size = size(count, 11 * count, count);
        batches.written(format!("keys-{name}"), batch(&edges), size);
    };
    keyed(
        "fall-as-little-endian",
        &[(1, 2 << 56), (1, (2 << 56) + 1), (2, 0)],
    );
    keyed("fall-as-signed", &[((1 << 63) - 1, 0), (1 << 63, 0)]);
    keyed("fall-in-lower-half", &[(1, u64::MAX), (2, 0)]);
    keyed("differ-in-first-byte", &[(1 << 56, 5), (2 << 56, 5)]);
    keyed("differ-in-last-byte", &[(7, 0xFE), (7, 0xFF)]);
    keyed("first-and-last-possible", &[(0, 0), (u64::MAX, u64::MAX)]);
}

/// Partners that rise under one key, and partners that need not under two.
fn partner_orders(batches: &mut Batches) {
    let key = id_of(4, 4);
    let mut partners = |name: &str, halves: &[(u64, u64)], partner_bytes: u64| {
        let edges: Vec<Vec<u8>> = halves
            .iter()
            .map(|&(upper, lower)| live(key, id_of(upper, lower), 1))
            .collect();
        let size = size(1, partner_bytes, halves.len() as u64);
        batches.written(format!("partners-{name}"), batch(&edges), size);
    };
    partners("rise-in-lower-half", &[(5, 1), (5, 2), (5, 3)], 2 + 27);
    partners("rise-in-upper-half", &[(5, 9), (6, 8), (7, 7)], 2 + 27);
    partners("fall-as-little-endian", &[(5, 2), (5, 1 << 56)], 2 + 18);
    partners("fall-as-signed", &[(5, 1), (5, 1 << 63)], 2 + 18);
    partners("end-to-end", &[(0, 0), (0, u64::MAX), (1, 0)], 2 + 27);

    let edges = [
        live(id_of(1, 1), id_of(9, 9), 1),
        dead(id_of(1, 2), id_of(1, 1), 2),
        live(id_of(1, 2), id_of(1, 2), 3),
        live(id_of(1, 3), id_of(0, 0), 4),
        live(id_of(2, 0), id_of(1, 1), 5),
    ];
    let size = size_with_dead(4, 11 + 20 + 11 + 11, 5);
    batches.written("partners-fall-where-keys-rise", batch(&edges), size);
}

fn many_keys(batches: &mut Batches) {
    for count in [2, 3, 255, 256, 257, 300] {
        let edges: Vec<Vec<u8>> = (0..count)
            .map(|i| live(id_of(0x100 * i, i), id_of(i % 128, 0), i))
            .collect();
        let size = size(count, 11 * count, count);
        batches.written(format!("{count}-keys"), batch(&edges), size);
    }
}

/// On both sides of the key count from which on there is a start index: the keys
/// decide, not the edges.
fn start_indexes(batches: &mut Batches) {
    let key = |i: u64| id_of(0x100 * i, i);
    for count in [1_024, 1_025] {
        let mut add = |word: &str, edges: Vec<Vec<u8>>, size: u64| {
            batches.written(format!("{count}-keys-{word}"), batch(&edges), size);
        };
        let ones = |edge: fn(u64) -> bool| -> Vec<Vec<u8>> {
            let record = |i| if edge(i) { dead } else { live };
            let edge = |i: u64| record(i)(key(i), id_of(i % 128, 0), i);
            (0..count).map(edge).collect()
        };
        add("live", ones(|_| false), size(count, 11 * count, count));
        let size_dead = size_with_dead(count, 11 * count, count);
        add("some-dead", ones(|i| i % 7 == 3), size_dead);
        // Degrees 1, 2 and 3 in turn.
        let degrees = || (0..count).map(|i| (i, 1 + i % 3));
        let edges = degrees().flat_map(|(i, degree)| {
            (0..degree).map(move |j| live(key(i), id_of(j, i), 1_000 * i + j))
        });
        let sum: u64 = degrees().map(|(_, degree)| degree).sum();
        let size = size(count, 2 * count + 9 * sum, sum);
        add("of-three-degrees", edges.collect(), size);
    }
}

/// Files that fill the room exactly, and that are one byte too long for it.
fn full_rooms(batches: &mut Batches) {
    for (word, split, dense, over) in [("filled", 2_693, 2_604, 0), ("passed", 2_655, 2_637, 1)] {
        let edge = |i: u64| {
            let is_dense = i % 2 == 1 && i / 2 < dense;
            let upper = if is_dense { 1 << 60 } else { 1 };
            live(id_of(i, i * i), id_of(upper, i), 3 * i)
        };
        let edges: Vec<Vec<u8>> = (0..split + dense).map(edge).collect();
        let keys = split + dense;
        let size = size(keys, 11 * split + 18 * dense, keys);
        assert_eq!(size, ROOM as u64 + over);
        batches.written(format!("room-{word}"), batch(&edges), size);
    }
}
