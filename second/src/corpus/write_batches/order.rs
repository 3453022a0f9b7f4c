//! Refusal 25: edges that do not increase by key, then by partner.

use super::records::{batch, dead, edge, live, place, rising};
use super::Batches;
use crate::batch::record::{DEAD, LIVE};
use crate::numbers::id_of;

pub fn add(batches: &mut Batches) {
    equal_edges(batches);
    two_edges(batches);
    amid_others(batches);
}

/// The same key and partner again, whatever the kinds and the log numbers.
fn equal_edges(batches: &mut Batches) {
    for (word, first, second) in [
        ("live-live", LIVE, LIVE),
        ("live-dead", LIVE, DEAD),
        ("dead-live", DEAD, LIVE),
        ("dead-dead", DEAD, DEAD),
    ] {
        for (log_word, log) in [("same-log", 7), ("higher-log", 8), ("lower-log", 6)] {
            let (key, partner) = (id_of(1, 2), id_of(5, 1));
            let records = [
                edge(first, key, partner, 7),
                edge(second, key, partner, log),
            ];
            let name = format!("equal-{word}-{log_word}");
            batches.refused(name, batch(&records), 25, place(2));
        }
    }
}

/// Two edges that would be in order if a key or partner were read otherwise,
/// or the one without the other.
fn two_edges(batches: &mut Batches) {
    let mut add = |name: &str, edges: [[u64; 4]; 2]| {
        let records = edges.map(|[a, b, c, d]| live(id_of(a, b), id_of(c, d), 1));
        let name = format!("order-{name}");
        batches.refused(name, batch(&records), 25, place(2));
    };
    add("key-falls", [[2, 0, 5, 1], [1, 0, 5, 1]]);
    add("key-falls-partner-rises", [[2, 0, 5, 1], [1, 0, 9, 9]]);
    add("key-falls-in-lower-half", [[2, 1, 5, 1], [2, 0, 5, 2]]);
    add("key-falls-lower-half-rises", [[2, 0, 5, 1], [1, 9, 5, 1]]);
    add("key-falls-by-last-bit", [[2, 3, 5, 1], [2, 2, 5, 1]]);
    add("key-falls-by-first-bit", [[1 << 63, 0, 5, 1], [0, 0, 5, 1]]);
    add(
        "key-rises-as-little-endian",
        [[1, 0x0201, 5, 1], [1, 0x0102, 5, 1]],
    );
    add("partner-falls", [[2, 0, 5, 2], [2, 0, 5, 1]]);
    add("partner-falls-upper-half", [[2, 0, 6, 0], [2, 0, 5, 9]]);
    add(
        "partner-falls-by-first-bit",
        [[2, 0, 1 << 63, 0], [2, 0, 1, 0]],
    );
    add(
        "partner-rises-as-little-endian",
        [[2, 0, 1, 0x0201], [2, 0, 1, 0x0102]],
    );
    add("key-and-partner-swapped", [[5, 1, 1, 2], [1, 2, 5, 1]]);
}

/// The fault at the second, a middle or the last of nine edges; and edges that
/// came earlier, but not just before.
fn amid_others(batches: &mut Batches) {
    for index in 2..=9 {
        let mut records = rising(9);
        records[index - 1] = records[index - 2].clone();
        let name = format!("equal-at-record-{index}");
        batches.refused(name, batch(&records), 25, place(index));
    }
    for index in [2, 5, 9] {
        let mut records = rising(9);
        records[index - 1] = dead(id_of(0, 9), id_of(9, 9), 9);
        let name = format!("order-key-low-at-record-{index}");
        batches.refused(name, batch(&records), 25, place(index));
        let mut records = rising(9);
        records.swap(index - 2, index - 1);
        let name = format!("order-swapped-at-record-{index}");
        batches.refused(name, batch(&records), 25, place(index));
    }
    // A high edge is right itself; the next one is not above it.
    let mut records = rising(9);
    records[3] = live(id_of(u64::MAX, 0), id_of(0, 0), 0);
    batches.refused("order-key-high-at-record-4", batch(&records), 25, place(5));
    let again = [rising(3), rising(1)].concat();
    batches.refused("order-first-edge-again", batch(&again), 25, place(4));
    let twice = [rising(3), rising(3)].concat();
    batches.refused("order-all-edges-again", batch(&twice), 25, place(4));
}
