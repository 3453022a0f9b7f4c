//! Refusal 24: records that are unknown, cut or misplaced.

use super::records::{batch, dead, edge, heading, live, place, rising};
use super::Batches;
use crate::numbers::id_of;

pub fn add(batches: &mut Batches) {
    batches.refused("empty", Vec::new(), 24, 0);
    unknown_kinds(batches);
    cut_headings(batches);
    cut_edges(batches);
    directions(batches);
    first_records(batches);
    later_headings(batches);
    two_faults(batches);
}

/// In place of the heading, as a lone byte, and among nine edges.
fn unknown_kinds(batches: &mut Batches) {
    for kind in [0, 4, 5, 0x11, 0x80, 0x81, 0x83, 255] {
        batches.refused(format!("lone-byte-{kind}"), vec![kind], 24, 0);
        let mut bytes = batch(&rising(2));
        bytes[0] = kind;
        batches.refused(format!("kind-{kind}-first"), bytes, 24, 0);
        let bytes = [heading(0), vec![kind]].concat();
        let name = format!("kind-{kind}-alone-after-heading");
        batches.refused(name, bytes, 24, place(1));
        for index in [1, 5, 9] {
            let mut bytes = batch(&rising(9));
            bytes[place(index)] = kind;
            let name = format!("kind-{kind}-at-record-{index}");
            batches.refused(name, bytes, 24, place(index));
        }
        let bytes = [batch(&rising(3)), vec![kind]].concat();
        batches.refused(format!("kind-{kind}-after-all"), bytes, 24, place(4));
    }
    let zeros = [batch(&rising(3)), vec![0; 41]].concat();
    batches.refused("zeros-after-all", zeros, 24, place(4));
}

fn cut_headings(batches: &mut Batches) {
    for length in [1, 2, 3, 17, 18, 34, 41, 48, 49] {
        let bytes = heading(1)[..length].to_vec();
        batches.refused(format!("heading-cut-to-{length}"), bytes, 24, 0);
    }
}

/// The last record is cut, with none, one or eight before it.
fn cut_edges(batches: &mut Batches) {
    for (word, edge) in [("live", live as fn(_, _, _) -> _), ("dead", dead)] {
        for length in [1, 2, 16, 17, 32, 33, 34, 40] {
            for before in [0, 1, 8] {
                let mut records = rising(before);
                let cut: Vec<u8> = edge(id_of(1 << 40, 0), id_of(1, 1), 1);
                records.push(cut[..length].to_vec());
                let name = format!("{word}-edge-cut-to-{length}-after-{before}");
                let at = place(before as usize + 1);
                batches.refused(name, batch(&records), 24, at);
            }
        }
    }
}

fn directions(batches: &mut Batches) {
    for direction in [2, 3, 8, 0x10, 0x80, 0x81, 255] {
        let name = format!("direction-{direction}");
        batches.refused(name, heading(direction), 24, 0);
        let bytes = [heading(direction), rising(3).concat()].concat();
        batches.refused(format!("direction-{direction}-edges"), bytes, 24, 0);
    }
}

/// Edges where the heading should be.
fn first_records(batches: &mut Batches) {
    let one = live(id_of(1, 2), id_of(5, 1), 7);
    batches.refused("no-heading-live", one.clone(), 24, 0);
    let one_dead = dead(id_of(1, 2), id_of(5, 1), 7);
    batches.refused("no-heading-dead", one_dead, 24, 0);
    batches.refused("no-heading-nine-edges", rising(9).concat(), 24, 0);
    let late = [one.clone(), heading(0)].concat();
    batches.refused("heading-after-edge", late, 24, 0);
    let cut = one[..20].to_vec();
    batches.refused("no-heading-edge-cut", cut, 24, 0);
}

/// A heading anywhere but first is misplaced, whatever else it is.
fn later_headings(batches: &mut Batches) {
    let cut = |length: usize| heading(0)[..length].to_vec();
    for (word, again) in [
        ("same", heading(0)),
        ("other-direction", heading(1)),
        ("bad-direction", heading(2)),
        ("cut-to-1", cut(1)),
        ("cut-to-41", cut(41)),
        ("cut-to-49", cut(49)),
    ] {
        for before in [0, 1, 4] {
            let mut records = rising(before);
            records.push(again.clone());
            let name = format!("heading-again-{word}-after-{before}");
            let at = place(before as usize + 1);
            batches.refused(name, batch(&records), 24, at);
        }
    }
    // Right edges follow it.
    let records = [rising(2).concat(), heading(0), rising(4).concat()];
    batches.refused("heading-again-amid", batch(&records), 24, place(3));
}

/// The first faulty record is told; in one record 24 comes before 25.
fn two_faults(batches: &mut Batches) {
    let unknown = || edge(4, id_of(3, 0), id_of(1, 1), 1);
    let low = || live(id_of(0, 0), id_of(0, 0), 0);
    let mut add = |name: &str, tail: &[Vec<u8>], number: u8, index: usize| {
        let records = [rising(3), tail.to_vec()].concat();
        batches.refused(name, batch(&records), number, place(index));
    };
    add("unknown-then-order", &[unknown(), low()], 24, 4);
    add("order-then-unknown", &[low(), unknown()], 25, 4);
    add("order-then-cut", &[low(), low()[..40].to_vec()], 25, 4);
    add("order-then-heading", &[low(), heading(0)], 25, 4);
    add("heading-then-order", &[heading(0), low()], 24, 4);
    add("unknown-then-unknown", &[unknown(), unknown()], 24, 4);
    add("order-then-order", &[low(), low()], 25, 4);
    add("cut-and-out-of-order", &[low()[..40].to_vec()], 24, 4);
    add("cut-before-its-log-number", &[low()[..33].to_vec()], 24, 4);
    let unknown_low = || edge(9, id_of(0, 0), id_of(0, 0), 0);
    add("unknown-and-out-of-order", &[unknown_low()], 24, 4);
    let bytes = [heading(2), low(), low()].concat();
    batches.refused("direction-then-order", bytes, 24, 0);
    let bytes = [heading(2)[..30].to_vec()].concat();
    batches.refused("direction-and-cut", bytes, 24, 0);
}
