//! Files with many log numbers. A reader may take the first, then blocks of 80
//! that it holds to the smallest and largest so far, and what is left, the tail,
//! one by one.

use super::{add_told, key, Files, Told};
use crate::corpus::open_files::samples::{live, split};
use crate::groups::Edge;

const BLOCK: usize = 80;
const HALF: u64 = 1 << 63;
const MOST: u64 = u64::MAX;

/// Places in a block.
const PLACES: [(&str, usize); 5] = [
    ("first", 0),
    ("second", 1),
    ("middle", 39),
    ("last-but-one", 78),
    ("last", 79),
];
const MIDDLE: usize = 39;

pub fn add(files: &mut Files) {
    narrow(files);
    wide(files);
    tails(files);
    long_tails(files);
    half_spans(files);
    half_away(files);
    orders(files);
    one_out_of_order(files);
    both_ends(files);
}

/// One group of 80 to 255 live edges with these log numbers.
fn add_logs(files: &mut Files, name: &str, logs: &[u64], extremes: [u64; 2]) {
    let edge = |(&log, lower)| live(4, lower, log);
    let edges: Vec<Edge> = logs.iter().zip(1..).map(edge).collect();
    let told = Told {
        keys: [key(0); 2],
        tombstones: 0,
        degree: logs.len() as u64,
        logs: extremes,
        buckets: match logs.len() {
            80..=127 => "6:1",
            _ => "7:1",
        },
    };
    let group = split(key(0), &edges);
    add_told(files, &format!("logs-{name}"), &[group], told);
}

/// The edge at this place of a block. The blocks are 1, 2 and so on.
fn at(block: usize, place: usize) -> usize {
    1 + BLOCK * (block - 1) + place
}

/// These numbers over and over, as many as that.
fn filled(count: usize, numbers: &[u64]) -> Vec<u64> {
    numbers.iter().copied().cycle().take(count).collect()
}

/// One new end in the first block, after a single number, and the other one in
/// the second block. All others in these blocks are `calm`.
fn narrow(files: &mut Files) {
    let most = |below: [u64; 2]| below.map(|below| MOST - below);
    let (all, some, rest) = (&PLACES[..], &PLACES[..3], &PLACES[3..]);
    for (name, places, calm, ends, extremes) in [
        (
            "largest-then-smallest",
            all,
            [1_500, 1_600],
            [2_000, 1_000],
            [1_000, 2_000],
        ),
        (
            "smallest-then-largest",
            all,
            [1_500, 1_400],
            [1_000, 2_000],
            [1_000, 2_000],
        ),
        ("largest-then-0", some, [5, 6], [9, 0], [0, 9]),
        ("0-then-largest", rest, [5, 4], [0, 9], [0, 9]),
        (
            "smallest-then-most",
            some,
            most([5, 6]),
            most([9, 0]),
            most([9, 0]),
        ),
        (
            "most-then-smallest",
            rest,
            most([5, 4]),
            most([0, 9]),
            most([9, 0]),
        ),
    ] {
        for &(word, place) in places {
            let mut logs = filled(161, &[calm[0]]);
            logs[at(2, 0)..].fill(calm[1]);
            logs[at(1, place)] = ends[0];
            logs[at(2, place)] = ends[1];
            add_logs(files, &format!("{name}-{word}"), &logs, extremes);
        }
    }
}

/// A span of 5 to 2^64 - 5 before a new smallest in the second block and a new
/// largest in the third.
fn wide(files: &mut Files) {
    for (word, place) in PLACES {
        let mut logs = filled(241, &[5, MOST - 4, HALF, 6, MOST - 5, HALF - 1]);
        logs[at(2, place)] = 4;
        logs[at(3, place)] = MOST - 3;
        add_logs(files, &format!("wide-{word}"), &logs, [4, MOST - 3]);
    }
}

/// A new end in a tail of one.
fn tails(files: &mut Files) {
    for (word, count, before, last, extremes) in [
        ("smallest", 82, [1_500, 1_600], 1_000, [1_000, 1_600]),
        ("largest", 82, [1_500, 1_600], 2_000, [1_500, 2_000]),
        ("0", 82, [5, 6], 0, [0, 6]),
        ("near-0", 82, [5, 6], 9, [5, 9]),
        (
            "near-most",
            82,
            [MOST - 6, MOST - 5],
            MOST - 9,
            [MOST - 9, MOST - 5],
        ),
        ("most", 82, [MOST - 6, MOST - 5], MOST, [MOST - 6, MOST]),
        ("wide-smallest", 162, [5, MOST - 4], 4, [4, MOST - 4]),
        ("wide-largest", 162, [5, MOST - 4], MOST - 3, [5, MOST - 3]),
    ] {
        let mut logs = filled(count, &before);
        logs[count - 1] = last;
        add_logs(files, &format!("tail-{word}"), &logs, extremes);
    }
}

/// Both ends in a tail of 79, without a block before it and with one.
fn long_tails(files: &mut Files) {
    for (count, first, last) in [(80, 1, 79), (160, 81, 159)] {
        for (word, ends) in [
            ("smallest-then-largest", [1_000, 2_000]),
            ("largest-then-smallest", [2_000, 1_000]),
        ] {
            let mut logs = filled(count, &[1_500, 1_600]);
            logs[first] = ends[0];
            logs[last] = ends[1];
            let name = format!("tail-of-{count}-{word}");
            add_logs(files, &name, &logs, [1_000, 2_000]);
        }
    }
}

/// Spans of about 2^63, and a number just outside, in the middle of the second
/// block; and one at the distance 2^63 from a span that leaves room for it.
fn half_spans(files: &mut Files) {
    let [least, less, half, more] = [998, 999, 1_000, 1_001].map(|low| low + HALF);
    for (word, [low, high], outside, extremes) in [
        ("less-2-below", [1_000, least], 999, [999, least]),
        ("less-2-above", [1_000, least], less, [1_000, less]),
        ("less-1-below", [1_000, less], 999, [999, less]),
        ("less-1-above", [1_000, less], half, [1_000, half]),
        ("below", [1_000, half], 999, [999, half]),
        ("above", [1_000, half], more, [1_000, more]),
        ("and-1-below", [1_000, more], 999, [999, more]),
        ("and-1-above", [1_000, more], more + 1, [1_000, more + 1]),
        ("less-1-far-below", [HALF, MOST], 0, [0, MOST]),
        ("less-1-far-above", [0, HALF - 1], MOST, [0, MOST]),
    ] {
        let mut logs = filled(161, &[low, high, low + 1, high - 1]);
        logs[at(2, MIDDLE)] = outside;
        add_logs(files, &format!("span-half-{word}"), &logs, extremes);
    }
}

/// About 2^63 away from all others, in the middle of the first block.
fn half_away(files: &mut Files) {
    for (word, others, away, extremes) in [
        ("above-less-1", 1_500, 1_499 + HALF, [1_500, 1_499 + HALF]),
        ("above", 1_500, 1_500 + HALF, [1_500, 1_500 + HALF]),
        ("above-and-1", 1_500, 1_501 + HALF, [1_500, 1_501 + HALF]),
        ("below-less-1", HALF + 70, 71, [71, HALF + 70]),
        ("below", HALF + 70, 70, [70, HALF + 70]),
        ("below-and-1", HALF + 70, 69, [69, HALF + 70]),
    ] {
        let mut logs = filled(81, &[others]);
        logs[at(1, MIDDLE)] = away;
        add_logs(files, &format!("half-{word}"), &logs, extremes);
    }
}

fn orders(files: &mut Files) {
    let rising: Vec<u64> = (1_000..1_081).collect();
    add_logs(files, "rising-81", &rising, [1_000, 1_080]);
    let falling: Vec<u64> = (1_000..1_081).rev().collect();
    add_logs(files, "falling-81", &falling, [1_000, 1_080]);
    // The steps are 2^56, so that 128 of them make 2^63.
    let rising: Vec<u64> = (0..241).map(|i| i << 56).collect();
    add_logs(files, "rising-241-wide", &rising, [0, 240 << 56]);
    let falling: Vec<u64> = (0..241).map(|i| MOST - (i << 56)).collect();
    let extremes = [MOST - (240 << 56), MOST];
    add_logs(files, "falling-241-wide", &falling, extremes);
    add_logs(files, "81-the-same", &[1_500; 81], [1_500, 1_500]);
    let alternating = filled(161, &[0, MOST]);
    add_logs(files, "alternating-from-0", &alternating, [0, MOST]);
    let alternating = filled(82, &[MOST, 0]);
    add_logs(files, "alternating-from-most", &alternating, [0, MOST]);
}

/// Log numbers rise or fall but for one.
fn one_out_of_order(files: &mut Files) {
    let rising: Vec<u64> = (1_000..1_161).collect();
    let falling: Vec<u64> = (1_000..1_081).rev().collect();
    for (word, logs, edge, log, extremes) in [
        (
            "rising-but-below-in-1",
            &rising[..81],
            at(1, MIDDLE),
            500,
            [500, 1_080],
        ),
        (
            "rising-but-below-in-2",
            &rising,
            at(2, 78),
            500,
            [500, 1_160],
        ),
        (
            "rising-but-above-in-2",
            &rising,
            at(2, 1),
            5_000,
            [1_000, 5_000],
        ),
        (
            "falling-but-above-in-1",
            &falling,
            at(1, MIDDLE),
            5_000,
            [1_000, 5_000],
        ),
    ] {
        let mut logs = logs.to_vec();
        logs[edge] = log;
        add_logs(files, word, &logs, extremes);
    }
}

/// Both ends in the first block, one of them at its first place.
fn both_ends(files: &mut Files) {
    for (word, first, inside) in [("smallest", 1_000, 2_000), ("largest", 2_000, 1_000)] {
        let mut logs = filled(81, &[1_500]);
        logs[at(1, 0)] = first;
        logs[at(1, MIDDLE)] = inside;
        let name = format!("both-ends-{word}-first");
        add_logs(files, &name, &logs, [1_000, 2_000]);
    }
}
