//! Files about the summary. Beside each stands the line that its author has
//! written down.

mod blocks;

use super::Files;
use crate::corpus::open_files::samples::{dead, dense, heading_only, live, split};
use crate::format::kind;
use crate::groups::Form::{self, Dense, Split};
use crate::groups::{self, Edge, Group};
use crate::layout::Section;
use crate::numbers::{hex, id_of, Id};

pub fn add(files: &mut Files) {
    no_edges(files);
    one_degree(files);
    mixed_degrees(files);
    largest_degree(files);
    keys(files);
    log_numbers(files);
    extreme_groups(files);
    blocks::add(files);
    dead_edges(files);
    tombstone_bytes(files);
}

/// What is told of a file with edges.
struct Told<'a> {
    keys: [Id; 2],
    tombstones: u64,
    degree: u64,
    logs: [u64; 2],
    buckets: &'a str,
}

/// A file of these groups.
fn add_told(files: &mut Files, name: &str, groups: &[Group], told: Told) {
    let edges = groups::edges(groups).count();
    let [smallest, largest] = told.keys.map(|key| hex(&key));
    let line = format!(
        "keys {} edges {edges} tombstones {} degree {} from {smallest} to {largest} \
         logs {} to {} buckets {}",
        groups.len(),
        told.tombstones,
        told.degree,
        told.logs[0],
        told.logs[1],
        told.buckets
    );
    let layout = groups::layout(groups, 24);
    files.summed(format!("summary-{name}"), layout, line);
}

/// The key of a group by its index.
fn key(index: usize) -> Id {
    id_of(1, index as u64)
}

/// Edges with the log numbers 1, 2 and so on.
fn numbered(degree: u64) -> Vec<Edge> {
    (1..=degree).map(|i| live(9, i, i)).collect()
}

/// Groups of these degrees under the keys (1, 0), (1, 1) and so on. Their log
/// numbers each begin with 1.
fn of_degrees(degrees: &[(Form, u64)]) -> Vec<Group> {
    let group = |(i, &(form, degree)): (usize, &(Form, u64))| Group {
        key: key(i),
        form,
        edges: numbered(degree),
    };
    degrees.iter().enumerate().map(group).collect()
}

/// Groups of live edges, of which the largest has this degree.
fn add_degrees(
    files: &mut Files,
    name: &str,
    degrees: &[(Form, u64)],
    largest: u64,
    buckets: &str,
) {
    let told = Told {
        keys: [key(0), key(degrees.len() - 1)],
        tombstones: 0,
        degree: largest,
        logs: [1, largest],
        buckets,
    };
    add_told(files, name, &of_degrees(degrees), told);
}

fn no_edges(files: &mut Files) {
    let line = "keys 0 edges 0 tombstones 0 degree 0 without edges buckets";
    files.summed("summary-no-edges", heading_only(), line.to_string());
    let more = heading_only().with(|l| {
        l.sections.push(Section::new(kind::TOMBSTONES, []));
        l.sections.push(Section::new(0x0555, *b"no edges"));
    });
    files.summed("summary-no-edges-more-sections", more, line.to_string());
}

/// One key. Its degree is on either side of a power of two.
fn one_degree(files: &mut Files) {
    let degrees = [
        (1, "0:1"),
        (2, "1:1"),
        (3, "1:1"),
        (4, "2:1"),
        (7, "2:1"),
        (8, "3:1"),
        (15, "3:1"),
        (16, "4:1"),
        (31, "4:1"),
        (32, "5:1"),
        (63, "5:1"),
        (64, "6:1"),
        (127, "6:1"),
        (128, "7:1"),
        (255, "7:1"),
        (256, "8:1"),
        (1_023, "9:1"),
        (1_024, "10:1"),
    ];
    for (degree, buckets) in degrees {
        let name = format!("split-degree-{degree}");
        add_degrees(files, &name, &[(Split, degree)], degree, buckets);
    }
    for (degree, buckets) in &degrees[..8] {
        let name = format!("dense-degree-{degree}");
        add_degrees(files, &name, &[(Dense, *degree)], *degree, buckets);
    }
}

fn mixed_degrees(files: &mut Files) {
    let both = [(Dense, 1_023), (Split, 1_024)];
    add_degrees(files, "degrees-1023-1024", &both, 1_024, "9:1 10:1");
    let both = [(Dense, 1_024), (Split, 1_023)];
    add_degrees(files, "degrees-1024-1023", &both, 1_024, "9:1 10:1");
    let sides = [
        1, 2, 3, 4, 7, 8, 15, 16, 31, 32, 63, 64, 127, 128, 255, 256, 511, 512,
    ];
    let rising = sides.map(|degree| (Split, degree));
    let buckets = "0:1 1:2 2:2 3:2 4:2 5:2 6:2 7:2 8:2 9:1";
    add_degrees(files, "degrees-1-to-512", &rising, 512, buckets);
    let some = [3, 1, 1, 4, 2, 5, 1, 9, 1].map(|degree| match degree % 2 {
        0 => (Dense, degree),
        _ => (Split, degree),
    });
    add_degrees(
        files,
        "degrees-3-1-1-4-2-5-1-9-1",
        &some,
        9,
        "0:4 1:2 2:2 3:1",
    );
    let ones = [(Split, 1); 30];
    add_degrees(files, "degree-1-of-30-keys", &ones, 1, "0:30");
}

/// The largest degree is that of any key.
fn largest_degree(files: &mut Files) {
    for place in 0..4 {
        let mut degrees = [(Split, 1), (Dense, 2), (Split, 3), (Split, 2)];
        degrees[place] = (Split, 6);
        let buckets = match place {
            0 => "1:3 2:1",
            _ => "0:1 1:2 2:1",
        };
        let name = format!("largest-degree-of-key-{place}");
        add_degrees(files, &name, &degrees, 6, buckets);
    }
}

/// One edge for each key.
fn keys(files: &mut Files) {
    let (least, most) = ([0; 16], [0xFF; 16]);
    for (word, keys, buckets) in [
        ("least", &[least][..], "0:1"),
        ("most", &[most], "0:1"),
        ("least-and-most", &[least, most], "0:2"),
        ("least-first", &[least, key(0), key(9)], "0:3"),
        ("most-last", &[key(0), key(9), most], "0:3"),
        ("of-one-upper-half", &[key(3), key(4), key(5)], "0:3"),
        ("halves-swapped", &[id_of(1, u64::MAX), id_of(2, 0)], "0:2"),
        ("last-byte", &[id_of(7, 0xFF), id_of(7, 0x100)], "0:2"),
        ("first-bit", &[id_of(1, 1), id_of(1 << 63, 0)], "0:2"),
    ] {
        let groups = keys.iter().map(|&key| split(key, &[live(5, 1, 7)]));
        let groups: Vec<Group> = groups.collect();
        let told = Told {
            keys: [keys[0], keys[keys.len() - 1]],
            tombstones: 0,
            degree: 1,
            logs: [7, 7],
            buckets,
        };
        add_told(files, &format!("keys-{word}"), &groups, told);
    }
}

/// Three groups of two live edges with these log numbers.
fn three_pairs(logs: [u64; 6]) -> Vec<Group> {
    let pair = |(i, logs): (usize, &[u64])| {
        let edges = [live(4, 1, logs[0]), live(4, 2, logs[1])];
        split(key(i), &edges)
    };
    logs.chunks(2).enumerate().map(pair).collect()
}

fn add_pairs(files: &mut Files, name: &str, logs: [u64; 6], extremes: [u64; 2]) {
    let told = Told {
        keys: [key(0), key(2)],
        tombstones: 0,
        degree: 2,
        logs: extremes,
        buckets: "1:3",
    };
    add_told(files, name, &three_pairs(logs), told);
}

/// The ends of the log numbers: alone, and at each place among others.
fn log_numbers(files: &mut Files) {
    for (word, log, extremes) in [("0", 0, [0, 50]), ("most", u64::MAX, [50, u64::MAX])] {
        let alone = Told {
            keys: [key(0); 2],
            tombstones: 0,
            degree: 1,
            logs: [log; 2],
            buckets: "0:1",
        };
        let group = split(key(0), &[live(4, 1, log)]);
        add_told(files, &format!("log-{word}-alone"), &[group], alone);
        for place in 0..6 {
            let mut logs = [50; 6];
            logs[place] = log;
            let name = format!("log-{word}-at-{place}-of-6");
            add_pairs(files, &name, logs, extremes);
        }
    }
}

/// The groups that have the smallest and the largest log number.
fn extreme_groups(files: &mut Files) {
    let (top, most) = (1 << 63, u64::MAX);
    for (word, logs, extremes) in [
        ("smallest-in-last-group", [5, 6, 5, 6, 6, 4], [4, 6]),
        ("largest-in-first-group", [7, 5, 5, 6, 5, 6], [5, 7]),
        ("from-last-to-first-group", [9, 8, 5, 5, 2, 1], [1, 9]),
        ("from-first-to-last-group", [1, 2, 5, 5, 8, 9], [1, 9]),
        ("of-middle-group", [5, 5, 0, most, 5, 5], [0, most]),
        ("of-middle-group-falling", [5, 5, most, 0, 5, 5], [0, most]),
        ("all-the-same", [7; 6], [7, 7]),
        (
            "by-bytes",
            [0x100, 0xFF, 0x201, 0xFE01, 1 << 56, 0xFFFF],
            [0xFF, 1 << 56],
        ),
        (
            "around-half",
            [top, top - 1, top + 1, 1, 2, 3],
            [1, top + 1],
        ),
    ] {
        add_pairs(files, &format!("logs-{word}"), logs, extremes);
    }
}

/// These groups with some edges dead, by the edge's number.
fn with_dead(mut groups: Vec<Group>, is_dead: impl Fn(usize) -> bool) -> Vec<Group> {
    let edges = groups.iter_mut().flat_map(|group| &mut group.edges);
    for (number, edge) in edges.enumerate() {
        edge.dead = is_dead(number);
    }
    groups
}

/// Groups of three edges, the last of what is left. Each remainder of 8 is
/// there; all edges are dead, only the last, or only those in the last byte.
fn dead_edges(files: &mut Files) {
    for (count, last, buckets) in [
        (9, 3, "1:3"),
        (10, 1, "0:1 1:3"),
        (11, 2, "1:4"),
        (12, 3, "1:4"),
        (13, 1, "0:1 1:4"),
        (14, 2, "1:5"),
        (15, 3, "1:5"),
        (16, 1, "0:1 1:5"),
    ] {
        let mut degrees = vec![(Split, 3); count / 3];
        if last < 3 {
            degrees.push((Dense, last));
        }
        for (word, first_dead) in [("all", 0), ("last", count - 1), ("last-byte", 8)] {
            let groups = with_dead(of_degrees(&degrees), |number| number >= first_dead);
            let told = Told {
                keys: [key(0), key(degrees.len() - 1)],
                tombstones: (count - first_dead) as u64,
                degree: 3,
                logs: [1, 3],
                buckets,
            };
            let name = format!("{count}-edges-{word}-dead");
            add_told(files, &name, &groups, told);
        }
    }
    dead_extremes(files);
}

/// All that is largest or smallest is of dead edges.
fn dead_extremes(files: &mut Files) {
    let groups = [
        split(key(0), &[dead(4, 1, 0)]),
        dense(key(1), &[live(4, 1, 5), live(4, 2, 6)]),
        split(
            key(2),
            &[dead(4, 1, 7), dead(4, 2, u64::MAX), dead(4, 3, 8)],
        ),
    ];
    let told = Told {
        keys: [key(0), key(2)],
        tombstones: 4,
        degree: 3,
        logs: [0, u64::MAX],
        buckets: "0:1 1:2",
    };
    add_told(files, "extremes-dead", &groups, told);
}

/// Four groups of 48 edges. Of the bytes 8 have one bit set, 8 all but one, 6
/// half of them, one none and one all: 8 + 56 + 24 + 0 + 8.
fn tombstone_bytes(files: &mut Files) {
    let mut bytes: Vec<u8> = (0..8).map(|bit| 1 << bit).collect();
    bytes.extend((0..8).map(|bit| !(1 << bit)));
    bytes.extend([0x55, 0xAA, 0x33, 0xCC, 0x0F, 0xF0, 0x00, 0xFF]);
    let is_dead = |number: usize| bytes[number / 8] >> (number % 8) & 1 == 1;
    let groups = with_dead(of_degrees(&[(Split, 48); 4]), is_dead);
    let told = Told {
        keys: [key(0), key(3)],
        tombstones: 96,
        degree: 48,
        logs: [1, 48],
        buckets: "5:4",
    };
    add_told(files, "tombstone-bytes", &groups, told);
}
