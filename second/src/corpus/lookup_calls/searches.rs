//! The search: files with every small number of keys and some large ones.

use super::{ask, found, Files, Intended, LentRecord, Rooms};
use crate::corpus::open_files::samples::{dead, dense, live, split};
use crate::groups::{self, Edge, Group};
use crate::layout::Layout;
use crate::numbers::{id_number, id_of, Id};
use crate::random::Random;

pub fn add(files: &mut Files) {
    for count in (1..=9).chain([15, 16, 17]) {
        small(files, count);
    }
    thousand(files);
    longest(files);
}

/// Every key and every gap between two, in a file of single edges.
fn small(files: &mut Files, count: u64) {
    // Beside each key, the middle of three, the others are absent. They differ
    // from it in the upper half or in the lower one.
    let around = |i: u64| match i % 2 {
        0 => [id_of(2 * i, 5), id_of(2 * i, 6), id_of(2 * i, 7)],
        _ => [id_of(2 * i - 1, 6), id_of(2 * i, 6), id_of(2 * i + 1, 6)],
    };
    let groups: Vec<Group> = (0..count)
        .map(|i| split(around(i)[1], &[live(i, i, i)]))
        .collect();
    let layout = groups::layout(&groups, 24);
    let file = files.layout(format!("search-{count}"), &layout);
    let record = LentRecord::of_layout(&layout);
    for i in 0..count {
        let [before, key, after] = around(i);
        let question = ask(key).rooms(Rooms::exact(1));
        file.full(format!("key-{i}"), question.clone(), found(1, i));
        file.alone(format!("record-{i}"), question.by(&record), found(1, i));
        file.full(format!("before-{i}"), ask(before), Intended::Absent);
        if i % 2 == 1 || i + 1 == count {
            file.alone(format!("after-{i}"), ask(after), Intended::Absent);
        }
    }
    file.groups = Some(groups);
}

/// Keys with pseudo-random distances above a first one.
fn keys(random: &mut Random, count: usize) -> Vec<Id> {
    let mut upper = 0;
    (0..count)
        .map(|_| {
            upper += random.below(1 << 40) + 1;
            id_of(upper, random.number())
        })
        .collect()
}

/// A thousand keys with one to three edges each, in both forms.
fn thousand(files: &mut Files) {
    let mut random = Random::new(5);
    let groups: Vec<Group> = keys(&mut random, 1000)
        .into_iter()
        .map(|key| {
            let degree = random.below(3) + 1;
            let edges: Vec<Edge> = (0..degree)
                .map(|i| {
                    let edge = if random.below(4) == 0 { dead } else { live };
                    edge(
                        random.below(1000) + 1000 * i,
                        random.number(),
                        random.number(),
                    )
                })
                .collect();
            let form = if random.below(4) == 0 { dense } else { split };
            form(key, &edges)
        })
        .collect();
    let mut indices = vec![0, 1, 2, 249, 250, 499, 500, 501, 750, 998, 999];
    indices.extend((0..30).map(|_| random.below(1000) as usize));
    some_keys(
        files,
        "thousand",
        groups::layout(&groups, 32),
        groups,
        &indices,
    );
}

/// As many bytes as a file of this corpus may have, and as many keys of one
/// edge as they hold.
fn longest(files: &mut Files) {
    let mut random = Random::new(6);
    let groups: Vec<Group> = keys(&mut random, 6892)
        .into_iter()
        .map(|key| {
            split(
                key,
                &[live(random.below(128), random.number(), random.number())],
            )
        })
        .collect();
    let mut layout = groups::layout(&groups, 24);
    layout.last_gap = vec![0; (super::LONGEST_FILE as u64 - layout.size()) as usize];
    let mut indices = vec![0, 1, 2, 3444, 3445, 3446, 3447, 6890, 6891];
    indices.extend((0..12).map(|_| random.below(6892) as usize));
    some_keys(files, "longest", layout, groups, &indices);
}

/// The keys with these indices and their neighbours, of which none is a key.
fn some_keys(files: &mut Files, name: &str, layout: Layout, groups: Vec<Group>, indices: &[usize]) {
    let file = files.layout(name, &layout);
    let record = LentRecord::of_layout(&layout);
    for (call, &index) in indices.iter().enumerate() {
        let key = groups[index].key;
        let answer = found(groups[index].edges.len() as u64, index as u64);
        file.full(format!("{call}-key-{index}"), ask(key), answer);
        file.both(
            format!("{call}-record-{index}"),
            ask(key).by(&record),
            answer,
        );
        let below = ask((id_number(&key) - 1).to_be_bytes());
        file.full(format!("{call}-below-{index}"), below, Intended::Absent);
        let above = ask((id_number(&key) + 1).to_be_bytes()).by(&record);
        file.alone(format!("{call}-above-{index}"), above, Intended::Absent);
    }
    file.full("lowest", ask([0x00; 16]), Intended::Absent);
    file.full("highest", ask([0xFF; 16]), Intended::Absent);
    file.groups = Some(groups);
}
