//! Refusal 20: the room in each output, for groups of many degrees.

use super::{ask, expect, found, Files, LentRecord, LookupFile, Question, Rooms};
use crate::corpus::open_files::samples::{dead, dense, live, split};
use crate::groups::{self, Edge, Group};
use crate::numbers::id_of;
use Lookup::{Alone, Both, Full};
use Room::{Enough, Short};

pub fn add(files: &mut Files) {
    let degrees = [1, 2, 3, 8, 127, 128, 200, 1000];
    let groups: Vec<Group> = degrees
        .iter()
        .flat_map(|&degree| {
            let edges = edges(degree);
            [
                split(id_of(u64::from(degree), 1), &edges),
                dense(id_of(u64::from(degree), 2), &edges),
            ]
        })
        .collect();
    let layout = groups::layout(&groups, 24);
    let file = files.layout("degrees", &layout);
    let record = LentRecord::of_layout(&layout);
    for (index, group) in groups.iter().enumerate() {
        let degree = group.edges.len() as u32;
        let question = ask(group.key);
        rooms(file, &question, degree, index as u64);
        if degree == 3 || degree == 1000 {
            rooms(file, &question.by(&record), degree, index as u64);
        }
    }
    file.groups = Some(groups);

    largest_group(files);
}

/// Edges with upper halves that stay, and that grow by little and by much.
fn edges(degree: u32) -> Vec<Edge> {
    let edge = |i: u64| {
        let edge = if i % 5 == 2 { dead } else { live };
        let upper = 3 * (i / 3) + (i / 100) * (1 << 40);
        edge(upper, (i << 32) + i % 7, u64::MAX - i * i)
    };
    (0..u64::from(degree)).map(edge).collect()
}

/// Each output exact, too short by little and by much, and too long.
fn rooms(file: &mut LookupFile, question: &Question, degree: u32, index: u64) {
    let form = if question.record.is_some() {
        "record"
    } else {
        "group"
    };
    let rows = all_at_once(degree)
        .into_iter()
        .chain(partners_short(degree))
        .chain(logs_or_marks_short(degree))
        .chain(several_short(degree));
    for (lookup, word, rooms, room) in rows {
        let name = format!("{form}-{index}-{word}");
        let question = question.clone().rooms(rooms);
        let answer = match room {
            Enough => found(u64::from(degree), index),
            Short => expect(20, u64::from(degree)),
        };
        match lookup {
            Both => file.both(name, question, answer),
            Full => file.full(name, question, answer),
            Alone => file.alone(name, question, answer),
        }
    }
}

enum Lookup {
    Both,
    Full,
    Alone,
}

enum Room {
    Enough,
    Short,
}

/// Which lookup is made with which rooms, its name, and whether they are
/// enough for it.
type Row = (Lookup, &'static str, Rooms, Room);

fn all_at_once(degree: u32) -> [Row; 4] {
    let much = Rooms {
        partners: 16 * degree + 1000,
        logs: degree + 100,
        marks: degree + 77,
    };
    [
        (Both, "exact", Rooms::exact(degree), Enough),
        (Both, "one-more", Rooms::more(degree), Enough),
        (Both, "much-more", much, Enough),
        (Both, "none", Rooms::NONE, Short),
    ]
}

fn partners_short(degree: u32) -> [Row; 4] {
    let exact = Rooms::exact(degree);
    let room = |partners: u32| Rooms { partners, ..exact };
    [
        (Both, "partners-short", room(exact.partners - 1), Short),
        (Full, "partners-16-short", room(16 * (degree - 1)), Short),
        (Alone, "partners-as-edges", room(degree), Short),
        (Full, "partners-none", room(0), Short),
    ]
}

/// Partners alone have no use for these two.
fn logs_or_marks_short(degree: u32) -> [Row; 6] {
    let exact = Rooms::exact(degree);
    let logs = |logs: u32| Rooms { logs, ..exact };
    let marks = |marks: u32| Rooms { marks, ..exact };
    [
        (Full, "logs-short", logs(degree - 1), Short),
        (Alone, "logs-none", logs(0), Enough),
        (Full, "logs-none", logs(0), Short),
        (Full, "marks-short", marks(degree - 1), Short),
        (Alone, "marks-none", marks(0), Enough),
        (Full, "marks-none", marks(0), Short),
    ]
}

fn several_short(degree: u32) -> [Row; 2] {
    let marks_only = Rooms {
        marks: 4 * degree,
        ..Rooms::NONE
    };
    let each_short = Rooms {
        partners: 16 * degree - 1,
        logs: degree - 1,
        marks: degree - 1,
    };
    [
        (Both, "marks-only", marks_only, Short),
        (Full, "each-short", each_short, Short),
    ]
}

/// The largest group for which a call may lend enough, after a single edge.
fn largest_group(files: &mut Files) {
    let degree = Rooms::MOST.logs;
    let edges: Vec<Edge> = (0..u64::from(degree))
        .map(|i| live(i / 2, i, i << 20))
        .collect();
    let groups = vec![
        split(id_of(1, 1), &[dead(0, 0, 1)]),
        split(id_of(1, 2), &edges),
    ];
    let layout = groups::layout(&groups, 32);
    let file = files.layout("largest-group", &layout);
    let question = ask(groups[1].key);
    let answer = found(u64::from(degree), 1);
    let short = expect(20, u64::from(degree));
    file.both("exact", question.clone().rooms(Rooms::MOST), answer);
    let record = LentRecord::of_layout(&layout);
    file.both(
        "record",
        question.clone().rooms(Rooms::MOST).by(&record),
        answer,
    );
    let rooms = |change: fn(&mut Rooms)| {
        let mut rooms = Rooms::MOST;
        change(&mut rooms);
        question.clone().rooms(rooms)
    };
    file.both("partners-short", rooms(|r| r.partners -= 1), short);
    file.full("logs-short", rooms(|r| r.logs -= 1), short);
    file.full("marks-short", rooms(|r| r.marks -= 1), short);
    file.alone("others-none", rooms(|r| (r.logs, r.marks) = (0, 0)), answer);
    file.both("first", ask(groups[0].key).rooms(Rooms::MOST), found(1, 0));
    file.groups = Some(groups);
}
