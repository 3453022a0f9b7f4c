//! The sorts of files that the corpus has to hold for the summary.

mod blocks;

use crate::check::Tally;
use crate::corpus::check_files::CheckFile;
use crate::full_check::full_check;
use crate::groups::{edges, Edge, Form, Group};

/// What is asked of the groups of a file.
type Sort = (String, Box<dyn Fn(&[Group]) -> bool>);

fn sort(what: impl Into<String>, is: impl Fn(&[Group]) -> bool + 'static) -> Sort {
    (what.into(), Box::new(is))
}

/// There is a file of each sort.
pub fn check(tally: &mut Tally, files: &[CheckFile]) {
    let checked = files.iter().map(|file| full_check(&file.bytes));
    let contents: Vec<Vec<Group>> = checked.flatten().map(|found| found.groups).collect();
    let mut sorts = degree_sorts();
    sorts.extend(key_sorts());
    sorts.extend(log_sorts());
    sorts.extend(dead_sorts());
    for (what, is) in &sorts {
        let found = contents.iter().any(|groups| is(groups));
        tally.same(&format!("a file with {what}"), found, true);
    }
    let intended = files.iter().filter(|file| file.summed.is_some()).count();
    tally.notes.push(format!(
        "summaries: {} files, {intended} with an intended line, {} sorts",
        contents.len(),
        sorts.len()
    ));
    blocks::check(tally, files);
}

fn degree(group: &Group) -> usize {
    group.edges.len()
}

/// Degrees alone and among others, in both forms where there is room, and both
/// sides of each power of two.
fn degree_sorts() -> Vec<Sort> {
    let mut sorts = vec![sort("no edges", |groups| groups.is_empty())];
    for form in [Form::Split, Form::Dense] {
        for wanted in [1, 2, 3, 4, 1_023, 1_024] {
            let is = move |group: &Group| group.form == form && degree(group) == wanted;
            let others = format!("{form:?} degree {wanted} among others");
            sorts.push(sort(others, move |groups| {
                groups.len() > 1 && groups.iter().any(is)
            }));
            if wanted < 5 || form == Form::Split {
                let alone = format!("{form:?} degree {wanted} alone");
                sorts.push(sort(alone, move |groups| {
                    groups.len() == 1 && is(&groups[0])
                }));
            }
        }
    }
    for power in (1..=10).map(|exponent| 1 << exponent) {
        for wanted in [power - 1, power] {
            sorts.push(sort(format!("degree {wanted}"), move |groups| {
                groups.iter().any(|group| degree(group) == wanted)
            }));
        }
    }
    for (word, place) in [("first", 0), ("middle", 1), ("last", 2)] {
        let what = format!("the largest degree in the {word} group only");
        sorts.push(sort(what, move |groups| {
            only_in(groups, place, largest_degree)
        }));
    }
    sorts
}

fn largest_degree(groups: &[Group]) -> Option<u64> {
    groups.iter().map(|group| degree(group) as u64).max()
}

/// Is this number of all groups that of one group alone: of the first (0), of
/// one between (1), or of the last (2)?
fn only_in(groups: &[Group], place: usize, of: fn(&[Group]) -> Option<u64>) -> bool {
    let n = groups.len();
    let has_it = |&i: &usize| of(&groups[i..=i]) == of(groups);
    let places: Vec<usize> = (0..n).filter(has_it).collect();
    let [at] = places[..] else {
        return false;
    };
    n >= 3 && place == usize::from(at > 0) + usize::from(at == n - 1)
}

fn key_sorts() -> Vec<Sort> {
    let mut sorts = Vec::new();
    for (word, id) in [("0", [0; 16]), ("ff", [0xFF; 16])] {
        let is = move |group: Option<&Group>| group.is_some_and(|group| group.key == id);
        sorts.push(sort(format!("key {word} alone"), move |groups| {
            groups.len() == 1 && is(groups.first())
        }));
        sorts.push(sort(format!("key {word} among others"), move |groups| {
            groups.len() > 2 && (is(groups.first()) || is(groups.last()))
        }));
    }
    sorts
}

fn smallest_log(groups: &[Group]) -> Option<u64> {
    edges(groups).map(|edge| edge.log).min()
}

fn largest_log(groups: &[Group]) -> Option<u64> {
    edges(groups).map(|edge| edge.log).max()
}

/// The ends of the log numbers, of one edge alone, and of the first, the last and
/// one in a middle group among others; and extremes of one group only.
fn log_sorts() -> Vec<Sort> {
    let mut sorts = Vec::new();
    for end in [0, u64::MAX] {
        let mut add = |what: &str, is: fn(&[Group], u64) -> bool| {
            let what = format!("log number {end} {what}");
            sorts.push(sort(what, move |groups| is(groups, end)));
        };
        add("alone", |groups, end| logs(groups) == [end]);
        add("first only", |groups, end| {
            groups.len() > 2 && places(groups, end) == [0]
        });
        add("last only", |groups, end| {
            groups.len() > 2 && places(groups, end) == [logs(groups).len() - 1]
        });
        add("in a middle group only", |groups, end| {
            let places_in = |i: usize| places(&groups[i..=i], end).len();
            let n = groups.len();
            n > 2 && places(groups, end).len() == 1 && places_in(0) + places_in(n - 1) == 0
        });
    }
    for (word, of) in [
        ("smallest", smallest_log as fn(&[Group]) -> Option<u64>),
        ("largest", largest_log),
    ] {
        for (group, place) in [("first", 0), ("middle", 1), ("last", 2)] {
            let what = format!("the {word} log number in the {group} group only");
            sorts.push(sort(what, move |groups| only_in(groups, place, of)));
        }
    }
    sorts.push(sort("the extremes of the log numbers dead", |groups| {
        let ends = [smallest_log(groups), largest_log(groups)];
        let at_end = |edge: &&Edge| ends.contains(&Some(edge.log));
        let live = edges(groups).filter(at_end).filter(|edge| !edge.dead);
        edges(groups).any(|edge| !edge.dead) && live.count() == 0
    }));
    sorts
}

fn logs(groups: &[Group]) -> Vec<u64> {
    edges(groups).map(|edge| edge.log).collect()
}

/// The edges with this log number.
fn places(groups: &[Group], log: u64) -> Vec<usize> {
    let logs = logs(groups);
    (0..logs.len()).filter(|&i| logs[i] == log).collect()
}

/// Of each count of edges in the last tombstone byte: all dead, the last dead
/// alone, and those in the last byte alone.
fn dead_sorts() -> Vec<Sort> {
    let mut sorts = Vec::new();
    for rest in 0..8 {
        let mut add = |what: &str, first_dead: fn(usize) -> usize| {
            let what = format!("more than 8 edges, {rest} modulo 8, {what} dead");
            sorts.push(sort(what, move |groups| {
                let n = edges(groups).count();
                let dead = dead_places(groups).into_iter();
                n > 8 && n % 8 == rest && dead.eq(first_dead(n)..n)
            }));
        };
        add("all", |_| 0);
        add("only the last", |n| n - 1);
        add("only the last byte", |n| (n - 1) / 8 * 8);
    }
    sorts
}

fn dead_places(groups: &[Group]) -> Vec<usize> {
    let edges: Vec<&Edge> = edges(groups).collect();
    (0..edges.len()).filter(|&i| edges[i].dead).collect()
}
