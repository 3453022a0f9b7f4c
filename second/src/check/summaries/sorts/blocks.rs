//! The sorts of log numbers that the corpus has to hold for a reader that takes
//! the first, then blocks of 80, and then a tail of fewer.

use crate::batch::{EDGE, HEADING};
use crate::check::summaries::log_of;
use crate::check::Tally;
use crate::corpus::check_files::{CheckFile, ROOM};
use std::ops::RangeInclusive;

const BLOCK: usize = 80;
const HALF: u64 = 1 << 63;

/// The places of a block that its first and last number do not tell of.
const INNER: RangeInclusive<usize> = 1..=78;

const PLACES: [(&str, RangeInclusive<usize>); 5] = [
    ("at the first place", 0..=0),
    ("at the second place", 1..=1),
    ("in the middle", 20..=59),
    ("at the last place but one", 78..=78),
    ("at the last place", 79..=79),
];

/// What is asked of the log numbers of a file, which are in file order.
type Sort = (String, Box<dyn Fn(&[u64]) -> bool>);

fn sort(what: impl Into<String>, is: impl Fn(&[u64]) -> bool + 'static) -> Sort {
    (what.into(), Box::new(is))
}

/// There is a file of each sort among those whose author wrote down their line.
/// The log numbers are those of the read-out.
pub fn check(tally: &mut Tally, files: &[CheckFile]) {
    let files = files.iter().filter(|file| file.summed.is_some());
    let files: Vec<Vec<u64>> = files.filter_map(logs).collect();
    let mut sorts = count_sorts();
    for end in [End::Smallest, End::Largest] {
        sorts.extend(place_sorts(end));
        sorts.extend(distance_sorts(end));
        sorts.extend(both_ends_sorts(end));
    }
    sorts.extend(out_of_order_sorts());
    sorts.extend(order_sorts());
    for (what, is) in &sorts {
        let found = files.iter().any(|logs| is(logs));
        tally.same(&format!("a file with {what}"), found, true);
    }
    let longer = files.iter().filter(|logs| logs.len() > BLOCK).count();
    tally.notes.push(format!(
        "summaries: {longer} files with a block of log numbers, {} sorts of them",
        sorts.len()
    ));
}

fn logs(file: &CheckFile) -> Option<Vec<u64>> {
    let (told, output) = file.read_out(ROOM);
    let batch = &output[..told.ok()? as usize];
    Some(batch[HEADING..].chunks_exact(EDGE).map(log_of).collect())
}

#[derive(Clone, Copy, Debug, PartialEq, Eq)]
enum End {
    Smallest,
    Largest,
}

impl End {
    fn of(self, logs: &[u64]) -> Option<u64> {
        let logs = logs.iter().copied();
        match self {
            End::Smallest => logs.min(),
            End::Largest => logs.max(),
        }
    }

    fn other(self) -> End {
        match self {
            End::Smallest => End::Largest,
            End::Largest => End::Smallest,
        }
    }

    /// The edge that alone has the end.
    fn only(self, logs: &[u64]) -> Option<usize> {
        let end = self.of(logs)?;
        let edges: Vec<usize> = (0..logs.len()).filter(|&e| logs[e] == end).collect();
        match edges[..] {
            [edge] => Some(edge),
            _ => None,
        }
    }

    fn only_spot(self, logs: &[u64]) -> Option<Spot> {
        spot(self.only(logs)?, logs.len())
    }
}

/// Where an edge after the first stands.
#[derive(Clone, Copy, Debug, PartialEq, Eq)]
struct Spot {
    /// 1, 2 and so on. The tail has the next number.
    block: usize,
    in_tail: bool,
    place: usize,
}

impl Spot {
    /// Neither first nor last in a block.
    fn inside(self) -> bool {
        !self.in_tail && INNER.contains(&self.place)
    }
}

fn spot(edge: usize, count: usize) -> Option<Spot> {
    let before = edge.checked_sub(1)?;
    let (blocks, place) = (before / BLOCK, before % BLOCK);
    Some(Spot {
        block: blocks + 1,
        in_tail: blocks == (count - 1) / BLOCK,
        place,
    })
}

/// An end that is alone: no other number has it, and all others in its block or
/// tail lie within the span of those before.
struct Alone {
    spot: Spot,
    log: u64,
    /// The smallest and largest before the block or tail.
    before: [u64; 2],
    /// The smallest and largest of all.
    span: [u64; 2],
}

impl Alone {
    fn width(&self) -> u64 {
        self.before[1] - self.before[0]
    }

    /// How far it lies outside.
    fn distance(&self) -> u64 {
        let [low, high] = self.before;
        low.saturating_sub(self.log)
            .max(self.log.saturating_sub(high))
    }
}

fn span(logs: &[u64]) -> Option<[u64; 2]> {
    Some([End::Smallest.of(logs)?, End::Largest.of(logs)?])
}

fn alone(logs: &[u64], end: End) -> Option<Alone> {
    let edge = end.only(logs)?;
    let spot = spot(edge, logs.len())?;
    let begin = edge - spot.place;
    let before = span(&logs[..begin])?;
    let past = logs.len().min(begin + BLOCK);
    let mut others = (begin..past).filter(|&other| other != edge);
    let within = others.all(|other| (before[0]..=before[1]).contains(&logs[other]));
    within.then_some(Alone {
        spot,
        log: logs[edge],
        before,
        span: span(logs)?,
    })
}

/// Counts around whole blocks, with either end in the last edge; and tails of 79
/// with both ends, at their first and last place.
fn count_sorts() -> Vec<Sort> {
    let mut sorts = Vec::new();
    for count in [80, 81, 82, 160, 161, 162, 241] {
        for end in [End::Smallest, End::Largest] {
            let what = format!("{count} edges, the {end:?} log number last only");
            sorts.push(sort(what, move |logs| {
                logs.len() == count && end.only(logs) == Some(count - 1)
            }));
        }
    }
    for count in [80, 160] {
        for ends in [[End::Smallest, End::Largest], [End::Largest, End::Smallest]] {
            let what = format!(
                "{count} edges, the tail from {:?} to {:?}",
                ends[0], ends[1]
            );
            let edges = [count - 79, count - 1].map(Some);
            sorts.push(sort(what, move |logs| {
                logs.len() == count && ends.map(|end| end.only(logs)) == edges
            }));
        }
    }
    sorts
}

/// What the log numbers around a new end are.
type Region = (&'static str, fn(&Alone) -> bool);

const THOUSANDS: Region = ("of 1000 to 2000", |new| {
    1_000 <= new.span[0] && new.span[1] <= 2_000
});
const NEAR_0: Region = ("near 0", |new| {
    new.span[1] < 100 && (new.log > new.before[1] || new.log == 0)
});
const NEAR_MOST: Region = ("near 2^64", |new| {
    let most = u64::MAX;
    new.span[0] > most - 100 && (new.log < new.before[0] || new.log == most)
});
const WIDE: Region = ("in a wide span", |new| new.width() > HALF + 1);

/// An end alone at each place of a block, and in a tail after a block.
fn place_sorts(end: End) -> Vec<Sort> {
    let mut sorts = Vec::new();
    let mut add = |region: &Region, place: &str, is: Box<dyn Fn(Spot) -> bool>| {
        let &(word, is_region) = region;
        let what = format!("the {end:?} log number {word} alone {place}");
        sorts.push(sort(what, move |logs| {
            alone(logs, end).is_some_and(|new| is_region(&new) && is(new.spot))
        }));
    };
    for region in [THOUSANDS, NEAR_0, NEAR_MOST, WIDE] {
        for (word, places) in PLACES {
            let is = move |spot: Spot| !spot.in_tail && places.contains(&spot.place);
            add(&region, &format!("{word} of a block"), Box::new(is));
        }
        let later = |spot: Spot| !spot.in_tail && spot.block > 1;
        add(&region, "in the second block or later", Box::new(later));
        let in_tail = |spot: Spot| spot.in_tail && spot.block > 1;
        add(&region, "in the tail", Box::new(in_tail));
    }
    for block in [1, 2] {
        for (word, places) in PLACES {
            let is = move |spot: Spot| {
                !spot.in_tail && spot.block == block && places.contains(&spot.place)
            };
            add(
                &THOUSANDS,
                &format!("{word} of block {block}"),
                Box::new(is),
            );
        }
    }
    sorts
}

/// Numbers just outside a span of about 2^63, and about 2^63 outside one.
fn distance_sorts(end: End) -> Vec<Sort> {
    let sort_of = |(width, distance)| {
        let what =
            format!("the {end:?} log number {distance} outside a span of {width}, inside a block");
        sort(what, move |logs| {
            alone(logs, end).is_some_and(|new| {
                new.spot.inside() && (new.width(), new.distance()) == (width, distance)
            })
        })
    };
    let wanted = [
        (HALF - 2, 1),
        (HALF - 1, 1),
        (HALF, 1),
        (HALF + 1, 1),
        (HALF - 1, HALF),
        (0, HALF - 1),
        (0, HALF),
        (0, HALF + 1),
    ];
    wanted.into_iter().map(sort_of).collect()
}

/// An end at the first or last place of a block, and the other end inside it.
fn both_ends_sorts(end: End) -> Vec<Sort> {
    let sort_of = |place| {
        let other = end.other();
        let what =
            format!("the {end:?} log number at place {place} of a block, the {other:?} inside");
        sort(what, move |logs| {
            let [here, there] = [end, other].map(|end| end.only_spot(logs));
            let (Some(here), Some(there)) = (here, there) else {
                return false;
            };
            here.block == there.block && here.place == place && there.inside()
        })
    };
    [0, BLOCK - 1].into_iter().map(sort_of).collect()
}

type Order = fn(&[u64]) -> bool;

fn rise(logs: &[u64]) -> bool {
    logs.windows(2).all(|pair| pair[0] < pair[1])
}

fn fall(logs: &[u64]) -> bool {
    logs.windows(2).all(|pair| pair[0] > pair[1])
}

/// An end inside a block, without which log numbers rise or fall.
fn out_of_order_sorts() -> Vec<Sort> {
    let sort_of = |(word, are, end, block): (&str, Order, End, usize)| {
        let what = format!("log numbers that {word} but for the {end:?} in block {block}");
        sort(what, move |logs| {
            let is_there = |spot: Spot| spot.block == block && spot.inside();
            let rest = |edge: usize| [&logs[..edge], &logs[edge + 1..]].concat();
            end.only_spot(logs).is_some_and(is_there)
                && end.only(logs).is_some_and(|edge| are(&rest(edge)))
        })
    };
    let wanted = [
        ("rise", rise as Order, End::Smallest, 1),
        ("rise", rise, End::Smallest, 2),
        ("rise", rise, End::Largest, 2),
        ("fall", fall, End::Largest, 1),
    ];
    wanted.into_iter().map(sort_of).collect()
}

fn order_sorts() -> Vec<Sort> {
    let mut sorts = vec![sort("81 log numbers or more, all the same", |logs| {
        logs.len() > BLOCK && logs.iter().all(|&log| log == logs[0])
    })];
    for (word, are) in [("rise", rise as Order), ("fall", fall)] {
        sorts.push(sort(format!("81 log numbers that {word}"), move |logs| {
            logs.len() == BLOCK + 1 && are(logs)
        }));
        let what = format!("three blocks of log numbers that {word} by 2^63 and more");
        sorts.push(sort(what, move |logs| {
            let width = span(logs).map(|[low, high]| high - low);
            logs.len() > 3 * BLOCK && are(logs) && width >= Some(HALF)
        }));
    }
    for (first, then) in [(0, u64::MAX), (u64::MAX, 0)] {
        let what = format!("81 log numbers or more, {first} and {then} in turn");
        sorts.push(sort(what, move |logs| {
            let in_turn = [first, then].into_iter().cycle();
            logs.len() > BLOCK && in_turn.take(logs.len()).eq(logs.iter().copied())
        }));
    }
    sorts
}
