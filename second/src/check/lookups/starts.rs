//! Lookups by a start index, by another way, and the sorts of calls that the
//! corpus has to hold for them.

use super::Tally;
use crate::corpus::lookup_calls::{Call, Intended, LookupFile, Outcome, Rooms};
use crate::full_check::full_check;
use crate::open::{bytes_of, OpenedRecord};
use crate::refusal::Refusal;

/// The record as if it had no start index.
fn without_starts(record: &OpenedRecord) -> OpenedRecord {
    OpenedRecord {
        starts: None,
        ..record.clone()
    }
}

/// The two entries of a group in the index of a record that is not refused.
fn entries(file: &[u8], record: &OpenedRecord, index: u64) -> Option<(u64, u64)> {
    let bytes = bytes_of(file, record.starts?);
    let entry = |i: usize| bytes[8 * i..8 * i + 8].try_into().map(u64::from_le_bytes);
    let index = index as usize;
    Some((entry(index).ok()?, entry(index + 1).ok()?))
}

/// Do the entries give a group of this degree a place among the edges?
fn agree((begin, end): (u64, u64), degree: u64, edge_count: u64) -> bool {
    begin.checked_add(degree) == Some(end) && end <= edge_count
}

/// What partners alone say of the call's key by the record, with enough room.
fn group_of(file: &LookupFile, call: &Call, record: &OpenedRecord) -> Intended {
    let alone = Call {
        full: false,
        rooms: Rooms::MOST,
        ..call.clone()
    };
    alone.outcome_with(&file.bytes, Some(record)).told()
}

/// A full lookup by an index: the answer by its two entries and by the partners
/// alone, the log numbers by the bytes where the first entry says. And where the
/// file passes the full check, the record without the index gives the same.
pub fn check_call(
    tally: &mut Tally,
    file: &LookupFile,
    call: &Call,
    outcome: &Outcome,
    record: &OpenedRecord,
) {
    if record.starts.is_none() || !call.full {
        return;
    }
    let what = format!("{} by the start index", call.name);
    let group = group_of(file, call, record);
    let Intended::Found { degree, index } = group else {
        tally.same(&what, outcome.told(), group);
        return;
    };
    let pair = entries(&file.bytes, record, index).expect("a record that is not refused");
    let rooms = call.rooms;
    let room = (rooms.partners / 16).min(rooms.logs).min(rooms.marks);
    let expected = if !agree(pair, degree, record.edge_count) {
        Intended::Refused(Refusal::at(19, index))
    } else if u64::from(room) < degree {
        Intended::Refused(Refusal::at(20, degree))
    } else {
        check_logs(tally, file, outcome, record, (pair.0, degree));
        group
    };
    tally.same(&what, outcome.told(), expected);
    if call.record.is_none() && full_check(&file.bytes).is_ok() {
        let summed = without_starts(record);
        let again = call.outcome_with(&file.bytes, Some(&summed));
        tally.same(&format!("{what}, and without it"), &again, outcome);
    }
}

fn check_logs(
    tally: &mut Tally,
    file: &LookupFile,
    outcome: &Outcome,
    record: &OpenedRecord,
    (begin, degree): (u64, u64),
) {
    let logs = bytes_of(&file.bytes, record.logs);
    let there = &logs[8 * begin as usize..8 * (begin + degree) as usize];
    let told = outcome.buffers.logs[..degree as usize].iter();
    let told: Vec<u8> = told.flat_map(|log| log.to_le_bytes()).collect();
    tally.same(&file.name, &told[..], there);
}

/// A call made by hand whose record or file has to do with a start index.
pub struct Case {
    full: bool,
    intended: Intended,
    /// Whether the record says that there is an index, and its range.
    indexed: bool,
    start: u64,
    length: u64,
    size: u64,
    key_count: u64,
    edge_count: u64,
    /// Whether the file has an index, if it opens.
    file_has: Option<bool>,
    by_record: bool,
    /// What the record says without its index.
    summed: Intended,
    /// The degree and the two entries, where the group is sound and the record
    /// passes.
    entries: Option<(u64, u64, u64)>,
    rooms: Rooms,
}

pub fn case(
    file: &LookupFile,
    call: &Call,
    record: &OpenedRecord,
    opened: Option<&OpenedRecord>,
) -> Option<Case> {
    let intended = call.intended?;
    let file_has = opened.map(|record| record.starts.is_some());
    if record.starts.is_none() && file_has != Some(true) {
        return None;
    }
    let lent = call.record.as_ref();
    let range = lent.map_or(record.starts, |lent| Some(lent.starts))?;
    let entries = match group_of(file, call, record) {
        Intended::Found { degree, index } => {
            let pair = entries(&file.bytes, record, index);
            pair.map(|(begin, end)| (degree, begin, end))
        }
        _ => None,
    };
    let summed = call.outcome_with(&file.bytes, Some(&without_starts(record)));
    Some(Case {
        full: call.full,
        intended,
        indexed: record.starts.is_some(),
        start: range.offset,
        length: range.length,
        size: file.bytes.len() as u64,
        key_count: record.key_count,
        edge_count: record.edge_count,
        file_has,
        by_record: lent.is_some(),
        summed: summed.told(),
        entries,
        rooms: call.rooms,
    })
}

impl Case {
    fn is_found(&self) -> bool {
        matches!(self.intended, Intended::Found { .. })
    }

    fn is_refused(&self, number: u8) -> bool {
        matches!(self.intended, Intended::Refused(refusal) if refusal.number == number)
    }

    fn sum_is_refused(&self, number: u8) -> bool {
        matches!(self.summed, Intended::Refused(refusal) if refusal.number == number)
    }

    fn sum_is_found(&self) -> bool {
        matches!(self.summed, Intended::Found { .. })
    }

    /// 19 where the sum of degrees is found, by such entries.
    fn lost_by(&self, is: fn(&Case, u64, u64, u64) -> bool) -> bool {
        let entries = self.entries;
        let such = entries.is_some_and(|(degree, begin, end)| is(self, degree, begin, end));
        self.full && self.is_refused(19) && self.sum_is_found() && such
    }

    /// 21 for nothing but the index.
    fn bad_range(&self, full: bool) -> bool {
        self.full == full && self.is_refused(21) && self.indexed && !self.sum_is_refused(21)
    }

    /// Do the entries give the group no place?
    fn disagrees(&self) -> bool {
        let placed = |(degree, begin, end)| agree((begin, end), degree, self.edge_count);
        self.entries.is_some_and(|entries| !placed(entries))
    }

    /// Where the range of the index ends, if that is below 2^64.
    fn end(&self) -> u64 {
        self.start.saturating_add(self.length)
    }

    fn right_length(&self) -> u64 {
        8 * (self.key_count + 1)
    }
}

/// What is asked of a call.
type Sort = (String, Box<dyn Fn(&Case) -> bool>);

fn sort(what: impl Into<String>, is: impl Fn(&Case) -> bool + 'static) -> Sort {
    (what.into(), Box::new(is))
}

/// There is a call of each sort.
pub fn check_sorts(tally: &mut Tally, cases: &[Case]) {
    let mut sorts = lost_sorts();
    sorts.extend(found_sorts());
    sorts.extend(order_sorts());
    sorts.extend(range_sorts());
    for (what, is) in &sorts {
        let found = cases.iter().any(is);
        tally.same(&format!("lookups: a call with {what}"), found, true);
    }
    tally.notes.push(format!(
        "lookups: {} calls made by hand about a start index, {} sorts",
        cases.len(),
        sorts.len()
    ));
}

/// 19 by the index alone.
fn lost_sorts() -> Vec<Sort> {
    let mut sorts = Vec::new();
    let mut add = |what: &str, is: fn(&Case, u64, u64, u64) -> bool| {
        let what = format!("19 by the index, {what}");
        sorts.push(sort(what, move |case| case.lost_by(is)));
    };
    add("a difference below the degree", |_, degree, begin, end| {
        begin < end && end - begin < degree
    });
    add("a difference above the degree", |_, degree, begin, end| {
        begin < end && end - begin > degree
    });
    add("no difference", |_, _, begin, end| begin == end);
    add("entries that fall", |_, _, begin, end| begin > end);
    add(
        "an end one above the edge count",
        |case, degree, begin, end| {
            end == case.edge_count + 1 && begin.checked_add(degree) == Some(end)
        },
    );
    add("a begin at the edge count", |case, degree, begin, end| {
        begin == case.edge_count && begin.checked_add(degree) == Some(end)
    });
    add("an end far above", |_, degree, begin, end| {
        begin >= 1 << 63 && begin.checked_add(degree) == Some(end)
    });
    add(
        "a sum that comes round in 64 bits",
        |_, degree, begin, end| {
            begin.checked_add(degree).is_none() && begin.wrapping_add(degree) == end
        },
    );
    add("a sum that is right in 32 bits", |_, degree, begin, end| {
        begin.checked_add(degree) != Some(end)
            && (begin as u32).wrapping_add(degree as u32) == end as u32
    });
    add("in a file that opens so", |case, _, _, _| !case.by_record);
    sorts
}

/// Found by the index, and with it or without it in spite of what it says.
fn found_sorts() -> Vec<Sort> {
    let found =
        |what: &str, is: fn(&Case) -> bool| sort(what, move |case| case.is_found() && is(case));
    vec![
        found("a place by the index where a sum is 19", |case| {
            case.full && case.indexed && case.sum_is_refused(19)
        }),
        found("the same on the file alone", |case| {
            case.full && !case.by_record && case.sum_is_refused(19)
        }),
        found("the last place there is", |case| {
            case.full && case.entries.is_some_and(|(.., end)| end == case.edge_count)
        }),
        found("partners alone where the index disagrees", |case| {
            !case.full && case.disagrees()
        }),
        found("an index claimed in a file that has none", |case| {
            case.full && case.indexed && case.file_has == Some(false)
        }),
        found("an index hidden", |case| {
            case.full && !case.indexed && case.file_has == Some(true)
        }),
        found("no index, and a range that leaves the file", |case| {
            !case.indexed && case.start == u64::MAX && case.length == u64::MAX
        }),
        found("no index, and another length", |case| {
            !case.indexed && case.start > 0 && case.length == case.right_length() + 1
        }),
        found("1,025 keys", |case| case.indexed && case.key_count == 1_025),
        sort("19 by an index claimed in a file that has none", |case| {
            case.lost_by(|case, _, _, _| case.file_has == Some(false))
        }),
        sort("absence by a record of no keys with an index", |case| {
            case.indexed && case.key_count == 0 && case.intended == Intended::Absent
        }),
    ]
}

/// A group's faults, 19, 20.
fn order_sorts() -> Vec<Sort> {
    vec![
        sort("a group's fault before 19 by the index", |case| {
            case.full && case.indexed && (case.is_refused(16) || case.is_refused(28))
        }),
        sort("19 by the index before 20", |case| {
            case.full && case.indexed && case.is_refused(19) && case.rooms == Rooms::NONE
        }),
        sort("20 by an index that agrees", |case| {
            case.full && case.is_refused(20) && case.entries.is_some() && !case.disagrees()
        }),
        sort("20 of partners alone where the index disagrees", |case| {
            !case.full && case.is_refused(20) && case.disagrees()
        }),
    ]
}

/// 21 for the range of the index alone, in both lookups.
fn range_sorts() -> Vec<Sort> {
    let mut sorts = Vec::new();
    for (word, full) in [("in full", true), ("alone", false)] {
        let mut add = |what: &str, is: fn(&Case) -> bool| {
            let what = format!("21 {word} for the index, {what}");
            sorts.push(sort(what, move |case| case.bad_range(full) && is(case)));
        };
        add("a byte past the file", |case| {
            case.length == case.right_length() && case.end() == case.size + 1
        });
        add("a start at the file's end", |case| case.start == case.size);
        add("the largest start", |case| case.start == u64::MAX);
        add("a sum that comes round to 0", |case| {
            case.start > 0 && case.start.wrapping_add(case.length) == 0
        });
        add("a byte less", |case| case.length == case.right_length() - 1);
        add("a byte more", |case| {
            case.length == case.right_length() + 1 && case.end() <= case.size
        });
        add("an entry less", |case| {
            case.length == case.right_length() - 8
        });
        add("an entry more", |case| {
            case.length == case.right_length() + 8 && case.end() <= case.size
        });
        add("no length", |case| case.length == 0);
        add("the largest length", |case| case.length == u64::MAX);
    }
    sorts
}
