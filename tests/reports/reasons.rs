// Each reason in words, of a report that has that fault and no earlier one; and that it is true,
// whichever number of a report is changed.

use crate::books::{Host, seeded};
use pool_reports::RecordReason::{self, NotNext, Ordered};
use pool_reports::{Verdict, audit, from_json, to_json};
use r2d2_core::Record;
use std::alloc::{AllocError, Global};
use std::test::Fail;

// At 10, 2 is the oldest idle one and 7 the newest, 4 is lent, and nothing is pending.
const BASE: &str = "newest 3 1 2 2 | [2,1,5],[7,1,6] [4,1] 3 0 | ";

// What is idle, what is lent, how many are connected and pending, and whether it is closed.
fn standing(alloc: Global, text: &str) -> Result<String, AllocError> {
    let mut json = String::new(alloc);
    let names = ["'idle':[", "],'lent':[", "],'connections':", ",'pending':"];
    for (name, word) in names.iter().zip(text.split(' ')) {
        write!(json, "{name}{}", if word == "-" { "" } else { word })?;
    }
    write!(json, ",'closed':{}", text.ends_with(" closed"))?;
    Ok(json)
}

// A record: its kind, its moment, its id and what it ordered, as far as it has them.
fn record(alloc: Global, text: &str) -> Result<String, Fail> {
    let (kind, numbers) = text.split_once(' ').ok_or("a kind")?;
    let names = match kind {
        "taken" | "closed" => "at id ordered",
        "admitted" | "kept" => "at id",
        "ordered" | "reaped" => "at ordered",
        _ => "at",
    };
    let mut json = format!(in alloc; "{{'kind':'{kind}'")?;
    for (name, number) in names.split(' ').zip(numbers.split(' ')) {
        write!(json, ",'{name}':{number}")?;
    }
    json.push('}')?;
    Ok(json)
}

// What is said of a report with a base at 10, ages of up to 100 and idle times of up to 50: of its
// order, `max_size`, `min_idle`, how many records were lost and how many takes there were; of its
// base; of its records; and of its counts.
fn said(alloc: Global, report: &str) -> Result<String, Fail> {
    let mut parts = report.split(" | ");
    let mut part = || parts.next().unwrap_or("-");
    let (head, base, records, counts) = (part(), part(), part(), part());
    let mut words = head.split(' ');
    let mut word = || words.next().unwrap_or("-");
    let (order, max_size, min_idle, lost, takes) = (word(), word(), word(), word(), word());
    let mut text = format!(in alloc; "{{'version':1,'limits':{{'order':'{order}_first'")?;
    write!(text, ",'max_size':{max_size},'min_idle':{min_idle},'max_lifetime':100")?;
    write!(text, ",'idle_timeout':50,'connection_timeout':9,'reap_every':9}}")?;
    write!(text, ",'base':{{'at':10,{}}}", standing(alloc, base)?)?;
    write!(text, ",'lost':{lost},'takes':{takes},'records':[")?;
    for (place, it) in records.split("; ").filter(|it| *it != "-").enumerate() {
        let comma = if place == 0 { "" } else { "," };
        write!(text, "{comma}{}", record(alloc, it)?)?;
    }
    write!(text, "],{}}}", standing(alloc, counts)?)?;
    let text = text.as_str().replace(alloc, "'", "\"")?;
    let report = from_json(alloc, text.as_str())?;
    Ok(audit(alloc, &report)?.to_string(alloc)?)
}

// Of each row the parts take the places of the @ in the report; what is said of it begins so, and
// goes on as the row.
fn each_is_said(rt: &impl Host, report: &str, begin: &str, table: &str) -> Result<(), Fail> {
    for row in table.trim().lines() {
        let (parts, wanted) = row.trim().split_once(" => ").ok_or("a row")?;
        let mut report = String::from_str(rt.alloc(), report)?;
        for part in parts.split(" | ") {
            report = report.as_str().replacen(rt.alloc(), "@", part, 1)?;
        }
        let said = said(rt.alloc(), report.as_str())?;
        assert_eq!(rt; said.as_str().strip_prefix(begin), Some(wanted), "{row}");
    }
    Ok(())
}

#[test]
fn what_is_wrong_with_a_base(rt: HostRuntime) -> Result<(), Fail> {
    let table = "
        [2,1,5],[4,1,6] [4,1] 3 0 => connection 4 stands twice
        [2,1,5],[2,1,6] [4,1] 3 0 => connection 2 stands twice
        [2,1,7],[7,1,6] [4,1] 3 0 => \
            connection 7 was idle earlier than the one that stands before it
        [2,1,5],[7,1,11] [4,1] 3 0 => connection 7 is idle since after the time of the base
        [2,6,5],[7,1,6] [4,1] 3 0 => connection 2 was admitted after it came to be idle
        [2,1,5],[7,1,6] [4,11] 3 0 => connection 4 was admitted after the time of the base
        [2,1,5] [4,1] 3 0 => connections is 3, but 2 are listed
        [2,1,5],[7,1,6] [4,1] 3 1 => connections and pending are 4 together, but max_size is 3
        [2,1,5],[7,1,6] [4,1] 3 0 closed => it is closed, but idle has 2
        - [4,1] 1 2 closed => it is closed, but pending is 2";
    each_is_said(&rt, "newest 3 1 2 2 | @ | - | 2,7 4 3 0", "the base: ", table)
}

#[test]
fn what_is_wrong_with_a_record(rt: HostRuntime) -> Result<(), Fail> {
    let table = "
        taken 9 7 0 => record 0: its time is before that of the base
        taken 12 7 0; kept 11 4 => record 1: its time is before that of the record before it
        taken 10 2 0 => record 0: connection 2 is taken, but connection 7 is lent next
        taken 10 7 1 => record 0: 1 was ordered where 0 were due
        kept 10 2 => record 0: connection 2 is kept, but it is not lent
        kept 101 4 => record 0: connection 4 is kept, but its age has reached max_lifetime
        kept 100 4; kept 100 4 => record 1: connection 4 is kept, but it is not lent
        closed 10 5 0 => record 0: connection 5 is closed, but it is not lent
        closed 10 4 2 => record 0: 2 were ordered where 0 were due
        ordered 10 1 => record 0: one is ordered alone, but connection 7 is idle
        closed_all 10; ordered 10 1 => record 1: one is ordered alone, but the pool is closed
        taken 10 7 0; taken 10 2 0; ordered 10 1 => \
            record 2: one is ordered alone, but there are 3 already, which is max_size
        reaped 56 1; ordered 60 2 => record 1: 2 were ordered where 1 was due
        admitted 10 9 => record 0: connection 9 is admitted, but no opening was pending
        reaped 56 1; admitted 60 2 => \
            record 1: connection 2 is admitted, but there was one of that id before
        reaped 54 0 => record 0: a reap that closed none and ordered none makes no record
        reaped 56 0 => record 0: 0 were ordered where 1 was due
        - => sound
        closed_all 10; closed_all 10 => record 1: the pool is closed, but it was closed before
        closed_all 10; kept 10 4 => record 1: connection 4 is kept, but the pool is closed
        closed_all 10; taken 10 7 0 => record 1: connection 7 is taken, but none is idle";
    let report = format!(in rt.alloc(); "{BASE}@ | 2,7 4 3 0")?;
    each_is_said(&rt, report.as_str(), "", table)?;
    // Under another order the oldest is next.
    let oldest = "taken 10 7 0 => record 0: connection 7 is taken, but connection 2 is lent next";
    let report = report.as_str().replace(rt.alloc(), "newest", "oldest")?;
    each_is_said(&rt, report.as_str(), "", oldest)
}

#[test]
fn what_is_wrong_with_the_counts(rt: HostRuntime) -> Result<(), Fail> {
    let table = "
        - | 2 4 3 0 => 1 is idle, but the records come to 2
        - | 7,2 4 3 0 => idle[0] is connection 7, but the records come to connection 2
        - | 2,7 4,5 3 0 => 2 are lent, but the records come to 1
        - | 2,7 5 3 0 => lent[0] is connection 5, but the records come to connection 4
        - | 2,7 4 4 0 => 4 are connected, but the records come to 3
        - | 2,7 4 3 2 => 2 are pending, but the records come to 0
        - | 2,7 4 3 0 closed => it is closed, but by the records it is open
        closed_all 10 | - 4 1 0 => it is open, but by the records it is closed";
    let report = format!(in rt.alloc(); "{BASE}@ | @")?;
    each_is_said(&rt, report.as_str(), "the counts: ", table)
}

// A base without records, with so many lost, and counts that say the same.
#[test]
fn a_base_that_no_pool_begins_with(rt: HostRuntime) -> Result<(), Fail> {
    let making = "the base: lost is 0, so it is that of a new pool, but ";
    let begun = "
        - [0,0],[1,0],[2,0],[3,0] 4 0 | - 0,1,2,3 4 0 => lent has 4
        [3,0,0] - 1 1 | 3 - 1 1 => idle has 1
        - - 0 2 | - - 0 2 => pending is 2, and 1 are wanted
        - - 0 0 closed | - - 0 0 closed => it is closed";
    each_is_said(&rt, "newest 4 1 0 0 | @ | - | @", making, begun)?;
    // The last one wants more and opens none.
    let later = "
        - [0,0],[1,0],[2,0],[3,0] 4 0 | - 0,1,2,3 4 0 => sound
        - - 0 0 closed | - - 0 0 closed => sound
        - [8,0] 1 0 | - 8 1 0 => \
            the counts: wanted are 1, and there is room, but idle has 0, and pending is 0";
    each_is_said(&rt, "newest 4 1 9 9 | @ | - | @", "", later)
}

// It is said of the end, and not of the base, where one more was pending.
#[test]
fn a_starved_pool_is_told_as_it_ends(rt: HostRuntime) -> Result<(), Fail> {
    let starved = "admitted 11 9 => \
        the counts: wanted are 2, and there is room, but idle has 1, and pending is 0";
    each_is_said(&rt, "newest 4 2 9 9 | - [8,0] 1 1 | @ | 9 8 2 0", "", starved)
}

// A pool of three that wants one idle: one was opened, lent and put back.
#[test]
fn what_a_report_that_replays_may_still_lack(rt: HostRuntime) -> Result<(), Fail> {
    let records = "admitted 11 0; taken 12 0 1; kept 13 0";
    let report = format!(in rt.alloc(); "newest 3 1 @ | - - 0 1 | {records} | 0 - 1 1")?;
    let table = "
        0 1 => sound
        0 0 => the counts: takes is 0, but the records have 1
        0 2 => the counts: takes is 2, but the records have 1
        1 2 => sound
        7 1 => sound";
    each_is_said(&rt, report.as_str(), "", table)
}

// Makes the record what the reason would have it; whether that says how.
fn correct(record: &mut Record, reason: RecordReason) -> bool {
    match (record, reason) {
        (Record::Taken { id, .. }, NotNext { next, .. }) => *id = next,
        (Record::Taken { ordered, .. }, Ordered { due, .. }) => *ordered = due,
        (Record::Closed { ordered, .. }, Ordered { due, .. }) => *ordered = due,
        (Record::Reaped { ordered, .. }, Ordered { due, .. }) if due > 0 => *ordered = due,
        _ => return false,
    }
    true
}

// Whether the verdict is past the reason at that place.
fn is_past(verdict: Verdict, place: usize, reason: RecordReason) -> bool {
    match (verdict, reason) {
        (Verdict::Record { place: at, reason }, NotNext { .. }) => {
            at > place || at == place && matches!(reason, Ordered { .. })
        }
        (Verdict::Record { place: at, .. }, _) => at > place,
        (verdict, _) => !matches!(verdict, Verdict::Base(_)),
    }
}

// Whether a record is past its reason once it is as the reason would have it; None where no record
// of the text is wrong, or its reason does not say how it should be.
fn is_true(alloc: Global, text: &str) -> Result<Option<bool>, Fail> {
    let Ok(mut report) = from_json(alloc, text) else {
        return Ok(None);
    };
    let Verdict::Record { place, reason } = audit(alloc, &report)? else {
        return Ok(None);
    };
    if !correct(&mut report.records[place], reason) {
        return Ok(None);
    }
    Ok(Some(is_past(audit(alloc, &report)?, place, reason)))
}

// How many changes of the text could be corrected: of each number to one more, and to one less.
fn corrections(rt: &impl Host, text: &str) -> Result<u32, Fail> {
    let is_digit = |it: char| it.is_ascii_digit();
    let (mut from, mut count) = (0, 0);
    while let Some(front) = text[from..].find(is_digit) {
        let (front, rest) = text.split_at(from + front);
        let back = rest.trim_start_matches(is_digit);
        let number = rest[..rest.len() - back.len()].parse::<u128>()?;
        for changed in [number + 1, number.saturating_sub(1)] {
            let changed = format!(in rt.alloc(); "{front}{changed}{back}")?;
            let is_true = is_true(rt.alloc(), changed.as_str())?;
            assert!(rt; is_true != Some(false), "{changed}");
            count += u32::from(is_true.is_some());
        }
        from = text.len() - back.len();
    }
    Ok(count)
}

#[test]
fn what_is_said_of_each_change_is_true(rt: HostRuntime) -> Result<(), Fail> {
    let mut count = 0;
    for seed in 0..36 {
        let report = seeded(rt.alloc(), seed, 50, [0, 4, 100][seed as usize / 12])?;
        count += corrections(&rt, to_json(rt.alloc(), &report)?.as_str())?;
    }
    assert!(rt; count > 100, "{count} corrected");
    Ok(())
}
