// What a summary says of a report, beside a replay that keeps all in lists; and what of a pool
// somebody has to look at, at its thresholds and just below them.

use crate::books::{Host, met, ms, played, seeded, values};
use pool_reports::story::{Story, Stretch, Use};
use pool_reports::{Calls, Concern, Loan, Origin, State, Summary, Waits, summarize};
use r2d2_core::{Record, Report};
use std::alloc::{AllocError, Global};
use std::iter::once;
use std::test::Fail;
use std::time::Duration;

// What is lent, and since when; the most that were at once; since when openings are pending and
// none came in; since when it is exhausted; and each while in which it was, up to that moment.
type Played = (Vec<Loan>, usize, Option<Duration>, Option<Duration>, Vec<Duration>);

// What a replay says that keeps all in lists.
fn replayed(alloc: Global, report: &Report, until: Duration) -> Result<Played, AllocError> {
    let (base, limit) = (&report.base, u64::from(report.limits.max_size()));
    let (mut lent, mut whiles) = (Vec::new(alloc), Vec::new(alloc));
    for (id, _) in &base.lent {
        let (id, since) = (*id, None);
        lent.push(Loan { id, since })?;
    }
    let (mut most_lent, mut pending, mut is_closed) = (0, u64::from(base.pending), base.closed);
    let (mut opening_since, mut exhausted_since) = (None, None);
    for record in once(None).chain(report.records.iter().map(Some)) {
        let at = record.map_or(base.at, |record| record.at());
        match record.copied() {
            Some(Record::Taken { id, ordered, .. }) => {
                let since = Some(at);
                lent.push(Loan { id, since })?;
                pending += u64::from(ordered);
            }
            Some(Record::Closed { id, ordered, .. }) => {
                lent.retain(|loan| loan.id != id);
                pending += u64::from(ordered);
            }
            Some(Record::Kept { id, .. }) => lent.retain(|loan| loan.id != id),
            Some(Record::Ordered { ordered, .. }) => pending += u64::from(ordered),
            Some(Record::Reaped { ordered, .. }) => pending += u64::from(ordered),
            Some(Record::Admitted { .. }) => (pending, opening_since) = (pending - 1, None),
            Some(Record::ClosedAll { .. }) => (pending, is_closed) = (0, true),
            None => {}
        }
        most_lent = most_lent.max(lent.len());
        opening_since = (pending > 0).then_some(opening_since.unwrap_or(at));
        let is_exhausted = lent.len() as u64 + pending == limit && !is_closed;
        if !is_exhausted {
            whiles.extend(exhausted_since.map(|since| at.saturating_sub(since)))?;
        }
        exhausted_since = is_exhausted.then_some(exhausted_since.unwrap_or(at));
    }
    whiles.extend(exhausted_since.map(|since| until.saturating_sub(since)))?;
    Ok((lent, most_lent, opening_since, exhausted_since, whiles))
}

// The story of the report tells of the same time, exhaustion and loans.
fn tells_the_same(rt: &impl Host, said: &Summary, story: &Story) -> Result<(), Fail> {
    let due = (story.to, story.length(), story.exhausted);
    assert_eq!(rt; (said.until, said.covers(), said.exhausted), due, "{said:?}");
    let is_told = |loan: &Loan| {
        let mut last = story.lives.iter().filter(|it| it.id == loan.id).flat_map(|it| it.latest());
        let (what, to) = (Use::Lent, story.to);
        loan.since.is_none_or(|from| last.any(|it| it == Stretch { what, from, to }))
    };
    assert!(rt; said.lent.iter().all(is_told), "{said:?}");
    Ok(())
}

#[test]
fn says_what_a_replay_in_lists_says(rt: HostRuntime) -> Result<(), Fail> {
    let alloc = rt.alloc();
    for seed in 0..60 {
        let room = if seed % 2 == 0 { 1000 } else { seed as usize };
        let report = seeded(alloc, seed, 150, room)?;
        // Each third report says when it was made, and each sixth is made as its last record is.
        let last = report.records.as_slice().last();
        let last = last.map_or(report.base.at, |record| record.at());
        let later = if seed % 6 == 0 { ms(0) } else { ms(seed) };
        let mut origin = Origin::unknown();
        origin.reported_at = (seed % 3 == 0).then_some(last.saturating_add(later));
        let until = origin.reported_at.unwrap_or(last);
        let said = summarize(alloc, &report, &origin, None)?;
        let (lent, most_lent, opening_since, exhausted_since, whiles) =
            replayed(alloc, &report, until)?;
        assert_eq!(rt; said.lent.as_slice(), lent.as_slice(), "{seed}");
        let due = (whiles.iter().sum(), whiles.iter().max().copied().unwrap_or_default());
        assert_eq!(rt; (said.exhausted, said.longest_exhaustion), due, "{seed}");
        let seen = (said.exhausted_since, said.opening_since);
        assert_eq!(rt; seen, (exhausted_since, opening_since), "{seed}");
        assert_eq!(rt; (said.most_lent, said.until), (most_lent, until), "{seed}");
        tells_the_same(&rt, &said, &Story::of(alloc, &report, origin.reported_at)?)?;
    }
    Ok(())
}

// What is told of a report, word by word: its moment, how long callers wait, counts, the moment of
// the latest failure, and waits with their bound; and how many takes there were at 50 ms, when the
// counts were those that stand before that.
fn told(words: &str) -> Result<(Origin<'static>, Option<Calls>), Fail> {
    let (mut origin, mut status, mut earlier) = (Origin::unknown(), met(|_| {}), None);
    for word in words.split(' ') {
        let (name, values) = word.split_once('=').ok_or("a value")?;
        let mut numbers = values.split('/').flat_map(|number| number.parse::<u64>().ok());
        let mut next = || numbers.next().unwrap_or(0);
        let (number, longer, all) = (next(), next(), next());
        let (at, bound) = (ms(number), ms(number));
        match name {
            "at" => origin.reported_at = (values != "-").then_some(at),
            "patience" => status.connection_timeout = at,
            "timeouts" => status.timeouts = number,
            "refused" => status.refused = number,
            "openings" => status.failed_openings = number,
            "latest" => status.latest_failure = Some(at),
            "checks" => status.failed_checks = number,
            "waits" => status.waits = Some(Waits { bound, longer, all }),
            _ => earlier = Some(Calls::of(number, &status, ms(50))),
        }
        if name != "at" {
            origin.status = Some(status);
        }
    }
    Ok((origin, earlier))
}

// The concerns are these, or else the state is; and after a semicolon stands what else is said.
fn is_said(rt: &impl Host, said: &Summary, wanted: &str) -> Result<(), Fail> {
    let (concerns, state) = (said.concerns(), said.state());
    let concerns: Vec<&Concern> = concerns.iter().flatten().collect(rt.alloc())?;
    let whole = format!(in rt.alloc(); "{said:?}")?;
    let (due, fields) = wanted.split_once("; ").unwrap_or((wanted, ""));
    let first = match state {
        State::Concerned => values(rt.alloc(), &concerns)?,
        _ => values(rt.alloc(), &state)?,
    };
    assert_eq!(rt; first.as_str(), due, "{whole}");
    assert_eq!(rt; state == State::Concerned, !concerns.is_empty(), "{whole}");
    for field in fields.split("; ").filter(|field| !field.is_empty()) {
        let field = format!(in rt.alloc(); " {field},")?;
        assert!(rt; whole.as_str().contains(field.as_str()), "{field} in {whole}");
    }
    Ok(())
}

// In each row stand what goes on in this pool, what is told of its report, and what that says.
fn each_is_said(rt: &impl Host, pool: &str, table: &str) -> Result<(), Fail> {
    for row in table.trim().lines() {
        let (front, wanted) = row.trim().split_once(" => ").ok_or("a row")?;
        let (deeds, words) = front.split_once(" | ").unwrap_or(("", front));
        let pool = format!(in rt.alloc(); "{pool}{deeds}")?;
        let report = played(rt.alloc(), pool.as_str())?;
        let (origin, earlier) = told(words)?;
        let said = summarize(rt.alloc(), &report, &origin, earlier.as_ref())?;
        is_said(rt, &said, wanted)?;
        tells_the_same(rt, &said, &Story::of(rt.alloc(), &report, origin.reported_at)?)?;
    }
    Ok(())
}

// A pool of one that stands still since 20 ms, of which one is lent since then.
const STANDING: &str = "1 1 9: 10 open 20 take ";

// No caller waits for a pool that is closed, so it is not exhausted; where a connection comes back
// broken and its place is ordered anew, it stays so. One that stands still is reckoned up to its
// report, and one without records covers no time.
#[test]
fn a_pool_is_reckoned_to_the_end_of_its_report(rt: HostRuntime) -> Result<(), Fail> {
    let table = "
        50 reap close 90 keep | at=- => Unknown; from: 0ns; until: 90ms; exhausted: 40ms; \
            longest_exhaustion: 30ms; exhausted_since: None
        40 break 90 open | at=- => Unknown; from: 0ns; until: 90ms; exhausted: 80ms; \
            longest_exhaustion: 70ms; exhausted_since: None
        at=- => Unknown; from: 0ns; until: 20ms; exhausted: 10ms; longest_exhaustion: 10ms; \
            exhausted_since: Some(20ms)
        at=15 => Unknown; from: 0ns; until: 20ms; exhausted: 10ms; longest_exhaustion: 10ms; \
            exhausted_since: Some(20ms)
        at=20 => Unknown; from: 0ns; until: 20ms; exhausted: 10ms; longest_exhaustion: 10ms; \
            exhausted_since: Some(20ms)
        at=3600020 => LentForLong 1 Loan 0 Some(20ms) Exhausted 20ms; from: 0ns; until: 3600.02s; \
            exhausted: 3600.01s; longest_exhaustion: 3600s; exhausted_since: Some(20ms)";
    each_is_said(&rt, STANDING, table)?;
    let none = "at=- => Unknown; from: 70ms; until: 70ms; exhausted: 0ns; longest_exhaustion: 0ns";
    each_is_said(&rt, "1 1 0: 70 open", none)
}

// What lasts for as long as a caller waits, 30 seconds, is a concern; before, it is exhausted for
// nearly all of the time. Under a longest delay between openings the limits have that, and the
// status how long a caller waits.
#[test]
fn what_lasts_as_long_as_a_caller_waits_is_a_concern(rt: HostRuntime) -> Result<(), Fail> {
    let table = "
        at=30019 => OftenExhausted 30.009s
        at=30020 => LentForLong 1 Loan 0 Some(20ms) Exhausted 20ms
        at=30020 patience=30001 => OftenExhausted 30.01s; patience: 30.001s
        at=30020 patience=30000 => LentForLong 1 Loan 0 Some(20ms) Exhausted 20ms; patience: 30s
        at=30020 patience=1000 => LentForLong 1 Loan 0 Some(20ms) Exhausted 20ms; patience: 1s";
    each_is_said(&rt, STANDING, table)
}

// Of callers who wait for a second: ten are too long where none failed, and one where one did.
#[test]
fn less_than_ten_seconds_is_no_concern_where_nobody_failed(rt: HostRuntime) -> Result<(), Fail> {
    let table = "
        at=10019 patience=1000 => OftenExhausted 10.009s
        at=10020 patience=1000 => LentForLong 1 Loan 0 Some(20ms) Exhausted 20ms
        at=1019 patience=1000 timeouts=1 => OftenExhausted 1.009s TimedOut 1 2
        at=1020 patience=1000 timeouts=1 => \
            LentForLong 1 Loan 0 Some(20ms) Exhausted 20ms TimedOut 1 2";
    each_is_said(&rt, STANDING, table)
}

// One of the two comes in, in the last row.
#[test]
fn openings_that_never_succeed_are_a_concern(rt: HostRuntime) -> Result<(), Fail> {
    let table = "
        at=30019 => Unknown
        at=30020 => NothingOpens 20ms
        30010 open | at=30020 => Unknown; opening_since: Some(30.01s)";
    each_is_said(&rt, "3 1 9: 10 open 20 take 1020 break ", table)
}

// One that is exhausted for long and then not, also where it is so again at the end.
#[test]
fn a_long_exhaustion_that_is_over_is_a_concern(rt: HostRuntime) -> Result<(), Fail> {
    let table = "
        at=- => WasExhausted 30s; exhausted_since: None
        40000 take | at=40001 => WasExhausted 30s; exhausted_since: Some(40s)";
    each_is_said(&rt, "1 0 9: 10 take 20 open 30 take 30030 keep ", table)
}

// For half of the time, and of what a caller waits: from the take at 1 s on until it is back.
#[test]
fn an_exhaustion_of_half_of_the_time_is_a_concern(rt: HostRuntime) -> Result<(), Fail> {
    let table = "
        17000 keep | at=32000 => OftenExhausted 16s
        17000 keep | at=32001 => Unknown
        15999 keep | at=16000 => Unknown
        16000 keep | at=16001 => OftenExhausted 15s";
    each_is_said(&rt, "1 0 9: 0 take open 1000 take ", table)
}

// Whether a caller failed is a matter of one; all well is never said where that is not known.
#[test]
fn all_is_well_only_where_no_caller_failed(rt: HostRuntime) -> Result<(), Fail> {
    let table = "
        at=9 => Unknown
        at=9 timeouts=0 => Well
        at=9 timeouts=1 => TimedOut 1 2
        at=9 refused=1 => Refused 1 2
        at=9 timeouts=2 refused=3 => TimedOut 2 6 Refused 3 6";
    each_is_said(&rt, "2 0 9: 1 take 2 open 3 take 4 keep", table)
}

// Of ten one fails; those that failed before the report begins, at 6 ms in the last two, are past.
#[test]
fn openings_of_which_one_in_ten_fails_are_a_concern(rt: HostRuntime) -> Result<(), Fail> {
    let table = "
        9 9 9000: open +1 x9 | at=100 openings=1 latest=5 => OpeningsFail 1 9; from: 0ns
        9 9 9000: open +1 x9 | at=100 openings=1 => OpeningsFail 1 9
        9 9 9000: open +1 x9 | at=100 openings=0 => Well
        9 9 9000: open +1 x9 | at=100 openings=2 latest=0 => OpeningsFail 2 9
        10 10 90: open +1 x10 | at=100 openings=1 latest=5 => Well; from: 0ns
        10 10 90: open +1 x10 | at=100 openings=2 latest=5 => OpeningsFail 2 10
        10 10 3: open +1 x10 | at=100 openings=9 latest=6 => OpeningsFail 9 3; from: 6ms
        10 10 3: open +1 x10 | at=100 openings=9 latest=5 => Well; from: 6ms";
    each_is_said(&rt, "", table)
}

// A pool whose one connection is taken and given back, as often as a row says.
const USED: &str = "2 0 9000 1000000: take open, take keep +1 ";

// Where no caller failed, more than each of the two connections once.
#[test]
fn failed_checks_of_one_in_a_hundred_takes_are_a_concern(rt: HostRuntime) -> Result<(), Fail> {
    let table = "
        x300 | at=400 checks=3 => ChecksFail 3 300
        x301 | at=400 checks=3 => Well
        x9 | at=400 checks=2 => Well
        x100 | at=400 checks=1 timeouts=1 => ChecksFail 1 100 TimedOut 1 101
        x101 | at=400 checks=1 timeouts=1 => TimedOut 1 102
        x9 | at=400 checks=0 timeouts=1 => TimedOut 1 10";
    each_is_said(&rt, USED, table)
}

#[test]
fn long_waits_of_one_in_a_hundred_are_a_concern(rt: HostRuntime) -> Result<(), Fail> {
    let table = "
        x3 | at=200 waits=15000/1/100 => WaitedLong Waits 15s 1 100
        x3 | at=200 waits=15000/1/101 => Well
        x3 | at=200 waits=15000/0/0 => Well
        x3 | at=200 waits=15000/7/7 => WaitedLong Waits 15s 7 7";
    each_is_said(&rt, USED, table)
}

// Of a pool of two whose connections may live for a second, each that is closed comes back at that
// age. What comes back to a closed pool is not closed early.
#[test]
fn returns_of_which_one_in_twenty_closes_early_are_a_concern(rt: HostRuntime) -> Result<(), Fail> {
    for (closed, age, kept, said) in [
        (5, 9, 95, "Churn 5 100; returned: 100; closed: 5"),
        (5, 9, 96, "Well; returned: 101; closed: 5"),
        (4, 9, 1, "Well; returned: 5; closed: 4"),
        (6, 499, 0, "Churn 6 6; returned: 6; closed: 6"),
        (6, 500, 0, "Well; returned: 6; closed: 6"),
    ] {
        // The job before the opening may have been a reap.
        let opened = "take open open take";
        let early = format!(in rt.alloc(); "{opened} +{age} break reap reap x{closed}")?;
        let late = format!(in rt.alloc(); "{opened} +1 keep reap +2000 reap x{kept}")?;
        let row = format!(in rt.alloc(); "{early}, {late} | at=0 timeouts=0 => {said}")?;
        each_is_said(&rt, "2 0 9000 1000: ", row.as_str())?;
    }
    let closed = "
        10 take +1 x6, close, 20 keep +1 x6 | \
            at=- => Unknown; returned: 6; closed: 6; closed_early: 0";
    each_is_said(&rt, "9 9 9000: open +1 x9, ", closed)
}

// A loan whose take was folded is as old as was told; that of a record has the last word.
#[test]
fn a_loan_that_was_folded_is_as_long_as_was_told(rt: HostRuntime) -> Result<(), Fail> {
    let pool = "2 2 1: 1 open 2 open 3 take 40000 take";
    let report = played(rt.alloc(), pool)?;
    let loans = [(9, ms(7)), (1, ms(3)), (0, ms(8))];
    let origin = Origin::at(None, ms(40_010)).with_loans(&loans);
    let said = summarize(rt.alloc(), &report, &origin, None)?;
    let wanted = "LentForLong 1 Loan 1 Some(3ms); \
        lent: [Loan { id: 1, since: Some(3ms) }, Loan { id: 0, since: Some(40s) }]";
    is_said(&rt, &said, wanted)
}

// A timeout of before an earlier report is no concern of the time since; nor are long waits, where
// both count by the same bound.
#[test]
fn what_came_before_is_past(rt: HostRuntime) -> Result<(), Fail> {
    let table = "
        x10 | timeouts=3 before=4 at=90 => Well; takes: 6
        x10 | timeouts=0 before=4 at=90 timeouts=3 => TimedOut 3 9
        x10 | waits=15000/5/100 before=1 at=200 waits=15000/5/300 => Well
        x10 | waits=15000/5/100 before=1 at=200 waits=15000/7/300 => WaitedLong Waits 15s 2 200
        x10 | waits=15000/5/100 before=1 at=200 waits=10000/5/300 => WaitedLong Waits 10s 5 300
        x10 | waits=15000/5/100 before=1 at=200 waits=15000/4/300 => WaitedLong Waits 15s 4 300
        x10 | waits=15000/5/100 before=1 at=200 waits=15000/5/90 => WaitedLong Waits 15s 5 90";
    each_is_said(&rt, USED, table)
}
