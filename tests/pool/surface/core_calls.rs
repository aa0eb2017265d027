// The core, under the pool's own name.
use r2d2::journal::{Base, Book, Fault, Record, Report};
use r2d2::machine::{Core, Gone, Leftover, Limits, Refusal, Released, Returned, Take};
use r2d2::reuse::{Comparison, Move, compare, is_in_order};
use r2d2::run::{Answer, Step, run_and_report};
use r2d2::schedule::{Job, LendingOrder, Schedule, delay};
use r2d2::steps::Steps;
use std::alloc::Global;
use std::marker::Brand;
use std::sync::ledger::Blank;
use std::test::Fail;
use std::time::Duration;

const ZERO: Duration = Duration::ZERO;

fn seconds(count: u64) -> Duration {
    Duration::from_secs(count)
}

pub(super) fn limits() -> Result<Limits, Fail> {
    let (lifetime, idle) = (Some(seconds(9)), Some(seconds(3)));
    let limits = Limits::of(2, Some(1), lifetime, idle, seconds(1), seconds(2));
    Ok(limits.ok_or("limits")?)
}

#[test]
fn schedules(rt: HostRuntime) -> Result<(), Fail> {
    let limits = limits()?;
    assert_eq!(rt; (limits.max_size(), limits.min_idle(), limits.wanted()), (2, Some(1), 1));
    assert_eq!(rt; limits.max_lifetime(), Some(seconds(9)));
    assert_eq!(rt; limits.idle_timeout(), Some(seconds(3)));
    assert_eq!(rt; limits.connection_timeout(), seconds(1));
    assert_eq!(rt; limits.reap_every(), seconds(2));
    let limits = limits.with_order(LendingOrder::OldestFirst);
    assert_eq!(rt; limits.order(), LendingOrder::OldestFirst);

    let mut counted = Schedule::new(rt.alloc(), limits, ZERO)?;
    let mut steps: Steps<Brand> = Steps::new(Blank::new(1));
    counted.order(seconds(1), 3, &mut steps);
    assert_eq!(rt; counted.len(), 1);
    assert_eq!(rt; counted.next(seconds(1), &mut steps), Job::Open { tries: 3 });
    let mut schedule = Schedule::new(rt.alloc(), limits, ZERO)?;
    schedule.order_uncounted(seconds(1), 4);
    for (now, job) in [
        (0, Job::Wait(seconds(1))),
        (1, Job::Open { tries: 4 }),
        (2, Job::Reap),
    ] {
        assert_eq!(rt; schedule.next_uncounted(seconds(now)), job);
    }
    schedule.clear();
    assert_eq!(rt; schedule.next_uncounted(seconds(9)), Job::Nothing);
    assert_eq!(rt; delay(seconds(1), 1), Duration::from_millis(400));
    Ok(())
}

// In a new core or book a connection is opened, which has this id, lent and given back; another
// opening fails.
macro_rules! opens_and_lends {
    ($rt:expr, $core:expr, $id:literal) => {
        assert_eq!($rt; ($core.next_id(), $core.next_idle_since()), ($id, None));
        assert_eq!($rt; $core.begin(ZERO), Job::Open { tries: 0 });
        assert_eq!($rt; $core.number(0), Ok($id));
        assert!($rt; $core.admit(ZERO, $id, 7).is_ok());
        assert!($rt; matches!($core.take(seconds(1), true), Take::Found { id: $id, value: 7, .. }));
        assert_eq!($rt; $core.begin(seconds(1)), Job::Open { tries: 0 });
        assert!($rt; $core.fail(seconds(1), 0, None).is_ok());
        let returned = $core.put_back(seconds(1), $id, 7, false);
        assert!($rt; matches!(returned, Ok(Returned::Kept)));
        assert!($rt; $core.take_error().is_none());
        assert_eq!($rt; ($core.connections(), $core.idle(), $core.pending()), (1, 1, 1));
        assert_eq!($rt; $core.next_id(), $id + 1);
    };
}

// Since when it is idle, and when it was admitted; it is lent again, and gone after a failed check.
macro_rules! discards {
    ($rt:expr, $core:expr) => {
        assert_eq!($rt; ($core.next_idle_since(), $core.lent_birth(0)), (Some(seconds(1)), None));
        assert!($rt; matches!($core.take(seconds(2), false), Take::Found { id: 0, .. }));
        assert_eq!($rt; $core.lent_birth(0), Some(ZERO));
        assert!($rt; matches!($core.fail_check(seconds(2), 0, None), Ok(Gone { .. })));
        assert!($rt; matches!($core.fail_check(seconds(2), 0, None), Err(Refusal::NotLent)));
        assert!($rt; !$core.is_closed());
    };
}

#[test]
fn steps(rt: HostRuntime) -> Result<(), Fail> {
    let mut core: Core<u32> = Core::new(rt.alloc(), limits()?, ZERO)?;
    opens_and_lends!(rt, core, 0);
    discards!(rt, core);

    let mut core: Core<u32> = Core::with_first_id(rt.alloc(), limits()?, ZERO, 5)?;
    opens_and_lends!(rt, core, 5);
    let room = core.limits().max_size() as usize;
    let mut released: Vec<Released<u32>> = Vec::with_capacity(rt.alloc(), room)?;
    assert_eq!(rt; core.reap_uncounted(seconds(8), &mut released), 1);
    assert_eq!(rt; released.len(), 1);
    let left: Leftover<u32> = core.close();
    assert_eq!(rt; left.count(), 0);
    Ok(())
}

#[test]
fn books(rt: HostRuntime) -> Result<(), Fail> {
    let mut book: Book<u32> = Book::new(rt.alloc(), limits()?, ZERO, 8)?;
    opens_and_lends!(rt, book, 0);
    discards!(rt, book);
    let mut released = Vec::with_capacity(rt.alloc(), book.limits().max_size() as usize)?;
    assert_eq!(rt; book.reap(seconds(9), &mut released), 0);
    assert!(rt; book.close().next().is_none());
    assert!(rt; book.is_closed());
    Ok(())
}

#[test]
fn a_run_and_its_report(rt: HostRuntime) -> Result<(), Fail> {
    let steps: Vec<Step<u32>> = vec![in rt.alloc(); Step::Begin { now: ZERO }, Step::Close]?;
    let (report, answers) = run_and_report(rt.alloc(), limits()?, ZERO, 1, steps)?;
    assert!(rt; matches!(answers.first(), Some(Answer::Begin(Job::Open { tries: 0 }))));
    assert!(rt; report.records.as_slice() == [Record::ClosedAll { at: ZERO }].as_slice());
    assert_eq!(rt; (report.connections, report.pending, report.closed), (0, 0, true));
    Ok(())
}

#[test]
fn journals(rt: HostRuntime) -> Result<(), Fail> {
    let mut book: Book<u32> = Book::new(rt.alloc(), limits()?, ZERO, 1)?;
    let _ = book.take(seconds(1), true);
    let report: Report = book.report()?;
    let (at, ordered) = (seconds(1), 1);
    assert!(rt; report.records.as_slice() == [Record::Ordered { at, ordered }].as_slice());
    assert_eq!(rt; (report.connections, report.pending, report.lost), (0, 2, 0));

    let book: Book<u32> = Book::with_first_id(rt.alloc(), limits()?, ZERO, 1, 5)?;
    assert_eq!(rt; book.next_id(), 1);
    let Report { records, idle, .. } = book.report_in(rt.alloc())?;
    let (records, idle): (Vec<Record>, Vec<u64>) = (records, idle);
    assert_eq!(rt; (records.len(), idle.len()), (0, 0));
    Ok(())
}

// A report as a reader of a log puts it together: of a book that noted nothing yet. Nothing stands
// before its first record but the openings that are wanted.
fn first_report(alloc: Global) -> Result<Report, Fail> {
    let limits = limits()?;
    let (connections, pending, closed) = (0, limits.wanted(), false);
    let base = Base {
        at: ZERO,
        idle: Vec::new(alloc),
        lent: Vec::new(alloc),
        connections,
        pending,
        closed,
    };
    Ok(Report {
        limits,
        base,
        records: Vec::new(alloc),
        lost: 0,
        takes: 0,
        idle: Vec::new(alloc),
        lent: Vec::new(alloc),
        connections,
        pending,
        closed,
    })
}

#[test]
fn bases(rt: HostRuntime) -> Result<(), Fail> {
    assert_eq!(rt; first_report(rt.alloc())?.replays(), Ok(true));
    let mut book: Book<u32> = Book::new(rt.alloc(), limits()?, ZERO, 0)?;
    opens_and_lends!(rt, book, 0);
    let report = book.report()?;
    assert_eq!(rt; report.replays(), Ok(true));
    let base: &Base = &report.base;
    let counts = (base.connections, base.pending, base.closed);
    assert_eq!(rt; (base.at, counts), (seconds(1), (1, 1, false)));
    assert!(rt; base.idle.as_slice() == [(0, ZERO, seconds(1))].as_slice());

    let _ = book.take(seconds(2), false);
    let report = book.report()?;
    assert_eq!(rt; report.replays(), Ok(true));
    assert!(rt; report.base.lent.as_slice() == [(0, ZERO)].as_slice());
    Ok(())
}

#[test]
fn faults(rt: HostRuntime) -> Result<(), Fail> {
    let mut report = first_report(rt.alloc())?;
    assert!(rt; report.first_fault()?.is_none());
    report.connections = 1;
    assert!(rt; matches!(report.first_fault()?, Some(Fault::Counts { .. })));
    // Nothing is lent that could come back.
    let (id, at) = (0, seconds(1));
    report.records = vec![in rt.alloc(); Record::Kept { at, id }]?;
    assert!(rt; matches!(report.first_fault()?, Some(Fault::Record { place: 0, .. })));
    // More are on order than there may be.
    report.base.pending = 3;
    assert!(rt; matches!(report.first_fault()?, Some(Fault::Base)));
    Ok(())
}

#[test]
fn comparisons(rt: HostRuntime) -> Result<(), Fail> {
    let idle = [ZERO, seconds(1)];
    let moves = [Move::Take(seconds(1)), Move::Add(seconds(2))];
    assert!(rt; is_in_order(&idle));
    let (newest_first, oldest_first, other): (usize, usize, usize) = (1, 0, 0);
    let expected = Comparison {
        newest_first,
        oldest_first,
        other,
    };
    for (picks, found) in [(&[0][..], Some(expected)), (&[], None), (&[3], None)] {
        assert_eq!(rt; compare(rt.alloc(), &idle, &moves, picks, seconds(3), seconds(3))?, found);
    }
    Ok(())
}
