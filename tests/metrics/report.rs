// The line of a report, and what is read back of it.

use crate::measured::*;
use pool_metrics::{report_of, status_of};
use pool_reports::{Written, from_json_of_pool};
use r2d2::Observe;
use r2d2_core::Report;
use std::time::SystemTime;

// What the line says of a pool.
fn read_of<P: Observe, R: Host>(rt: R, pool: &P, metrics: &Measure<R>) -> Result<Written, Fail> {
    let line = report_of(rt.alloc(), "orders", pool, metrics)?;
    Ok(from_json_of_pool(rt.alloc(), line.as_str())?)
}

// The same of one of these kinds.
fn read<R: Host>(rt: R, pool: &Pool<R>, metrics: &Measure<R>) -> Result<Written, Fail> {
    match &pool.calls {
        Calls::Thread(pool) => read_of(rt, pool, metrics),
        Calls::Counted(pool, _) => read_of(rt, pool, metrics),
        Calls::Task(pool) => read_of(rt, pool, metrics),
        Calls::QuietThread(pool) => read_of(rt, pool, metrics),
        Calls::QuietTask(pool) => read_of(rt, pool, metrics),
        Calls::Gone => Err(Fail::from("no pool")),
    }
}

// Both are lent, at 1 s and 2 s. At 3 s three give up, one waits until 9 s, and two are refused.
fn crowd<R: Host>(pool: &Pool<R>) -> Result<[Lent<R>; 2], Fail> {
    let world = pool.world;
    world.set(1);
    let first = pool.get()?;
    world.set(2);
    let second = pool.get()?;
    world.set(3);
    for _ in 0..3 {
        pool.gives_up(0)?;
    }
    let waiting = pool.begin(LONG)?;
    pool.refused()?;
    pool.refused()?;
    world.set(9);
    drop(first);
    Ok([pool.end(waiting)??, second])
}

// At 12 s the server is gone: a check of what came back fails, and an opening. At 15 s it is back.
fn outage<R: Host>(pool: &Pool<R>, lent: Lent<R>) -> Result<(), Fail> {
    let world = pool.world;
    world.set(12);
    world.checks.goes("-");
    world.connects.goes("-");
    drop(lent);
    // A `try_get` of tasks makes no check.
    if world.kind == Kind::Polled {
        drop(pool.begin(LONG)?);
    } else if !pool.finds_none() {
        return Err(Fail::from("a connection"));
    }
    pool.until(|status| (status.failed_checks, status.failed_openings) == (1, 1))?;
    world.set(15);
    pool.until(|status| status.idle == 1)
}

// What callers met by then. Of the four that were lent a connection one waited from 3 s to 9 s.
const MET: &str = "PoolStatus { connection_timeout: 2s, waiting: 1, waiting_since: Some(16s), \
    timeouts: 3, refused: 2, failed_openings: 1, failed_checks: 1, latest_failure: Some(12s), \
    waits: Some(Waits { bound: 1s, longer: 1, all: 4 }) }";

#[test]
fn the_line_says_what_callers_met(rt: HostRuntime) -> Result<(), Fail> {
    let kinds = [Kind::Limited, Kind::Counted, Kind::Polled, Kind::InLine];
    on_each(rt, &kinds, |world| {
        let mut settings = full(2).waiting(2_000).recorded(64).room(1);
        settings.max_retry_delay = Some(100);
        let (pool, metrics) = measured(rt, world, settings)?;
        let [first, second] = crowd(&pool)?;
        outage(&pool, first)?;
        world.set(16);
        let third = pool.get()?;
        let waiting = pool.begin(LONG)?;
        world.set(20);

        let said = read(rt, &pool, &metrics)?;
        assert_eq!(rt; said.name.as_deref(), Some("orders"));
        assert!(rt; said.created_at.is_some() && said.created_at == pool.created_at());
        assert_eq!(rt; said.reported_at, Some(seconds(20)));
        assert_eq!(rt; said.latest_error.as_deref(), Some("connect 2"));
        let loans = [(second.id(), seconds(2)), (third.id(), seconds(16))];
        assert_eq!(rt; said.loans.as_slice(), loans.as_slice());
        let met = format!(in rt.alloc(); "{:?}", said.status.ok_or("a status")?)?;
        assert_eq!(rt; met.as_str(), MET);
        let (report, journal) = (&said.report, pool.journal()?);
        let timeout = report.limits.connection_timeout().as_millis();
        assert_eq!(rt; (timeout, report.takes), (200, 5));
        assert_eq!(rt; report.records.as_slice(), journal.records.as_slice());
        let lent = [second.id(), third.id()];
        assert_eq!(rt; report.lent.as_slice(), lent.as_slice());
        drop(third);
        holds(pool.end(waiting)?.is_ok())
    })
}

// Nothing failed yet, and nobody hears of errors.
#[test]
fn what_is_not_known_is_not_said(rt: HostRuntime) -> Result<(), Fail> {
    on_each(rt, &QUIET, |world| {
        let metrics = world.measure(rt, 1, NopErrorHandler)?;
        let pool = Pool::quiet(rt, world, |_| {})?;
        let said = read(rt, &pool, &metrics)?;
        assert_eq!(rt; said.latest_error.as_deref(), None);
        assert_eq!(rt; said.loans.len(), 0);
        let mut status = said.status.ok_or("a status")?;
        assert_eq!(rt; (status.timeouts, status.latest_failure), (0, None));
        // Of the 30 s of a `get`, a bound that one can wait for and be served.
        let waits = status.waits.take().ok_or("waits")?;
        assert_eq!(rt; (waits.bound, waits.longer, waits.all), (seconds(10), 0, 0));
        equal(status_of(seconds(30), &pool.status(), None), status)
    })
}

/// A pool that is used while it is read, and whose clock goes on by a second before each of two
/// readings: a connection is taken and given back before the journal is read; and before the moment
/// is, a caller gives up.
#[derive(Drop)]
struct Busy<'a, R: Host> {
    pool: &'a Pool<R>,
    timeout: Duration,
}

impl<R: Host> Observe for Busy<'_, R> {
    ghost timeout_of = { λ busy. busy.timeout };

    fn status(&self) -> Status {
        self.pool.status()
    }

    fn journal(&self) -> Result<Report, Error> {
        self.pool.world.pass(1_000);
        drop(self.pool.get_within(0)?);
        self.pool.calls.journal()
    }

    fn uptime(&self) -> Duration {
        self.pool.world.pass(1_000);
        let _other = self.pool.get_within(0);
        drop(self.pool.get_within(0));
        Duration::from_millis(self.pool.uptime())
    }

    fn created_at(&self) -> Option<SystemTime> {
        self.pool.created_at()
    }

    fn connection_timeout(&self) -> Duration {
        self.timeout
    }
}

// One of two connections is lent since 1 s.
#[test]
fn no_less_is_said_than_happened(rt: HostRuntime) -> Result<(), Fail> {
    let kinds = [Kind::Plain, Kind::InLine, Kind::Counted, Kind::Polled];
    on_each(rt, &kinds, |world| {
        let (pool, metrics) = measured(rt, world, full(2).recorded(64))?;
        world.set(1);
        let lent = pool.get()?;
        world.set(5);
        let (timeout, pool) = (pool.connection_timeout(), &pool);
        let said = read_of(rt, &Busy { pool, timeout }, &metrics)?;
        assert_eq!(rt; said.reported_at, Some(seconds(7)));
        let last = said.report.records.as_slice().last().ok_or("a record")?;
        assert_eq!(rt; last.at(), seconds(6));
        assert_eq!(rt; said.status.ok_or("a status")?.timeouts, 1);
        equal(said.loans.as_slice(), [(lent.id(), seconds(1))].as_slice())
    })
}
