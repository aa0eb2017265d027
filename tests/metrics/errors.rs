// What the metrics tell of errors: of a server that went away, and of the latest one.

use crate::clock::BEGIN;
use crate::ear::Ear;
use crate::measured::*;
use crate::printing::{reading, tells, text};
use pool_metrics::LatestError;
use r2d2::PoolRuntime;
use std::fmt;
use std::time::SystemTime;

// At 5 s the server of two connections goes away, of which a `try_get` hears at two checks, and
// then the worker at two openings. It tries a third one, which hangs.
fn dies<R: Host>(pool: &Pool<R>, metrics: &Measure<R>) -> Result<(), Fail> {
    let world = pool.world;
    world.set(5);
    world.checks.goes("-*");
    world.connects.goes("~--~-*");
    if !pool.finds_none() || !world.watch(|| world.connects.hangs()) {
        return Err(Fail::from("a connection"));
    }
    world.let_go(&world.connects);
    world.watch(|| metrics.snapshot().errors == Some(4));
    pool.until(|status| (status.failed_checks, status.failed_openings) == (2, 2))
}

// What a page tells amid the outage, where one of three connections is lent since 2 s.
const TOLD: &str = "o count idle=0 used=1, o pending_openings 2, o longest_loan_seconds 7, \
    o failed_openings_total 2, o failed_checks_total 2, o errors_total 4, \
    o latest_error_timestamp_seconds 1700000004.5, o opened_total 3, o timeouts_total 0, \
    o closed_total check_failed=2, o closed_total broken=0, o closed_total detached=0, \
    o timed_out_wait_time_seconds count=0, o age_seconds count=2";

#[test]
fn an_outage_is_told(rt: HostRuntime) -> Result<(), Fail> {
    on_each(rt, &THREADS, |world| {
        let inside = World::new(world.rt, world.kind)?;
        let metrics = world.measure(rt, 3, Ear::new(inside))?;
        let pool = Pool::of(rt, world, full(3).checked())?;
        let seen = metrics.snapshot();
        assert_eq!(rt; (seen.errors, seen.latest_error), (Some(0), None));
        assert_eq!(rt; seen.latest_error_at, None);
        world.set(2);
        let lent = pool.get()?;
        dies(&pool, &metrics)?;
        world.set(9);
        // Each error came to the handler inside too.
        let errors = [Check(1), Check(2), Connect(3), Connect(4)].map(Failed);
        assert!(rt; inside.went(&errors));
        let snapshot = metrics.snapshot();
        let latest = metrics.latest_error()?.ok_or("an error")?;
        let seen = (latest.at, latest.text.as_deref(), latest.time);
        assert_eq!(rt; seen, (seconds(5), Some("connect 4"), snapshot.latest_error_at));
        let seen = (snapshot.errors, snapshot.latest_error, latest.time.is_some());
        assert_eq!(rt; seen, (Some(4), Some(seconds(4)), true));
        let mut reading = reading("o", snapshot);
        reading.status = pool.status();
        let at = Duration::from_millis(1_700_000_004_500);
        reading.snapshot.latest_error_at = Some(SystemTime::UNIX_EPOCH + at);
        let page = text(rt, &[reading])?;
        for told in TOLD.split(", ") {
            tells(&rt, page.as_str(), told)?;
        }
        drop(lent);
        Ok(())
    })
}

#[test]
fn who_hears_of_no_error_counts_none(rt: HostRuntime) -> Result<(), Fail> {
    let metrics = Metrics::new(rt, 1)?;
    let seen = metrics.snapshot();
    assert_eq!(rt; (seen.errors, seen.latest_error), (None, None));
    let handler = metrics.around(NopErrorHandler)?;
    assert_eq!(rt; metrics.snapshot().errors, Some(0));
    handler.handle_error(Check(0));
    assert_eq!(rt; metrics.snapshot().errors, Some(1));
    let shown = format!(in rt.alloc(); "{handler:?}")?;
    let wanted = "CountingErrorHandler { handler: NopErrorHandler }";
    equal(shown.as_str(), wanted)
}

// What is kept of this error, which comes now.
fn heard<R, E>(metrics: &Metrics<R>, error: E) -> Result<LatestError, Fail>
where
    R: PoolRuntime,
    E: fmt::Display + Drop,
{
    metrics.around(NopErrorHandler)?.handle_error(error);
    Ok(metrics.latest_error()?.ok_or("an error")?)
}

/// An error that looks at the metrics, as it says how many errors there are, and may fail then.
#[derive(Drop)]
struct Curious<R> {
    metrics: Metrics<R>,
    fails: bool,
}

impl<R: PoolRuntime> fmt::Display for Curious<R> {
    fn fmt<W: fmt::Write>(&self, f: &mut fmt::Formatter<W>) -> fmt::Result {
        write!(f, "after {}", self.metrics.snapshot().errors.unwrap_or(0))?;
        if self.fails { Err(fmt::Error) } else { Ok(()) }
    }
}

// It is made without the lock.
#[test]
fn the_latest_text_stands_with_its_moment(rt: HostRuntime) -> Result<(), Fail> {
    let world = World::new(rt, Kind::Plain)?;
    let metrics = Metrics::new(Place { world, rt }, 1)?;
    let curious = |fails| metrics.try_clone().map(|metrics| Curious { metrics, fails });
    assert!(rt; metrics.latest_error()?.is_none());
    world.set(3);
    let first = heard(&metrics, "refused")?;
    world.set(8);
    let second = heard(&metrics, curious(false)?)?;
    world.set(9);
    let third = heard(&metrics, curious(true)?)?;
    // The first one is as it was told, and the last one, which fails to tell the whole of its text,
    // has not that of another.
    let told = [
        (first, Some("refused"), 3),
        (second, Some("after 1"), 8),
        (third, None, 9),
    ];
    for (error, text, at) in &told {
        assert_eq!(rt; (error.text.as_deref(), error.at), (*text, seconds(*at)));
    }
    assert_eq!(rt; metrics.snapshot().errors, Some(3));
    // A long one is cut.
    let long = heard(&metrics, "x".repeat(rt.alloc(), 5000)?)?;
    equal(long.text.ok_or("a text")?.len(), 1000)
}

// Both clocks are set back, at last to before the making; then the wall clock can not be read.
#[test]
fn the_wall_clock_is_read_at_each_error(rt: HostRuntime) -> Result<(), Fail> {
    let world = World::new(rt, Kind::Plain)?;
    let metrics = Metrics::new(Place { world, rt }, 1)?;
    world.set(9);
    for back in [5, 10] {
        world.turn_back(5_000);
        let time = heard(&metrics, "refused")?.time;
        let day = Duration::from_nanos(BEGIN) + Duration::new(1_000_000, 17);
        let shown = day + seconds(9) - seconds(back);
        assert_eq!(rt; time, Some(SystemTime::UNIX_EPOCH + shown));
        assert_eq!(rt; metrics.snapshot().latest_error_at, time);
    }
    world.days.goes("-*");
    let (heard, seen) = (heard(&metrics, "no route")?, metrics.snapshot());
    assert_eq!(rt; (heard.text.as_deref(), heard.time), (Some("no route"), None));
    holds(seen.latest_error.is_some() && seen.latest_error_at.is_none())
}
