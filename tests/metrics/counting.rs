// What is counted and timed over pools, and which connections somebody forgot to give back.

use crate::measured::*;
use pool_metrics::{LongLoan, Metrics, Scale, Scales, Timed, UpTo};
use r2d2::Builder;
use r2d2::event::{AcquireEvent, HandleEvent, ReleaseEvent};
use std::array;

#[test]
fn known_traffic(rt: HostRuntime) -> Result<(), Fail> {
    on_each(rt, &ALL, |world| {
        let (pool, metrics) = measured(rt, world, full(2))?;
        let (first, second) = (pool.get()?, pool.get()?);
        pool.gives_up(20)?;
        // Who had no time to wait waited in vain too.
        assert!(rt; pool.get_within(0).is_err());
        assert!(rt; pool.get_within(0).is_err());
        drop(first);
        assert!(rt; pool.try_get()?.is_some());
        drop(second);
        let seen = metrics.snapshot();
        let closed = seen.closed.total();
        assert_eq!(rt; (seen.opened, closed, seen.timeouts), (2, 0, 3));
        // Two were lent for as long as the call waited in vain.
        assert_eq!(rt; lengths(&seen), [(3, 0), (3, 20), (3, 40), (0, 0)]);
        holds(seen.openings.is_none())
    })
}

#[test]
fn opened_are_closed_or_still_there(rt: HostRuntime) -> Result<(), Fail> {
    on_each(rt, &ALL, |world| {
        let (pool, metrics) = measured(rt, world, full(3))?;
        world.breaks.goes("+-");
        for _ in 0..9 {
            drop(pool.get()?);
        }
        pool.until(|status| status.opening == 0)?;
        let (seen, connections) = (metrics.snapshot(), pool.status().connections);
        let left = seen.ages.count();
        assert!(rt; left > 0);
        assert_eq!(rt; (seen.opened, seen.closed.broken), (left + u64::from(connections), left));
        equal(seen.uses.count(), 9)
    })
}

#[test]
fn no_more_came_back_than_were_lent_while_threads_count(rt: HostRuntime) -> Result<(), Fail> {
    on_each(rt, &BESIDE, |world| {
        let (pool, metrics) = measured(rt, world, full(4))?;
        let mut threads = Vec::new(rt.alloc());
        for _ in 0..4 {
            threads.push(pool.aside(move |calls| {
                (0..200).filter(|_| calls.get(rt).is_ok()).count()
            })?)?;
        }
        for _ in 0..100 {
            let seen = metrics.snapshot();
            assert!(rt; seen.uses.count() <= seen.waits.count());
        }
        for thread in threads {
            assert_eq!(rt; thread.join(&rt), 200);
        }
        assert_eq!(rt; lengths(&metrics.snapshot()), [(800, 0), (0, 0), (800, 0), (0, 0)]);
        equal(metrics.lent_longer_than(Duration::ZERO)?.len(), 0)
    })
}

// Whether the buckets end where those of this scale do.
fn has_bounds(seen: Distribution, scale: Scale) -> bool {
    let buckets = seen.buckets();
    let mut ends = buckets.iter().zip(scale.bounds().iter());
    ends.all(|(bucket, bound)| bucket.up_to == UpTo::Nanos(*bound))
}

// Lengths have the usual scales where no others are chosen.
#[test]
fn each_length_is_counted_between_bounds_of_its_scale(rt: HostRuntime) -> Result<(), Fail> {
    let usual = Scales::default();
    // Thirteen bounds, so many nanoseconds from each to the next.
    let every = |nanos: u64| Scale::of(array::from_fn(|place| (place as u64 + 1) * nanos));
    let scale = |nanos: u64| every(nanos).ok_or("bounds that do not rise");
    let mut chosen = usual;
    (chosen.waits, chosen.uses) = (scale(1)?, scale(2)?);
    (chosen.openings, chosen.ages) = (scale(3)?, scale(4)?);
    let other = Metrics::with_bounds(rt, 1, chosen)?;
    for (metrics, scales) in [(Metrics::new(rt, 1)?, usual), (other, chosen)] {
        let _manager = Timed::new((), &metrics)?;
        let seen = metrics.snapshot();
        assert!(rt; has_bounds(seen.waits, scales.waits));
        assert!(rt; has_bounds(seen.timed_out_waits, scales.waits));
        assert!(rt; has_bounds(seen.uses, scales.uses));
        assert!(rt; has_bounds(seen.openings.ok_or("openings")?, scales.openings));
        assert!(rt; has_bounds(seen.ages, scales.ages));
    }
    Ok(())
}

// Whether these are lent, by their ids, for so many seconds.
fn are(loans: Vec<LongLoan>, wanted: &[(u64, u64)]) -> bool {
    let told = |loan: &LongLoan| (loan.id, milliseconds(loan.lent_for()));
    let mut pairs = loans.iter().map(told).zip(wanted);
    loans.len() == wanted.len() && pairs.all(|(loan, (id, lent))| loan == (*id, lent * 1_000))
}

// All that are lent are listed, and those lent for so long; the longest loan is that of who was
// lent first.
#[test]
fn finds_a_leak(rt: HostRuntime) -> Result<(), Fail> {
    on_each(rt, &ALL, |world| {
        let (pool, metrics) = measured(rt, world, full(3))?;
        let shows = |lent: &[(u64, u64)]| -> Result<(), Fail> {
            assert!(rt; are(metrics.loans()?, lent), "{lent:?}");
            for bound in [0, 50, 60_000] {
                let longer = lent.iter().filter(|it| it.1 > bound).count();
                let listed = metrics.lent_longer_than(seconds(bound))?;
                assert!(rt; are(listed, &lent[..longer]), "{lent:?} above {bound}");
            }
            let longest = lent.first().map_or(0, |it| it.1);
            equal(metrics.snapshot().longest_loan, seconds(longest))
        };
        shows(&[])?;
        let first = pool.get()?;
        world.set(60);
        let second = pool.get()?;
        world.set(120);
        drop(pool.get()?);
        let third = pool.get()?;
        let all = [(first.id(), 120), (second.id(), 60), (third.id(), 0)];
        shows(&all)?;
        drop(first);
        shows(&all[1..])?;
        drop(second);
        shows(&all[2..])?;
        assert_eq!(rt; metrics.unlisted(), 0);
        // What is detached is not lent any more.
        let number = third.number();
        assert_eq!(rt; third.detach().number, number);
        shows(&[])?;
        equal(metrics.snapshot().ages.count(), 1)
    })
}

#[test]
fn what_has_no_room_is_counted(rt: HostRuntime) -> Result<(), Fail> {
    on_each(rt, &ALL, |world| {
        let metrics = world.measure(rt, 1, NopErrorHandler)?;
        let pool = Pool::of(rt, world, full(2))?;
        let (first, second) = (pool.get()?, pool.get()?);
        world.set(5);
        let loans = metrics.lent_longer_than(Duration::ZERO)?;
        assert!(rt; are(loans, &[(first.id(), 5)]));
        assert_eq!(rt; metrics.unlisted(), 1);
        drop(second);
        equal(metrics.lent_longer_than(Duration::ZERO)?.len(), 1)
    })
}

// Each reading of the clock shows a second more, so a call waits for some. When its connection was
// lent it tells itself; the metrics read the clock after that, and so may threads meanwhile.
#[test]
fn what_a_caller_waited_is_no_loan(rt: HostRuntime) -> Result<(), Fail> {
    on_each(rt, &ALL, |world| {
        let (pool, metrics) = measured(rt, world, full(1))?;
        world.set(5);
        world.readings.goes("1+*");
        let lent = pool.get()?;
        let is_alone = world.kind == Kind::Polled;
        let asked = world.readings.asked_since();
        let later = if is_alone { 1 } else { asked };
        world.readings.goes("");
        world.set(50);
        assert!(rt; metrics.snapshot().waits.sum() >= seconds(1));
        let lent_for = metrics.loans()?[0].lent_for();
        let since = seconds(50) - Duration::from_millis(lent.lent_at());
        assert!(rt; lent_for <= since, "{lent_for:?}");
        assert!(rt; lent_for >= since - seconds(later), "{lent_for:?}");
        equal(metrics.snapshot().longest_loan, lent_for)
    })
}

// An opening fails, and the next one takes 4 s, long after the metrics were made.
#[test]
fn openings_are_timed_and_all_else_is_the_managers(rt: HostRuntime) -> Result<(), Fail> {
    on_each(rt, &[Kind::Plain], |world| {
        let place = Place { world, rt };
        let metrics = Metrics::new(place, 1)?;
        world.pass(1_000);
        let timed = Timed::new(Manager { world }, &metrics)?;
        // It is told that nothing was opened, before something is.
        assert_eq!(rt; metrics.snapshot().openings.ok_or("openings")?.count(), 0);
        world.connects.goes("2-4+");
        let pool = Builder::new()
            .max_size(1)
            .test_on_check_out(true)
            .max_retry_delay(Some(Duration::from_millis(100)))
            .event_handler(metrics.try_clone()?)
            .build_unchecked(place, timed)?;
        assert!(rt; world.watch(|| pool.status().failed_openings == 1));
        world.pass(100);
        assert!(rt; world.watch(|| pool.status().idle == 1));
        // The opening that failed is not among those that are timed.
        let openings = metrics.snapshot().openings.ok_or("openings")?;
        let timed = (openings.count(), openings.sum());
        assert_eq!(rt; (timed, world.connects.asked()), ((1, seconds(4)), 2));

        world.breaks.goes("-");
        let lent = pool.get()?;
        assert_eq!(rt; (lent.number, world.checks.asked()), (0, 1));
        assert_eq!(rt; metrics.snapshot().ages.count(), 0);
        // It comes back broken.
        drop(lent);
        equal(metrics.snapshot().ages.count(), 1)
    })
}

// Another thread tells of a million connections, each opened and closed, while this one looks.
#[test]
fn no_more_are_closed_than_were_opened(rt: HostRuntime) -> Result<(), Fail> {
    let metrics = Metrics::new(rt, 1)?;
    let counting = metrics.try_clone()?;
    // One that is so old is counted in the bucket that is read last.
    let age = Duration::from_secs(1_000_000);
    let thread = thread::spawn(&rt, move || {
        for id in 0..1_000_000 {
            counting.handle_acquire(AcquireEvent::of(id));
            counting.handle_release(ReleaseEvent::of(id, age, PoolClosed));
        }
    })?;
    let mut seen = metrics.snapshot();
    while seen.closed.total() < 1_000_000 {
        assert!(rt; seen.ages.count() <= seen.opened && seen.closed.total() <= seen.opened);
        seen = metrics.snapshot();
    }
    thread.join(&rt);
    let seen = metrics.snapshot();
    let counts = (seen.opened, seen.ages.count(), seen.closed.total());
    equal(counts, (1_000_000, 1_000_000, 1_000_000))
}
