// Which connections are closed for their time: by a clock that the test moves, after which the next
// reap comes soon.

use super::*;
use crate::event::ReleaseEvent;
use r2d2_core::LendingOrder;

// A pool of at most so many, which looks for expired connections every 50 ms.
fn of(max_size: u32) -> Builder<Lines> {
    Builder::new().max_size(max_size).reaper_rate(Duration::from_millis(50))
}

fn seconds(count: u64) -> Option<Duration> {
    Some(Duration::from_secs(count))
}

// Five lines, and a clock.
fn five<R: PoolRuntime>(rt: R) -> Result<(Lines, &'static AtomicU64, Hand<R>), AllocError> {
    let lines = Lines::new(rt.alloc(), 5)?;
    Ok((lines, lines.dropped, Hand::new(rt)?))
}

#[test]
fn test_idle_timeout(rt: HostRuntime) -> Result<(), Fail> {
    let (lines, dropped, hand) = five(rt)?;
    let pool = of(5).idle_timeout(seconds(1)).build(hand, lines)?;
    let lent = pool.get()?;
    hand.set(2000);
    assert_eq!(rt; watched(&rt, dropped, 4), 4);
    drop(lent);
    assert_eq!(rt; dropped.load(Ordering::SeqCst), 4);
    Ok(())
}

#[test]
fn idle_timeout_partial_use(rt: HostRuntime) -> Result<(), Fail> {
    let (lines, dropped, hand) = five(rt)?;
    let pool = of(5).idle_timeout(seconds(1)).build(hand, lines)?;
    for time in 1..9u64 {
        hand.set(250 * time);
        drop(pool.get()?);
    }
    assert_eq!(rt; watched(&rt, dropped, 4), 4);
    assert_eq!(rt; pool.state().connections, 1);
    Ok(())
}

#[test]
fn test_max_lifetime(rt: HostRuntime) -> Result<(), Fail> {
    let (lines, dropped, hand) = five(rt)?;
    let pool = of(5).max_lifetime(seconds(1)).build(hand, lines)?;
    let lent = pool.get()?;
    hand.set(2000);
    assert_eq!(rt; watched(&rt, dropped, 4), 4);
    drop(lent);
    assert_eq!(rt; dropped.load(Ordering::SeqCst), 5);
    assert!(rt; comes_within(&rt, LOOKS, || pool.status().failed_openings > 0));
    let error = pool.get_timeout(Duration::ZERO).err().ok_or("a connection")?;
    assert_eq!(rt; error.kind(), crate::ErrorKind::Timeout);
    Ok(())
}

// One of two connections is closed while one is lent and given back all the time, for twice the
// idle timeout, only where the newest is lent first. After that it is looked for so often.
#[test]
fn newest_first_leaves_one_to_expire_and_oldest_first_none(rt: HostRuntime) -> Result<(), Fail> {
    for (order, looks, does_expire) in [
        (LendingOrder::NewestFirst, LOOKS, true),
        (LendingOrder::OldestFirst, 30, false),
    ] {
        let (lines, dropped, hand) = five(rt)?;
        let builder = of(2).lending_order(order).idle_timeout(seconds(2));
        let pool = builder.build(hand, lines)?;
        for time in 1..21u64 {
            hand.set(200 * time);
            drop(pool.get()?);
        }
        let has_dropped = || dropped.load(Ordering::SeqCst) > 0;
        assert_eq!(rt; comes_within(&rt, looks, has_dropped), does_expire, "{order:?}");
    }
    Ok(())
}

/// Counts the releases that come in the order of the ids, each of a connection that is said to be
/// half a second old.
#[derive(Debug, Drop)]
struct HalfSeconds(&'static AtomicU64);

impl HandleEvent for HalfSeconds {
    fn handle_release(&self, event: ReleaseEvent) {
        let next = self.0.load(Ordering::SeqCst);
        if (event.connection_id(), event.age()) == (next, Duration::from_millis(500)) {
            self.0.store(next + 1, Ordering::SeqCst);
        }
    }
}

#[test]
fn how_old_expired_connections_are(rt: HostRuntime) -> Result<(), Fail> {
    let ((lines, dropped, hand), told) = (five(rt)?, shared(rt.alloc())?);
    let pool = of(2)
        .min_idle(Some(0))
        .idle_timeout(Some(Duration::from_millis(500)))
        .event_handler(HalfSeconds(told))
        .build(hand, lines)?;
    // From here on the time since the pool was made is no age.
    hand.set(2000);
    drop((pool.get()?, pool.get()?));
    hand.set(2500);
    assert_eq!(rt; watched(&rt, dropped, 2), 2);
    // The one that was idle longest is told of first.
    assert_eq!(rt; told.load(Ordering::SeqCst), 2);
    Ok(())
}

/// How many releases there were, and whether they may go on.
#[derive(Default, Drop)]
struct Held {
    releases: AtomicU64,
    may_go_on: AtomicU64,
}

/// A customizer whose releases wait until the test lets them go on.
#[derive(Drop)]
struct Holds<R>(Arc<Held>, R);

impl<R> fmt::Debug for Holds<R> {
    fn fmt<W: fmt::Write>(&self, f: &mut fmt::Formatter<W>) -> fmt::Result {
        f.write_str("Holds")
    }
}

impl<R: PoolRuntime> CustomizeConnection<Line, &'static str> for Holds<R> {
    fn on_release(&self, _line: Line) {
        let Holds(held, rt) = self;
        held.releases.fetch_add(1, Ordering::SeqCst);
        // For longer than the test looks for all that comes meanwhile.
        comes_within(rt, 3 * LOOKS, || held.may_go_on.load(Ordering::SeqCst) > 0);
    }
}

#[test]
fn close_amid_a_reap(rt: HostRuntime) -> Result<(), Fail> {
    let (lines, dropped, hand) = five(rt)?;
    let held = Arc::new(rt.alloc(), Held::default())?;
    let builder = of(1).min_idle(Some(0)).idle_timeout(seconds(1));
    let builder = builder.connection_customizer(Holds(Arc::try_clone(&held)?, rt));
    let pool = builder.build(hand, lines)?;
    drop(pool.get()?);
    hand.set(1000);
    assert_eq!(rt; watched(&rt, &held.releases, 1), 1);
    drop(pool);
    assert_eq!(rt; dropped.load(Ordering::SeqCst), 0);
    held.may_go_on.store(1, Ordering::SeqCst);
    // The worker ends with its releases, and with it the last that holds the customizer.
    assert!(rt; comes_within(&rt, LOOKS, || Arc::strong_count(&held) == 1));
    assert_eq!(rt; held.releases.load(Ordering::SeqCst), 1);
    assert_eq!(rt; dropped.load(Ordering::SeqCst), 1);
    Ok(())
}
