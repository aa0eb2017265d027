// Who returns a connection and asks for one at once: a caller that the return woke comes first,
// where none did so for a while. The clock stands still in between.

use crate::rows::*;

/// So often a connection comes back while somebody waits for it, at most, and so often one of them is
/// to come first: on a busy machine a thread may lose its processor at any point.
const ROUNDS: u64 = 100;

const ENOUGH: u64 = 5;

/// So often a `get` that finds one idle reads the clock: as it begins, takes it, and tells of that.
const USUAL: u64 = 3;

/// Who is to come first: the one that waits, or this thread, which returns and asks again.
#[derive(Clone, Copy, PartialEq)]
enum First {
    Waiter,
    Returner,
}

// Whether one of them comes first, often enough. So many nanoseconds pass before each return.
fn comes_first<R: Host>(
    rt: R,
    world: &World,
    pool: &Pool<R>,
    first: First,
    nanoseconds: u64,
) -> Result<bool, Fail> {
    let (mut lent, mut count) = (pool.get()?, 0);
    for round in 1..=ROUNDS {
        let waits = pool.aside(move |calls| {
            if let Ok(mut lent) = calls.get(rt) {
                lent.write(round);
            }
        })?;
        pool.until(|status| status.waiting == 1)?;
        world.pass_nanoseconds(nanoseconds);
        drop(lent);
        lent = pool.get_within(LONG)?;
        let was_used = lent.mark() == round;
        count += u64::from(was_used == (first == First::Waiter));
        drop(lent);
        waits.join(&rt);
        if count == ENOUGH {
            return Ok(true);
        }
        lent = pool.get_within(LONG)?;
    }
    Ok(false)
}

// Whether a `try_get` finds what this thread returned, before the one that waits takes it, often
// enough.
fn tries_first<R: Host>(world: &World, pool: &Pool<R>) -> Result<bool, Fail> {
    let (mut lent, mut count) = (pool.get()?, 0);
    for _ in 0..ROUNDS {
        let waits = pool.begin(LONG)?;
        world.pass_nanoseconds(3_500_000);
        drop(lent);
        count += u64::from(pool.try_get()?.is_some());
        lent = pool.end(waits)??;
        if count == ENOUGH {
            return Ok(true);
        }
    }
    Ok(false)
}

// But a `try_get` gives way to nobody.
#[test]
fn one_that_waits_comes_before_who_returns_and_asks_again(rt: HostRuntime) -> Result<(), Fail> {
    on_pools(rt, &OUT_OF_LINE, SMALL, |world, pool| {
        assert!(rt; comes_first(rt, world, &pool, First::Waiter, 3_500_000)?);
        assert!(rt; tries_first(world, &pool)?);
        Ok(())
    })
}

// The clock stands still half a millisecond past a full one: so the next turn is not due yet.
#[test]
fn no_turn_is_given_at_the_moment_of_another(rt: HostRuntime) -> Result<(), Fail> {
    on_pools(rt, &OUT_OF_LINE, SMALL, |world, pool| {
        world.pass_nanoseconds(500_000);
        assert!(rt; comes_first(rt, world, &pool, First::Returner, 0)?);
        Ok(())
    })
}

// How often the clock is read for a `get` in this thread.
fn readings_of_a_get<R: Host>(world: &World, pool: &Pool<R>) -> Result<u64, Fail> {
    let before = world.readings();
    let lent = pool.get_within(LONG)?;
    let readings = world.readings() - before;
    drop(lent);
    Ok(readings)
}

// The only worker is at a second opening until the end, and so reads no clock.
#[test]
fn nobody_gives_way_once_the_one_that_was_woken_came(rt: HostRuntime) -> Result<(), Fail> {
    on_each(rt, &OUT_OF_LINE, |world| {
        world.connects.goes("+~+");
        let pool = Pool::of(rt, world, full(2).unawaited())?;
        pool.until_opening(1)?;
        assert_eq!(rt; readings_of_a_get(world, &pool)?, USUAL);
        let lent = pool.get()?;
        let waits = pool.begin(LONG)?;
        drop(lent);
        drop(pool.end(waits)??);
        equal(readings_of_a_get(world, &pool)?, USUAL)
    })
}

// The worker may read it once more, as it comes to its rest.
#[test]
fn nobody_gives_way_once_a_pool_is_built(rt: HostRuntime) -> Result<(), Fail> {
    on_each(rt, &BUILT, |world| {
        let pool = Pool::built(rt, world, full(1))?;
        let readings = readings_of_a_get(world, &pool)?;
        assert!(rt; readings <= USUAL + 1, "{readings}");
        Ok(())
    })
}
