// No call out of a pool is made with its lock held: during each of them another thread can ask it
// for its status. And whom a step wakes, it wakes at once: not only when what it closed was
// released, or its error was told. Nobody is lent what is still told of.

use crate::rows::*;

// The connect, the customizer and its event, the error of another connect, the check, and the
// checkout; then the check of a second use, its error, the release and the customizer, and what
// comes in its place.
#[test]
fn unlocked_in_an_opening_and_a_failed_check(rt: HostRuntime) -> Result<(), Fail> {
    on_pools(rt, &ALL, SMALL.checked().retried(), |world, pool| {
        world.connects.goes("-");
        let counts = pool.calls_in(10, || {
            let get = pool.begin(LONG)?;
            pool.until(|status| status.failed_openings == 1)?;
            world.pass(50);
            pool.end(get)??.detach();
            Ok(())
        })?;
        equal(counts, (10, 0))
    })?;
    on_pools(rt, &ALL, SMALL.checked(), |world, pool| {
        drop(pool.get()?);
        world.checks.goes("-");
        let counts = pool.calls_in(12, || {
            pool.get()?.detach();
            Ok(())
        })?;
        equal(counts, (12, 0))
    })
}

// A checkin, the question whether it broke, a release, and the customizer; and an eviction's. Then
// a connection that comes back broken wakes the workers, and another one is expired.
#[test]
fn unlocked_in_a_return_an_eviction_and_a_reap(rt: HostRuntime) -> Result<(), Fail> {
    on_lent(rt, &ALL, SMALL.most(2), |world, pool, first| {
        let second = pool.get()?;
        world.breaks.goes("-");
        let counts = pool.calls_in(8, || {
            drop(first);
            drop(second);
            pool.evict()?;
            Ok(())
        })?;
        equal(counts, (8, 0))
    })?;
    on_lent(rt, &ALL, full(2).expiring(100_000), |world, pool, lent| {
        world.breaks.goes("-");
        world.pass(200_000);
        let counts = pool.calls_in(14, || {
            drop(lent);
            pool.until(|status| status.idle == 2)
        })?;
        equal(counts, (14, 0))
    })
}

#[test]
fn a_failed_check_wakes_before_its_release(rt: HostRuntime) -> Result<(), Fail> {
    let row = "use; checks ~-; ask p q; hang $1; go checks; hung; serve q=1; go tells; serve p";
    let one = SMALL.checked();
    on_texts(rt, &BESIDE, [(one, "g0,0,CheckFailed"), (one, "e0")], row)
}

#[test]
fn a_return_wakes_before_its_release(rt: HostRuntime) -> Result<(), Fail> {
    let row = "get a; ask p; breaks -; hang $1; away a; hung; serve p=1; go tells; join";
    on_texts(rt, &BESIDE, [(SMALL, "g0,0,Broken"), (SMALL, "e0")], row)
}

// One of two workers hangs as it tells the error, so the other one has to try again.
#[test]
fn a_failed_opening_wakes_before_its_error_is_told(rt: HostRuntime) -> Result<(), Fail> {
    let row = "connects ~-; ask p; opening 1; hang C0; go connects; hung; in_time p; serve p=0
        is connects.asked=2";
    on_text(rt, &BESIDE, SMALL.workers(2).retried(), row)
}

#[test]
fn an_eviction_wakes_before_its_releases(rt: HostRuntime) -> Result<(), Fail> {
    let row = "hang $1; evicting 1; hung; use 1; go tells; join";
    let one = full(1);
    on_texts(rt, &BESIDE, [(one, "g0,0,Evicted"), (one, "e0")], row)
}

#[test]
fn nobody_is_lent_what_is_still_told_of(rt: HostRuntime) -> Result<(), Fail> {
    // Its own return is to hang no more.
    let row = "hang a0; ask p; hung; none; go tells; take p; hear s0 a0 c0
        hang r0; away p; hung; none; ask q; tells; go tells; join; take q; hear r0 c0";
    on_text(rt, &BESIDE, SMALL, row)
}
