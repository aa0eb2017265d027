// Why connections left the pool, by the counts of the metrics.

use crate::measured::*;
use r2d2::event::ReleaseReason;
use std::process::Abort;

// From a pool like this so many leave for these reasons once this is done.
fn leave<R: Host + Abort, D: FnOnce(&Pool<R>) -> Result<(), Fail>>(
    rt: R,
    like: &World,
    settings: Settings,
    done: D,
    reasons: &[(ReleaseReason, u64)],
) -> Result<(), Fail> {
    let world = World::new(like.rt, like.kind)?;
    let (pool, metrics) = measured(rt, world, settings)?;
    done(&pool)?;
    let total = reasons.iter().map(|it| it.1).sum();
    world.watch(|| {
        pool.work();
        metrics.snapshot().closed.total() >= total
    });
    let seen = metrics.snapshot();
    let are_so = reasons.iter().all(|it| seen.closed.count(it.0) == it.1);
    assert!(rt; are_so, "{reasons:?}: {:?}", seen.closed);
    equal((seen.closed.total(), seen.ages.count()), (total, total))
}

// One is lent and comes back at 100 s.
fn comes_back<R: Host>(pool: &Pool<R>) -> Result<(), Fail> {
    let lent = pool.get()?;
    pool.world.set(100);
    drop(lent);
    Ok(())
}

// The same, but it comes back broken: that wakes the worker, for which a reap is due.
fn breaks<R: Host>(pool: &Pool<R>) -> Result<(), Fail> {
    pool.world.breaks.goes("-");
    comes_back(pool)
}

// All come back, one after another, and then their server goes away.
fn loses_its_server<R: Host>(pool: &Pool<R>) -> Result<(), Fail> {
    for connection in [pool.get()?, pool.get()?, pool.get()?] {
        pool.world.pass(1_000);
        drop(connection);
    }
    pool.world.checks.goes("-*");
    pool.world.connects.goes("-*");
    holds(pool.finds_none())
}

// One comes back after the close.
fn closes<R: Host>(pool: &Pool<R>) -> Result<(), Fail> {
    let _lent = pool.get()?;
    pool.close();
    Ok(())
}

#[test]
fn a_return_has_its_reason(rt: HostRuntime) -> Result<(), Fail> {
    let detaches = |pool: &Pool<HostRuntime>| pool.get().map(|lent| drop(lent.detach()));
    on_each(rt, &ALL, |world| {
        leave(rt, world, full(1), comes_back, &[])?;
        leave(rt, world, full(1), breaks, &[(Broken, 1)])?;
        leave(rt, world, full(1), detaches, &[(Detached, 1)])?;
        leave(rt, world, full(1), closes, &[(PoolClosed, 1)])?;
        leave(rt, world, full(1).living(100_000), comes_back, &[(Lifetime, 1)])
    })
}

#[test]
fn what_is_idle_has_its_reason(rt: HostRuntime) -> Result<(), Fail> {
    let evicts = |pool: &Pool<HostRuntime>| pool.evict().map(drop);
    on_each(rt, &ALL, |world| {
        leave(rt, world, full(3), evicts, &[(Evicted, 3)])?;
        leave(rt, world, full(3).expiring(50_000), breaks, &[(Broken, 1), (Idle, 2)])
    })?;
    on_each(rt, &THREADS, |world| {
        let distrusted = [(CheckFailed, 1), (Distrusted, 2)];
        leave(rt, world, full(3), loses_its_server, &[(CheckFailed, 3)])?;
        leave(rt, world, full(3).distrusting(true), loses_its_server, &distrusted)
    })
}
