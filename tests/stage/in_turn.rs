// What stands where one request for memory is refused, or one thread cannot be started. In the gate
// nothing is refused, and each row sees that all goes well. `tools/refuse` plays each again and
// again, and refuses another request each time: then a row may end early, by an error, but what it
// asserted holds. So each check here asserts.

use crate::rows::*;
use r2d2::{Extension, Extensions};
use r2d2_core::reuse::{Comparison, Move, compare, is_in_order};
use r2d2_core::run::run;
use r2d2_core::{LimitSettings, Step};
use std::process::Abort;
use std::sync::Arc;
use std::sync::atomic::{AtomicU64, Ordering};

const KINDS: [Kind; 2] = [Kind::Plain, Kind::InLine];

/// A value that counts its drop.
struct Counted {
    drops: Arc<AtomicU64>,
}

impl Drop for Counted {
    fn drop(self) {
        let Counted { drops } = self;
        drops.fetch_add(1, Ordering::SeqCst);
    }
}

// Of five values one is admitted, one comes back, and three are refused.
#[test]
fn values_of_a_run(rt: HostRuntime) -> Result<(), Fail> {
    let (now, second) = (Duration::ZERO, Duration::from_secs(1));
    let settings = LimitSettings {
        max_size: 1,
        min_idle: None,
        max_lifetime: None,
        idle_timeout: None,
        connection_timeout: second,
        reap_every: second,
        order: LendingOrder::NewestFirst,
    };
    let drops = Arc::new(rt.alloc(), AtomicU64::new(0))?;
    let counted = || Arc::try_clone(&drops).map(|drops| Counted { drops });
    let mut steps = vec![in rt.alloc(); Step::Begin { now }, Step::Number { tries: 0 }]?;
    for id in [0, 0, 7] {
        steps.push(Step::Admit {
            now,
            id,
            value: counted()?,
        })?;
    }
    steps.push(Step::Take {
        now,
        or_order: false,
    })?;
    for id in [0, 7] {
        steps.push(Step::PutBack {
            now,
            id,
            value: counted()?,
            broken: false,
        })?;
    }
    steps.push(Step::Reap { now })?;
    assert_eq!(rt; drops.load(Ordering::SeqCst), 0);
    let limits = settings.limits().ok_or("limits")?;
    if let Ok((core, answers)) = run(rt.alloc(), limits, now, steps) {
        assert_eq!(rt; (core.connections(), answers.len()), (1, 9));
    }
    equal(drops.load(Ordering::SeqCst), 5)
}

// Of two connections that are idle and one that comes, a take removes the newest, or the oldest, or
// the second. (At most one request of a run is refused.)
#[test]
fn a_comparison(rt: HostRuntime) -> Result<(), Fail> {
    let idle = [Duration::ZERO, Duration::from_millis(100)];
    assert!(rt; is_in_order(&idle));
    let moves = [
        Move::Add(Duration::from_millis(150)),
        Move::Take(Duration::from_millis(160)),
    ];
    let (now, limit) = (Duration::from_millis(200), Duration::from_millis(90));
    let compared = || compare(rt.alloc(), &idle, &moves, &[1], now, limit);
    let answer = compared().or_else(|_| compared());
    let is_right = |of: &Comparison| (of.newest_first, of.oldest_first, of.other) == (2, 1, 1);
    holds(matches!(&answer, Ok(Some(of)) if is_right(of)))
}

#[test]
fn building(rt: HostRuntime) -> Result<(), Fail> {
    on_each(rt, &KINDS, |world| {
        let building = Pool::building(rt, world, full(2).workers(3).recorded(8))?;
        match building.end()? {
            Ok(pool) => assert_eq!(rt; pool.status().connections, 2),
            Err(error) => {
                let is_known = matches!(error.kind(), ErrorKind::Memory | ErrorKind::Threads);
                assert!(rt; is_known && error.message().is_none(), "{error:?}");
            }
        }
        assert!(rt; world.watch(|| world.ended() == 1));
        equal(world.dropped(), world.opened())
    })
}

// Each opening hangs, so the third one is begun by a third worker.
#[test]
fn starting_each_worker(rt: HostRuntime) -> Result<(), Fail> {
    on_each(rt, &KINDS, |world| {
        world.connects.goes("~+*");
        let built = Pool::of(rt, world, full(3).workers(3).unawaited());
        if built.is_ok() {
            assert!(rt; world.watch(|| world.connects.hung() == 3));
        }
        world.connects.goes("");
        world.let_go(&world.connects);
        let ended = built.map(|pool| drop(pool));
        assert!(rt; world.watch(|| world.ended() == 1));
        assert_eq!(rt; world.dropped(), world.opened());
        ended
    })
}

// What a call comes to. Where its memory was refused, it has done nothing, and comes to it then.
fn at_last<T: Drop, R: Host + Abort, F: Fn() -> Result<T, Error>>(
    rt: R,
    pool: &Pool<R>,
    call: F,
) -> Result<T, Fail> {
    let idle = pool.status().idle;
    pool.world.forget();
    let error = match call() {
        Ok(came) => return Ok(came),
        Err(error) => error,
    };
    assert_eq!(rt; error.kind(), ErrorKind::Memory);
    assert_eq!(rt; pool.status().idle, idle);
    assert!(rt; pool.world.went(&[]));
    let again = call();
    assert!(rt; again.is_ok());
    Ok(again?)
}

#[test]
fn a_journal(rt: HostRuntime) -> Result<(), Fail> {
    on_pools(rt, &KINDS, full(1).recorded(8), |_, pool| {
        let _lent = pool.try_get()?.ok_or("none")?;
        let report = at_last(rt, &pool, || pool.calls.journal())?;
        let records = report.records.as_slice();
        assert_eq!(rt; records.len(), 2);
        assert_eq!(rt; report.lent.as_slice(), [0].as_slice());
        assert!(rt; matches!(records[0], Record::Admitted { id: 0, .. }));
        assert!(rt; matches!(records[1], Record::Taken { id: 0, .. }));
        assert_eq!(rt; (report.connections, report.pending), (1, 0));
        equal(report.lost, 0)
    })
}

#[test]
fn an_eviction(rt: HostRuntime) -> Result<(), Fail> {
    on_pools(rt, &KINDS, full(1).recorded(8), |_, pool| {
        equal(at_last(rt, &pool, || pool.calls.evict(rt))?, 1)
    })
}

#[test]
fn lending_and_cloning(rt: HostRuntime) -> Result<(), Fail> {
    on_pools(rt, &KINDS, full(1).recorded(8), |_, pool| {
        let clone = at_last(rt, &pool, || pool.calls.try_clone())?;
        assert_eq!(rt; clone.status().idle, 1);
        drop(at_last(rt, &pool, || pool.calls.get(rt))?);
        assert!(rt; !pool.finds_none());
        equal(pool.status().idle, 1)
    })
}

// The failed opening goes on, and the connection whose check failed is closed, whether their texts
// find memory or not. (Ten things are told, the two errors and the end of the first among them.)
#[test]
fn texts_of_errors(rt: HostRuntime) -> Result<(), Fail> {
    on_pools(rt, &KINDS, SMALL.checked().retried(), |world, pool| {
        world.connects.goes("-");
        world.checks.goes("-");
        let get = pool.begin(LONG)?;
        assert!(rt; world.watch(|| pool.status().failed_openings == 1));
        world.pass(50);
        let lent = pool.end(get)?;
        assert!(rt; lent.is_ok());
        drop(lent);
        assert_eq!(rt; world.hears.asked(), 10);
        assert_eq!(rt; (world.opened(), world.dropped()), (2, 1));
        equal(pool.status().connections, 1)
    })
}

// Who gives up is told that no worker runs, or nothing where that text finds no memory.
#[test]
fn the_text_that_no_worker_runs(rt: HostRuntime) -> Result<(), Fail> {
    on_pools(rt, &[Kind::Polled], SMALL.workers(0), |_, pool| {
        let error = pool.gives_up(50)?;
        assert!(rt; error.message().is_none_or(|text| text.starts_with("no worker is running")));
        equal(pool.status().timeouts, 1)
    })
}

/// What is kept beside a connection, under its tag.
#[derive(Debug, PartialEq, Drop)]
struct Tagged {
    tag: u8,
    value: u32,
}

impl Extension for Tagged {
    type Kind = u8;

    ghost kind_of = { λ v. v.tag };

    fn kind(&self) -> u8 {
        self.tag
    }
}

#[test]
fn inserting(rt: HostRuntime) -> Result<(), Fail> {
    let mut kept = Extensions::new(rt.alloc());
    for tag in 0..9 {
        if let Err(back) = kept.insert(Tagged { tag, value: 40 }) {
            assert_eq!(rt; (back.tag, back.value), (tag, 40));
            assert!(rt; kept.get(&tag).is_none());
            assert!(rt; kept.insert(back) == Ok(None));
        }
        for before in 0..tag {
            assert!(rt; kept.get(&before).is_some(), "{before} of {tag}");
        }
    }
    Ok(())
}
