// One thread, and no connection lent beside its own.
ghost use Rattle.std.specs.Prelude.{◌≡◌};

use crate::pools::{Nothings, open_pool};
use crate::scenario::Case;
use anyhow::ensure;
use r2d2::{Builder, PlainPool, PoolRuntime};
use std::marker::Brand;
use std::sync::ledger::{Blank, Ledger};
use std::sync::{Arc, Mutex};
use std::time::{Duration, Instant};

/// Reads the clock.
pub fn clock<R: PoolRuntime>(rt: R, case: Case) -> Result<Duration, anyhow::Error> {
    let start = Instant::now(&rt)?;
    for _ in 0..case.operations {
        start.elapsed(&rt)?;
    }
    Ok(start.elapsed(&rt)?)
}

/// Takes a lock that nobody holds, and lets it go.
pub fn lock<R: PoolRuntime>(rt: R, case: Case) -> Result<Duration, anyhow::Error> {
    let latest = Mutex::new(0u32);
    let start = Instant::now(&rt)?;
    for call in 0..case.operations {
        *latest.lock(&rt) = call;
    }
    Ok(start.elapsed(&rt)?)
}

/// `get`, and the connection's return; where `checks` is on, with a check that answers at once.
pub fn get_drop<R: PoolRuntime>(
    rt: R,
    case: Case,
    checks: bool,
) -> Result<Duration, anyhow::Error> {
    let pool = open_pool(rt, case.max_size, checks)?;
    let start = Instant::now(&rt)?;
    for _ in 0..case.operations {
        drop(pool.get()?);
    }
    Ok(start.elapsed(&rt)?)
}

/// The same round, without a check, at a pool that counts its takes.
pub fn counted_get_drop<R: PoolRuntime>(rt: R, case: Case) -> Result<Duration, anyhow::Error> {
    count_gets::<R, Brand>(rt, case, Blank::new(1))
}

// Its takes are counted by a ledger of one share.
fn count_gets<R: PoolRuntime, L: Ledger + Send + Sync + 'static>(
    rt: R,
    case: Case,
    blank: Blank,
) -> Result<Duration, anyhow::Error>
    requires name { blank.name ≡ L.name }
    requires parts { blank.parts ≡ L.parts }
    requires one { blank.parts ≡ 1 }
{
    let (total, mut share) = blank.open::<L>();
    let builder = Builder::new()
        .max_size(case.max_size)
        .test_on_check_out(false);
    let pool = builder.build_counted(rt, Nothings, total)?;
    // The first one waits until a connection is open.
    drop(pool.get(&mut share)?);
    let start = Instant::now(&rt)?;
    for _i in 0..case.operations {
        drop(pool.get(&mut share)?);
    }
    Ok(start.elapsed(&rt)?)
}

/// `try_get` that finds one, and the connection's return.
pub fn try_get_hit<R: PoolRuntime>(rt: R, case: Case) -> Result<Duration, anyhow::Error> {
    let pool = open_pool(rt, case.max_size, false)?;
    try_gets(rt, &pool, case.operations)
}

/// `try_get` while the only connection is lent.
pub fn try_get_miss<R: PoolRuntime>(rt: R, case: Case) -> Result<Duration, anyhow::Error> {
    let pool = open_pool(rt, 1, false)?;
    let _lent = pool.get()?;
    try_gets(rt, &pool, case.operations)
}

// So many calls of `try_get`.
fn try_gets<R: PoolRuntime>(
    rt: R,
    pool: &PlainPool<Nothings, R>,
    operations: u32,
) -> Result<Duration, anyhow::Error> {
    let start = Instant::now(&rt)?;
    for _ in 0..operations {
        drop(pool.try_get()?);
    }
    Ok(start.elapsed(&rt)?)
}

/// What the rules ask of a `get` and a return, with no pool: a shared pointer cloned and dropped,
/// and the lock taken twice, with a reading of the clock under it each time.
pub fn floor<R: PoolRuntime>(rt: R, case: Case) -> Result<Duration, anyhow::Error> {
    let latest = Arc::new(rt.alloc(), Mutex::new(Duration::ZERO))?;
    let start = Instant::now(&rt)?;
    let mut went = true;
    for _ in 0..case.operations {
        went &= floor_round(rt, &latest, start);
    }
    ensure!(went, "a round failed");
    Ok(start.elapsed(&rt)?)
}

/// One round of `floor`. It hands on no error of the clock: moving one about would cost more than a
/// pool does.
pub fn floor_round<R: PoolRuntime>(rt: R, latest: &Arc<Mutex<Duration>>, start: Instant) -> bool {
    let Ok(holder) = Arc::try_clone(latest) else {
        return false;
    };
    step(rt, &holder, start);
    step(rt, &holder, start);
    true
}

// Takes the lock, and reads the clock under it.
fn step<R: PoolRuntime>(rt: R, latest: &Mutex<Duration>, start: Instant) {
    let mut latest = latest.lock(&rt);
    *latest = since(rt, start);
}

// The time since the start; zero where the clock can't be read.
fn since<R: PoolRuntime>(rt: R, start: Instant) -> Duration {
    start.elapsed(&rt).unwrap_or(Duration::ZERO)
}
