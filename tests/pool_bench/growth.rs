// How long others wait while much is done under the lock: an eviction of all that is idle, and a copy
// of the journal. And what a large pool takes.
ghost use Rattle.std.specs.Prelude.{◌<◌};

use crate::pools::{Nothings, open_pool};
use anyhow::ensure;
use r2d2::{Builder, PlainPool, PoolRuntime};
use std::sync::Arc;
use std::sync::atomic::{AtomicBool, Ordering};
use std::thread::{self, JoinHandle};
use std::time::{Duration, Instant};

/// How often each is done, while another thread calls.
const ROUNDS: u32 = 20;

/// For so many milliseconds between two of them the other thread calls alone.
const PAUSE: u64 = 20;

/// The longest wait of a thread that calls until it is told that it is over, in nanoseconds; None
/// where a call was not served.
pub type Longest = Option<u64>;

/// What is done to a pool under its lock.
#[derive(Clone, Copy)]
enum Work {
    Nothing,
    Evict,
    Journal,
}

impl Work {
    // Its name in the table.
    fn name(self) -> &'static str {
        match self {
            Work::Nothing => "nothing",
            Work::Evict => "evict",
            Work::Journal => "journal",
        }
    }

    fn is_done<R: PoolRuntime>(self, pool: &PlainPool<Nothings, R>) -> Result<(), anyhow::Error> {
        match self {
            Work::Nothing => {}
            Work::Evict => {
                pool.evict()?;
            }
            Work::Journal => drop(pool.journal()?),
        }
        Ok(())
    }
}

/// Builds a pool of so many connections, and prints how many nanoseconds passed.
pub fn build<R: PoolRuntime + Print>(rt: R, max_size: u32) -> Result<(), anyhow::Error> {
    ensure!(0 < max_size, "how many connections");
    let begun = Instant::now(&rt)?;
    let pool = open_pool(rt, max_size, false)?;
    let took = begun.elapsed(&rt)?.as_nanos();
    println!(rt; "{took}")?;
    drop(pool);
    Ok(())
}

/// Prints a line for each kind of work and each size: how long it took at most, and how long another
/// thread waited at most in a `get` meanwhile, in microseconds. `start` starts that thread.
pub fn measure<R, S>(rt: R, start: S) -> Result<(), anyhow::Error>
where
    R: PoolRuntime + Print,
    S: Fn(PlainPool<Nothings, R>, Arc<AtomicBool>) -> Result<JoinHandle<Longest>, anyhow::Error>
        + Drop,
    requires { S.IsAlwaysCallable start }
{
    println!(rt; "work size took_us longest_us")?;
    for &(work, size) in &[
        (Work::Nothing, 10_000),
        (Work::Evict, 1_000),
        (Work::Evict, 10_000),
        (Work::Evict, 100_000),
        (Work::Journal, 10_000),
        (Work::Journal, 100_000),
    ] {
        let pool = filled(rt, work, size)?;
        let is_over = Arc::new(rt.alloc(), AtomicBool::new(false))?;
        let other = start(pool.try_clone()?, Arc::try_clone(&is_over)?)?;
        let took = longest(rt, work, &pool, size)?;
        is_over.store(true, Ordering::SeqCst);
        let Some(waited) = other.join(&rt) else {
            ensure!(false, "a call was not served");
            return Ok(());
        };
        println!(rt;
            "{} {size} {} {}",
            work.name(),
            took.as_micros(),
            waited / 1_000
        )?;
    }
    Ok(())
}

// A pool with so many idle connections; or, for its journal, with so many records.
fn filled<R: PoolRuntime>(
    rt: R,
    work: Work,
    size: u32,
) -> Result<PlainPool<Nothings, R>, anyhow::Error> {
    if !matches!(work, Work::Journal) {
        ensure!(0 < size, "a pool of none");
        return Ok(open_pool(rt, size, false)?);
    }
    let builder = Builder::new().max_size(8).test_on_check_out(false);
    let pool = builder.journal_room(size as usize).build(rt, Nothings)?;
    for _ in 0..size {
        drop(pool.get()?);
    }
    Ok(pool)
}

// How long the work took at most.
fn longest<R: PoolRuntime>(
    rt: R,
    work: Work,
    pool: &PlainPool<Nothings, R>,
    size: u32,
) -> Result<Duration, anyhow::Error> {
    let mut longest = Duration::ZERO;
    for _ in 0..ROUNDS {
        thread::sleep(&rt, Duration::from_millis(PAUSE));
        let begun = Instant::now(&rt)?;
        work.is_done(pool)?;
        longest = longest.max(begun.elapsed(&rt)?);
        refill(rt, pool, size);
    }
    Ok(longest)
}

// Waits until what was evicted is opened anew.
fn refill<R: PoolRuntime>(rt: R, pool: &PlainPool<Nothings, R>, size: u32) {
    for _ in 0..u64::MAX {
        if pool.state().connections >= size.min(pool.max_size()) {
            break;
        }
        thread::sleep(&rt, Duration::from_millis(PAUSE));
    }
}

/// Calls until it is over.
pub fn longest_wait<R: PoolRuntime>(
    rt: R,
    pool: PlainPool<Nothings, R>,
    is_over: Arc<AtomicBool>,
) -> Longest {
    let mut longest = 0;
    for _ in 0..u64::MAX {
        if is_over.load(Ordering::SeqCst) {
            break;
        }
        let begun = Instant::now(&rt).ok()?;
        let lent = pool.get().ok()?;
        let waited = begun.elapsed(&rt).ok()?.as_nanos();
        drop(lent);
        longest = longest.max(u64::try_from(waited).unwrap_or(u64::MAX));
    }
    Some(longest)
}
