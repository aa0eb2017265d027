// How long callers wait where there are more of them than connections: at the callers' one variable,
// and in line.
ghost use Rattle.std.specs.Prelude.{◌<◌};

use crate::gate;
use crate::pools::Nothings;
use anyhow::ensure;
use r2d2::{Builder, PlainPool, PoolRuntime};
use std::alloc::{AllocError, Global};
use std::sync::{Arc, Barrier};
use std::thread::{self, JoinHandle};
use std::time::{Duration, Instant};

/// What so many callers do with a pool of this size.
#[derive(Clone, Copy)]
pub struct Load {
    pub callers: u32,
    pub max_size: u32,
    /// How many microseconds each connection is held: by turning for short, by sleeping for long.
    pub held_us: u32,
    /// How many calls each caller makes.
    pub calls: u32,
    pub ghost has_callers: { 0 < callers },
    pub ghost has_size: { 0 < max_size },
}

/// How long each call of a caller waited, in nanoseconds; None where one was not served.
pub type Waits = Option<Vec<u64>>;

/// The loads of this name; none where there are none of it.
pub fn named(alloc: Global, what: Option<&str>) -> Result<Vec<Load>, AllocError> {
    match what {
        Some("waits") => Vec::from_slice(alloc, &short()),
        Some("long_waits") => Vec::from_slice(alloc, &long()),
        _ => Ok(Vec::new(alloc)),
    }
}

// Loads of two seconds at most.
fn short() -> [Load; 6] {
    [
        Load::new(8, 1, 0, 10_000),
        Load::new(8, 1, 20, 2_000),
        Load::new(8, 1, 1_000, 250),
        Load::new(8, 4, 0, 10_000),
        Load::new(8, 4, 20, 2_000),
        Load::new(8, 4, 1_000, 250),
    ]
}

// Loads of some ten seconds, in which who is not served for long is seen.
fn long() -> [Load; 3] {
    [
        Load::new(8, 1, 50, 22_000),
        Load::new(8, 1, 1_000, 1_180),
        Load::new(64, 8, 1_000, 1_180),
    ]
}

impl Load {
    fn new(callers: u32, max_size: u32, held_us: u32, calls: u32) -> Load
        requires callers { 0 < callers }
        requires size { 0 < max_size }
    {
        Load {
            callers,
            max_size,
            held_us,
            calls,
        }
    }
}

/// Times each load, without a line and with one, and prints a line for each: how many nanoseconds
/// passed for each call of all, and the waits in microseconds. `start` starts a thread of calls that
/// begins once the gate opens.
pub fn measure<R, S>(rt: R, loads: &[Load], start: S) -> Result<(), anyhow::Error>
where
    R: PoolRuntime + Print,
    S: Fn(PlainPool<Nothings, R>, Arc<Barrier>, Load) -> Result<JoinHandle<Waits>, anyhow::Error>
        + Drop,
    requires { S.IsAlwaysCallable start }
{
    println!(rt; "way callers max_size held_us calls ns_for_each p50_us p99_9_us longest_us")?;
    for &load in loads {
        let builder = Builder::new()
            .max_size(load.max_size)
            .test_on_check_out(false);
        let pool = builder.build(rt, Nothings)?;
        print(rt, "any", load, &pool, &start)?;
        let builder = Builder::new()
            .max_size(load.max_size)
            .test_on_check_out(false);
        let pool = builder.fair_queue(Some(load.callers)).build(rt, Nothings)?;
        print(rt, "line", load, &pool, &start)?;
    }
    Ok(())
}

// Times one load at a pool, and prints its line.
fn print<R, S>(
    rt: R,
    way: &str,
    load: Load,
    pool: &PlainPool<Nothings, R>,
    start: &S,
) -> Result<(), anyhow::Error>
where
    R: PoolRuntime + Print,
    S: Fn(PlainPool<Nothings, R>, Arc<Barrier>, Load) -> Result<JoinHandle<Waits>, anyhow::Error>,
    requires { S.IsAlwaysCallable start.now }
{
    let gate = gate::for_callers(rt, load.callers)?;
    let mut threads = Vec::new(rt.alloc());
    for _ in 0..load.callers {
        threads.push(start(pool.try_clone()?, Arc::try_clone(&gate)?, load)?)?;
    }
    let begun = gate::open(rt, &gate)?;
    let mut waits = joined(rt, threads)?;
    let took = begun.elapsed(&rt)?.as_nanos();
    waits.sort_unstable();
    let each = took.checked_div(waits.len() as u128).unwrap_or(0);
    let Load {
        callers,
        max_size,
        held_us,
        calls,
        ..
    } = load;
    println!(rt;
        "{way} {callers} {max_size} {held_us} {calls} {each} {} {} {}",
        part(&waits, 500),
        part(&waits, 999),
        part(&waits, 1000)
    )?;
    Ok(())
}

// The waits of all callers.
fn joined<R: PoolRuntime>(
    rt: R,
    callers: Vec<JoinHandle<Waits>>,
) -> Result<Vec<u64>, anyhow::Error> {
    let mut waits = Vec::new(rt.alloc());
    let mut went = true;
    for caller in callers {
        match caller.join(&rt) {
            Some(theirs) => waits.extend_from_slice(theirs.as_slice())?,
            None => went = false,
        }
    }
    ensure!(went, "a call was not served");
    Ok(waits)
}

// The wait, in microseconds, that so many of a thousand do not pass.
fn part(sorted: &[u64], of_a_thousand: usize) -> u64 {
    let place = sorted.len().saturating_mul(of_a_thousand) / 1000;
    let last = sorted.len().saturating_sub(1);
    sorted.get(place.min(last)).copied().unwrap_or(0) / 1000
}

/// Makes the calls, once the gate opens.
pub fn waited<R: PoolRuntime>(
    rt: R,
    pool: PlainPool<Nothings, R>,
    gate: Arc<Barrier>,
    load: Load,
) -> Waits {
    let mut waits = Vec::with_capacity(rt.alloc(), load.calls as usize).ok()?;
    let held = Duration::from_micros(u64::from(load.held_us));
    gate::pass(rt, &gate);
    for _ in 0..load.calls {
        let start = Instant::now(&rt).ok()?;
        let lent = pool.get().ok()?;
        let waited = start.elapsed(&rt).ok()?;
        hold(rt, held)?;
        drop(lent);
        waits
            .push(u64::try_from(waited.as_nanos()).unwrap_or(u64::MAX))
            .ok()?;
    }
    Some(waits)
}

// Sleeps for a length of a hundred microseconds or more, and turns for a shorter one.
fn hold<R: PoolRuntime>(rt: R, held: Duration) -> Option<()> {
    if held.as_micros() >= 100 {
        thread::sleep(&rt, held);
        return Some(());
    }
    if held.is_zero() {
        return Some(());
    }
    let start = Instant::now(&rt).ok()?;
    for _ in 0..u32::MAX {
        if start.elapsed(&rt).ok()?.as_nanos() >= held.as_nanos() {
            break;
        }
    }
    Some(())
}
