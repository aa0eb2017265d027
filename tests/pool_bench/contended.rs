// Several threads at one pool. They begin all at once, so that they meet from the first call on.
use crate::alone::floor_round;
use crate::gate;
use crate::pools::{Nothings, open_pool};
use crate::scenario::{Case, RUNS, Times};
use anyhow::ensure;
use r2d2::{PlainPool, PoolRuntime};
use std::sync::{Arc, Barrier, Mutex};
use std::thread::JoinHandle;
use std::time::{Duration, Instant};

/// Calls of all threads together, in one run: so many that it lasts for some turns of the
/// processors.
const CALLS: u32 = 80_000;

/// Times each number of threads at each size of pool. `start` starts a thread that makes so many
/// calls once the gate opens.
pub fn measure<R, S>(rt: R, start: S) -> Result<(), anyhow::Error>
where
    R: PoolRuntime + Print,
    S: Fn(PlainPool<Nothings, R>, Arc<Barrier>, u32) -> Result<JoinHandle<bool>, anyhow::Error>
        + Drop,
    requires { S.IsAlwaysCallable start }
{
    for &max_size in &[1, 4, 10] {
        // What one thread takes.
        let mut alone = 0;
        for &threads in &[1, 2, 4, 8] {
            let case = Case {
                threads,
                max_size,
                operations: CALLS,
            };
            let mut times = Times::new(rt.alloc());
            for _ in 0..RUNS {
                times.add(case, get_drop(rt, case, &start)?)?;
            }
            let figures = times.figures();
            if threads == 1 {
                alone = figures.least;
            }
            case.print(rt, "mt", figures.unless_below(alone))?;
        }
    }
    Ok(())
}

// `get`, and the connection's return, in threads that share the calls.
fn get_drop<R, S>(rt: R, case: Case, start: &S) -> Result<Duration, anyhow::Error>
where
    R: PoolRuntime,
    S: Fn(PlainPool<Nothings, R>, Arc<Barrier>, u32) -> Result<JoinHandle<bool>, anyhow::Error>,
    requires { S.IsAlwaysCallable start.now }
{
    let pool = open_pool(rt, case.max_size, false)?;
    let gate = gate::for_callers(rt, case.threads)?;
    let calls = case.operations / case.threads;
    let mut callers = Vec::new(rt.alloc());
    for _ in 0..case.threads {
        let theirs = pool.try_clone()?;
        callers.push(start(theirs, Arc::try_clone(&gate)?, calls)?)?;
    }
    let begun = gate::open(rt, &gate)?;
    ensure!(join_all(rt, callers), "a call was not served");
    Ok(begun.elapsed(&rt)?)
}

// Waits for all threads to end, and says whether each succeeded.
fn join_all<R: PoolRuntime>(rt: R, callers: Vec<JoinHandle<bool>>) -> bool {
    let mut went = true;
    for caller in callers {
        went &= caller.join(&rt);
    }
    went
}

/// Whether each of so many calls got a connection, once the gate opened.
pub fn is_served<R: PoolRuntime>(
    rt: R,
    pool: PlainPool<Nothings, R>,
    gate: Arc<Barrier>,
    calls: u32,
) -> bool {
    gate::pass(rt, &gate);
    for _ in 0..calls {
        if pool.get().is_err() {
            return false;
        }
    }
    true
}

/// Times what the rules ask of a `get` and a return, by each number of threads at one lock. `start`
/// starts a thread of so many rounds once the gate opens.
pub fn measure_floor<R, S>(rt: R, start: S) -> Result<(), anyhow::Error>
where
    R: PoolRuntime + Print,
    S: Fn(Arc<Mutex<Duration>>, Arc<Barrier>, u32) -> Result<JoinHandle<bool>, anyhow::Error>
        + Drop,
    requires { S.IsAlwaysCallable start }
{
    // What one thread takes.
    let mut alone = 0;
    for &threads in &[1, 2, 4, 8] {
        let case = Case {
            threads,
            max_size: 1,
            operations: CALLS,
        };
        let mut times = Times::new(rt.alloc());
        for _ in 0..RUNS {
            times.add(case, floor(rt, case, &start)?)?;
        }
        let figures = times.figures();
        if threads == 1 {
            alone = figures.least;
        }
        case.print(rt, "mt_floor", figures.unless_below(alone))?;
    }
    Ok(())
}

// Rounds in threads that share the calls.
fn floor<R, S>(rt: R, case: Case, start: &S) -> Result<Duration, anyhow::Error>
where
    R: PoolRuntime,
    S: Fn(Arc<Mutex<Duration>>, Arc<Barrier>, u32) -> Result<JoinHandle<bool>, anyhow::Error>,
    requires { S.IsAlwaysCallable start.now }
{
    let latest = Arc::new(rt.alloc(), Mutex::new(Duration::ZERO))?;
    let gate = gate::for_callers(rt, case.threads)?;
    let rounds = case.operations / case.threads;
    let mut callers = Vec::new(rt.alloc());
    for _ in 0..case.threads {
        let (theirs, gate) = (Arc::try_clone(&latest)?, Arc::try_clone(&gate)?);
        callers.push(start(theirs, gate, rounds)?)?;
    }
    let begun = gate::open(rt, &gate)?;
    ensure!(join_all(rt, callers), "a round failed");
    Ok(begun.elapsed(&rt)?)
}

/// Whether each of so many rounds succeeded, once the gate opened.
pub fn goes_round<R: PoolRuntime>(
    rt: R,
    latest: Arc<Mutex<Duration>>,
    gate: Arc<Barrier>,
    rounds: u32,
) -> bool {
    gate::pass(rt, &gate);
    let Ok(start) = Instant::now(&rt) else {
        return false;
    };
    for _ in 0..rounds {
        if !floor_round(rt, &latest, start) {
            return false;
        }
    }
    true
}
