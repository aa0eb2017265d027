//! Times the calls of a pool. Given `bench`, it prints a line for each scenario: its name, the
//! threads, `max_size`, how many operations were timed, and the nanoseconds for each, the least and
//! the median of twenty-five runs; `-` for both where several threads hardly met. Given a scenario's
//! name too, it runs that one alone. Given `waits`, it prints how long callers wait for a connection,
//! without a line and in one; given `long_waits`, that of loads of some ten seconds. Given `growth`,
//! it prints how long others wait while much is done under the lock; given `build` and a number, it
//! builds a pool of so many connections, and prints how long that took. Given `tasks`, it prints the lines of several numbers of tasks; given
//! `once`, a scenario of those, how many tasks there are and how many calls they make together, it
//! makes those calls, as for a profile. Else it says how to run it.
#![tactic(auto)]

ghost use Rattle.std.specs.Prelude.{◌<◌};

mod alone;
mod contended;
mod crowds;
mod gate;
mod growing;
mod growth;
mod leaving;
mod pools;
mod scenario;
mod tasks;
mod waits;

use contended::{goes_round, is_served};
use growing::{BATCH, BATCHES};
use growth::longest_wait;
use r2d2::PoolRuntime;
use scenario::{Case, Scenario, is_chosen};
use std::net::Net;
use std::random::RandomSource;
use std::{env, thread};
use waits::waited;

/// Calls of a scenario of one thread, in one run.
const CALLS: u32 = 2_000;

fn main(rt: HostRuntime) -> Result<(), anyhow::Error> {
    let mut words = env::args(&rt)?.skip(1);
    let what = words.next();
    // The only scenario to run, or all.
    let word = words.next();
    let only = word.as_deref();
    let loads = waits::named(rt.alloc(), what.as_deref())?;
    if !loads.is_empty() {
        return waits::measure(rt, loads.as_slice(), |pool, gate, load| {
            let calls = move || waited(rt, pool, gate, load);
            Ok(thread::spawn(&rt, calls)?)
        });
    }
    if what.as_deref() == Some("growth") {
        return growth::measure(rt, |pool, is_over| {
            let calls = move || longest_wait(rt, pool, is_over);
            Ok(thread::spawn(&rt, calls)?)
        });
    }
    if what.as_deref() != Some("bench") {
        let tasks = words.next();
        let calls = words.next();
        let chosen = [only, tasks.as_deref(), calls.as_deref()];
        return without_threads(rt, what.as_deref(), chosen);
    }
    println!(rt; "scenario threads max_size ops least_ns median_ns")?;
    measure_alone(rt, only)?;
    measure_tasks(rt, only)?;
    if is_chosen("mt", only) {
        contended::measure(rt, |pool, gate, calls| {
            let serves = move || is_served(rt, pool, gate, calls);
            Ok(thread::spawn(&rt, serves)?)
        })?;
    }
    if is_chosen("mt_floor", only) {
        contended::measure_floor(rt, |latest, gate, rounds| {
            let goes = move || goes_round(rt, latest, gate, rounds);
            Ok(thread::spawn(&rt, goes)?)
        })?;
    }
    measure_growing(rt, only)
}

// What needs no thread.
fn without_threads<R: PoolRuntime + RandomSource + Net + Print>(
    rt: R,
    what: Option<&str>,
    chosen: [Option<&str>; 3],
) -> Result<(), anyhow::Error> {
    match what {
        Some("tasks") => crowds::measure(rt),
        Some("once") => crowds::once(rt, chosen),
        Some("build") => growth::build(rt, crowds::number(chosen[0])),
        _ => {
            let modes =
                "waits, long_waits, growth, build SIZE, tasks, or once SCENARIO TASKS CALLS";
            println!(rt; "usage: pool_bench bench [SCENARIO], {modes}")?;
            Ok(())
        }
    }
}

fn one_thread(max_size: u32, operations: u32) -> Case
    requires size { 0 < max_size }
    requires operations { 0 < operations }
{
    Case {
        threads: 1,
        max_size,
        operations,
    }
}

fn measure_alone<R: PoolRuntime + RandomSource + Net + Print>(
    rt: R,
    only: Option<&str>,
) -> Result<(), anyhow::Error> {
    for &(scenario, max_size) in &[
        (Scenario::Clock, 1),
        (Scenario::Lock, 1),
        (Scenario::Floor, 1),
        (Scenario::GetDrop, 10),
        (Scenario::GetDropCheck, 10),
        (Scenario::CountedGetDrop, 10),
        (Scenario::TryGetHit, 10),
        (Scenario::TryGetMiss, 1),
    ] {
        scenario.measure(rt, only, one_thread(max_size, CALLS))?;
    }
    Ok(())
}

// Tasks, on one thread.
fn measure_tasks<R: PoolRuntime + RandomSource + Net + Print>(
    rt: R,
    only: Option<&str>,
) -> Result<(), anyhow::Error> {
    Scenario::TaskGetDrop.measure(rt, only, one_thread(10, CALLS))?;
    Scenario::Tasks.measure(rt, only, crowds::of(1_000, 10_000))
}

fn measure_growing<R: PoolRuntime + RandomSource + Net + Print>(
    rt: R,
    only: Option<&str>,
) -> Result<(), anyhow::Error> {
    for &max_size in &[10, 100, 1000, 10_000] {
        Scenario::Build.measure(rt, only, one_thread(max_size, 1))?;
    }
    for &lent in &[10, 100, 1000, 10_000] {
        let case = one_thread(lent + BATCH, BATCH * BATCHES);
        Scenario::LentGet.measure(rt, only, case)?;
        Scenario::LentDrop.measure(rt, only, case)?;
        Scenario::LentDropOldest.measure(rt, only, case)?;
    }
    Ok(())
}
