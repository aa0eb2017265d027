// Many tasks on one thread: what a call costs where so many wait.
ghost use Rattle.std.specs.Prelude.{◌<◌};

use crate::scenario::{Case, Scenario};
use anyhow::ensure;
use r2d2::PoolRuntime;
use std::net::Net;
use std::random::RandomSource;

/// So many tasks at eight connections, and so many calls of all of them.
pub fn of(tasks: u32, calls: u32) -> Case
    requires tasks { 0 < tasks }
    requires calls { 0 < calls }
{
    Case {
        threads: tasks,
        max_size: 8,
        operations: calls,
    }
}

/// Times each number of tasks in each scenario, and prints the lines.
pub fn measure<R: PoolRuntime + RandomSource + Net + Print>(rt: R) -> Result<(), anyhow::Error> {
    println!(rt; "scenario tasks max_size ops least_ns median_ns")?;
    for &scenario in &[
        Scenario::Tasks,
        Scenario::TaskDropped,
        Scenario::TaskTimedOut,
    ] {
        measure_each(rt, scenario)?;
    }
    Ok(())
}

fn measure_each<R: PoolRuntime + RandomSource + Net + Print>(
    rt: R,
    scenario: Scenario,
) -> Result<(), anyhow::Error> {
    for &(tasks, calls) in &[
        (100, 20_000),
        (1_000, 20_000),
        (10_000, 100_000),
        (30_000, 300_000),
    ] {
        scenario.measure(rt, None, of(tasks, calls))?;
    }
    Ok(())
}

/// Makes the calls of one run, of a scenario with so many tasks and calls, and prints nothing.
pub fn once<R: PoolRuntime + RandomSource + Net>(
    rt: R,
    [name, tasks, calls]: [Option<&str>; 3],
) -> Result<(), anyhow::Error> {
    let scenario = match name {
        Some("task_get_drop") => Scenario::TaskGetDrop,
        Some("task_dropped") => Scenario::TaskDropped,
        Some("task_timed_out") => Scenario::TaskTimedOut,
        _ => Scenario::Tasks,
    };
    let tasks = number(tasks);
    let calls = number(calls);
    ensure!(0 < tasks && 0 < calls, "how many tasks, and how many calls");
    scenario.run(rt, of(tasks, calls))?;
    Ok(())
}

/// Zero for what is no number.
pub fn number(word: Option<&str>) -> u32 {
    match word {
        Some(word) => word.parse::<u32>().unwrap_or(0),
        None => 0,
    }
}
