//! Small pools, of which each run plays one schedule or one order: the words are a kind of pool
//! (`plain`, `counted` or `tasks`) and those of a scenario (tools/schedules/scenarios.txt). A
//! scheduler plays threads; on one thread all orders of the polls of tasks are played, or the one
//! whose choices `way=` names.
#![tactic(auto)]

// What is judged, and when it is a fault.
macro_rules! faults {
    ($world:expr; $($what:literal if $is_so:expr;)*) => {
        $($world.fault_if($is_so, $what);)*
    };
}

mod choices;
mod judge;
mod line;
mod nap;
mod orders;
mod plan;
mod pools;
mod task;
mod threads;
mod turns;
mod within;
mod world;

use self::choices::Choices;
use self::judge::Stopwatch;
use self::line::{JITTER, Line, Manager, STAY};
use self::nap::Place;
use self::plan::{PATIENT, Plan};
use self::pools::{
    Lent, Pool, TaskDrain, TaskGet, TaskLent, TaskPool, TaskWorker, builder_of, task_pool,
    thread_pool,
};
use self::task::{Move, Step, Task, tasks_of};
use self::threads::{join_all, sleep};
use self::turns::Return;
use self::within::Own;
use self::world::{Count, LONG, LONGEST_DELAY, NEVER, Wait, World, drawn};
use futures::Future;
use futures::spin::lock;
use futures::task::{Context, Poll};
use r2d2::{Error, ErrorKind, PoolRuntime, Status};
use std::alloc::{Alloc, Global};
use std::process::ExitCode;
use std::rt::Clock;
use std::sync::atomic::{AtomicU64, Ordering};
use std::sync::{Arc, Mutex};
use std::test::Fail;
use std::thread::JoinHandle;
use std::time::Duration;
use std::{env, fmt, io, mem, thread};

fn main(rt: HostRuntime) -> Result<ExitCode, Fail> {
    let mut words = env::args(&rt)?.skip(1);
    let Some(kind) = words.next() else {
        return Ok(ExitCode::from(2));
    };
    let (mut plan, mut choices) = (Plan::new(kind.as_str()), Choices::new(rt.alloc()));
    let mut is_told = false;
    for word in words {
        let way = word.as_str().strip_prefix("way=");
        is_told |= way.is_some();
        if !way.map_or_else(|| plan.take(word.as_str()), |way| choices.follow(way)) {
            eprintln!(rt; "{word}: no word of a scenario")?;
            return Ok(ExitCode::from(2));
        }
    }
    if plan.within.is_some() {
        within::draw(&rt, &mut plan);
    }
    let world = World::new(rt, plan, choices, is_told);
    let went_well = play(rt, Box::leak(Box::new(rt.alloc(), world)?))?;
    Ok(ExitCode::from(u8::from(!went_well)))
}

// Whether the run went well, or all did.
fn play<R: PoolRuntime>(rt: R, world: &'static World) -> Result<bool, Fail> {
    match &world.plan {
        plan if !plan.is_drawn() => return orders::play(world),
        plan if plan.is_of_tasks => orders::play_threads(rt, world)?,
        plan if plan.within.is_some() => within::play(rt, world)?,
        _ => threads::play(rt, world)?,
    }
    // The manager is dropped with the last worker.
    for _ in 0..1_000 {
        if world.count(Count::Ended) == 1 {
            break;
        }
        sleep(world, 10);
    }
    judge::ends(world);
    Ok(!world.has_faults())
}
