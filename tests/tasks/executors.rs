// Thousands of tasks, over each of the executors: nothing is lost, none is used twice, and where
// there is one connection nobody is passed.

use crate::throng::{Count, Task, World, throng, ticks};
use futures::executor::{EventLoop, Events, LocalPool, Rest, TaskSet, block_on, run_all};
use futures::future::{join_all, ready};
use futures::stream;
use futures::task::{Context, Doorbell};
use r2d2::{Builder, PoolRuntime};
use std::alloc::AllocGlobal;
use std::ops::Range;
use std::process::Abort;
use std::random::RandomSource;
use std::test::Fail;
use std::{io, thread};

const CALLERS: u64 = 1_000;

/// How many connections there are, and whether they are checked, and drained at the end.
type Crowd = (u32, bool, bool);

const CROWDS: [Crowd; 6] = [
    (8, true, true),
    (8, false, false),
    (4, true, true),
    (4, true, false),
    (1, true, false),
    (1, false, true),
];

#[derive(Clone, Copy, PartialEq)]
enum Executor {
    Set,
    FourThreads,
    LocalPool,
    Stream,
    OneFuture,
    EventLoop,
}

// Crowds by an executor; with more than one thread, who is served first is not said.
fn each<R>(
    rt: &R,
    host: HostRuntime,
    executor: Executor,
    seeds: Range<u64>,
    crowds: &[Crowd],
) -> Result<(), Fail>
where
    R: PoolRuntime + Abort + RandomSource,
{
    for seed in seeds {
        for (max_size, is_checked, drains) in crowds.iter().copied() {
            let world = World::new(host, seed)?;
            let settings = Builder::new()
                .max_size(max_size)
                .min_idle(Some(0))
                .test_on_check_out(is_checked)
                .max_waiting(Some(2_000))
                .max_lifetime(Some(ticks(2_000)))
                .idle_timeout(Some(ticks(300)));
            run(rt, executor, throng(world, settings, CALLERS, drains)?)?;
            goes_well(rt, world, drains);
            if executor != Executor::FourThreads {
                assert!(rt; world.count(Count::Most) <= u64::from(max_size));
                assert!(rt; max_size > 1 || world.count(Count::Passed) == 0);
            }
        }
    }
    Ok(())
}

fn goes_well<R: Abort>(rt: &R, world: World, drains: bool) {
    let count = |what| world.count(what);
    assert_eq!(rt; count(Count::Opened), count(Count::Dropped));
    assert_eq!(rt; (count(Count::Twice), count(Count::Odd)), (0, 0));
    assert_eq!(rt; count(Count::Drained), drains as u64);
    let (served, cancelled) = (count(Count::Served), count(Count::Cancelled));
    let (timed_out, closed) = (count(Count::TimedOut), count(Count::Closed));
    // Each call came to an end. Who was told that the pool is closed, or that the time is over, made
    // no second one.
    let calls = served + cancelled + timed_out + closed;
    assert!(rt; calls <= 2 * CALLERS, "{calls}");
    assert!(rt; calls + timed_out + closed >= 2 * CALLERS, "{calls}");
    assert!(rt; served >= 400 && cancelled > 50, "{served} {cancelled}");
    assert!(rt; count(Count::Detached) > 0);
    assert_eq!(rt; closed > 0, drains);
}

fn run<R>(rt: &R, executor: Executor, tasks: Vec<Task>) -> Result<(), Fail>
where
    R: PoolRuntime + RandomSource,
{
    match executor {
        Executor::Set => set_of(rt, tasks, 1)?.work(rt, 0),
        Executor::FourThreads => {
            let set = set_of(rt, tasks, 4)?;
            thread::join(
                rt,
                || thread::join(rt, || set.work(rt, 0), || set.work(rt, 1)),
                || thread::join(rt, || set.work(rt, 2), || set.work(rt, 3)),
            );
        }
        Executor::LocalPool => {
            let mut pool = LocalPool::new(rt)?;
            let spawner = pool.spawner()?;
            for task in tasks {
                spawner.spawn(task).map_err(|_| "a task was refused")?;
            }
            pool.run(rt);
        }
        Executor::Stream => run_all(rt, stream::iter(tasks))?,
        Executor::OneFuture => drop(block_on(rt, join_all(rt.alloc(), tasks)?)??),
        Executor::EventLoop => {
            let set = set_of(rt, tasks, 1)?;
            let mut event_loop = EventLoop::new(rt, Doorbell::parking())?;
            event_loop.block_on_with(rt, &mut NoEvents, &set, ready(()), None)?;
        }
    }
    Ok(())
}

// A set with all of the tasks.
fn set_of<R>(rt: &R, tasks: Vec<Task>, shards: usize) -> Result<TaskSet<Task>, Fail>
where
    R: RandomSource + AllocGlobal,
{
    let set = TaskSet::new(rt, Doorbell::parking(), shards)?;
    for task in tasks {
        set.spawn(task).map_err(|_| "a task was refused")?;
    }
    Ok(set)
}

/// Waits for no event: it looks again at once.
#[derive(Drop)]
struct NoEvents;

impl<R> Events<R> for NoEvents {
    fn look(&mut self, _rt: &R) -> io::Result<()> {
        Ok(())
    }

    fn wait(&mut self, _rt: &R, _rest: &Rest<'_>) -> io::Result<()> {
        Ok(())
    }

    fn dispatch(&mut self, _rt: &R, _cx: &mut Context<'_>) -> io::Result<u64> {
        Ok(0)
    }
}

#[test]
fn a_set_of_tasks(rt: HostRuntime) -> Result<(), Fail> {
    each(&rt, rt, Executor::Set, 0..4, &CROWDS)
}

#[test]
fn four_threads(rt: HostRuntime) -> Result<(), Fail> {
    each(&rt, rt, Executor::FourThreads, 0..3, &CROWDS[..2])
}

#[test]
fn a_local_pool(rt: HostRuntime) -> Result<(), Fail> {
    each(&rt, rt, Executor::LocalPool, 11..12, &CROWDS)
}

#[test]
fn a_stream_of_tasks(rt: HostRuntime) -> Result<(), Fail> {
    each(&rt, rt, Executor::Stream, 12..13, &CROWDS)
}

#[test]
fn one_future_of_all(rt: HostRuntime) -> Result<(), Fail> {
    each(&rt, rt, Executor::OneFuture, 13..14, &CROWDS)
}

#[test]
fn an_event_loop(rt: HostRuntime) -> Result<(), Fail> {
    each(&rt, rt, Executor::EventLoop, 14..15, &CROWDS)
}
