//! Times tasks at stand-ins for deadpool and bb8, as `tests/pool_bench` does at our pool: a semaphore
//! beside a queue (`permits`), and a queue with a channel for each who waits (`notified`). They have
//! what it takes to lend connections that are open and sound, read the clock once a call as both
//! do, and have no more: no check, no timer, no hook. The tasks run on one thread, by tokio.
//!
//! Given `tasks`, it prints the lines of `pool_bench tasks`; given `once`, a shape, how many tasks
//! there are and how many calls they make together, it makes those calls, as for a profile. Given
//! `serve`, an address, what is asked, how many tasks there are and for how many milliseconds, they
//! ask a PostgreSQL there, by tokio-postgres (`managed`, `server`).

mod managed;
mod notified;
mod permits;
mod server;

use notified::Notified;
use permits::Permits;
use std::collections::VecDeque;
use std::env;
use std::future::Future;
use std::time::{Duration, Instant};
use tokio::runtime::{Builder, Runtime};
use tokio::task;

/// How many connections there are.
const MAX_SIZE: u32 = 8;

/// How often each number of tasks is timed.
const RUNS: u32 = 25;

/// How many tasks there are, and how many calls they make together.
const CROWDS: [(u32, u32); 4] = [
    (100, 20_000),
    (1_000, 20_000),
    (10_000, 100_000),
    (30_000, 300_000),
];

/// A connection's number, and when it last came or went.
pub type Connection = (u32, Instant);

const SHAPES: [(&str, fn(u32, u32) -> Duration); 2] =
    [("permits", permits), ("notified", notified)];

fn main() {
    let words: Vec<String> = env::args().skip(1).collect();
    let words: Vec<&str> = words.iter().map(String::as_str).collect();
    match words[..] {
        ["tasks"] => measure(),
        ["once", shape, tasks, calls] => once(shape, number(tasks), number(calls)),
        ["serve", address, request, tasks, millis] => {
            server::serve(address, request, number(tasks), number(millis));
        }
        _ => {
            println!("usage: peers tasks | once SHAPE TASKS CALLS | serve ADDRESS REQUEST TASKS MS")
        }
    }
}

fn number(word: &str) -> u32 {
    word.parse().expect("a number")
}

fn once(shape: &str, tasks: u32, calls: u32) {
    let found = SHAPES.iter().find(|(name, _)| *name == shape);
    let (_, run) = found.expect("permits or notified");
    run(tasks, calls);
}

fn measure() {
    println!("scenario tasks max_size ops least_ns median_ns");
    for (name, run) in SHAPES {
        for (tasks, calls) in CROWDS {
            let each = |time: Duration| time.as_nanos() / u128::from(calls);
            let mut times: Vec<u128> = (0..RUNS).map(|_| each(run(tasks, calls))).collect();
            times.sort_unstable();
            let (least, median) = (times[0], times[times.len() / 2]);
            println!("{name} {tasks} {MAX_SIZE} {calls} {least} {median}");
        }
    }
}

fn permits(tasks: u32, calls: u32) -> Duration {
    in_tasks(tasks, calls, Permits::new(MAX_SIZE), Permits::get)
}

fn notified(tasks: u32, calls: u32) -> Duration {
    in_tasks(tasks, calls, Notified::new(MAX_SIZE), Notified::get)
}

/// So many connections.
pub fn opened(max_size: u32) -> VecDeque<Connection> {
    let now = Instant::now();
    (0..max_size).map(|id| (id, now)).collect()
}

// How long tasks take that share the calls.
fn in_tasks<P, F>(tasks: u32, calls: u32, pool: P, get: fn(P) -> F) -> Duration
where
    P: Clone + Send + 'static,
    F: Future + Send + 'static,
    F::Output: Send,
{
    let runtime: Runtime = Builder::new_current_thread()
        .build()
        .expect("a runtime of one thread");
    let callers: Vec<_> = (0..tasks)
        .map(|_| runtime.spawn(call(pool.clone(), get, calls / tasks)))
        .collect();
    let start = Instant::now();
    runtime.block_on(async {
        for caller in callers {
            caller.await.expect("no call panics");
        }
    });
    start.elapsed()
}

// Makes so many calls. Other tasks are polled while it holds a connection.
async fn call<P: Clone, F: Future>(pool: P, get: fn(P) -> F, calls: u32) {
    for _ in 0..calls {
        let lent = get(pool.clone()).await;
        task::yield_now().await;
        drop(lent);
    }
}
