//! Tasks that ask a PostgreSQL, over the pool for tasks and `postgres_tasks` (tools/times servers):
//! what `serve` of tools/peers does over tokio-postgres, by the same queries. Given an address, what
//! is asked, how many tasks there are and for how many milliseconds, it prints what came of it.
//! `read` is a query, `value` one with a value whose statement the server keeps, `text` the same with
//! none kept, `write` a transaction; `reset` is one after which the session is reset.
#![tactic(auto)]

mod caller;
mod counts;

use self::caller::Caller;
use self::counts::Counts;
use futures::future;
use postgres_tasks::{PostgresConnectionManager, Reset, TaskConnectionManager};
use r2d2::PoolRuntime;
use r2d2_async::{Builder, Pool};
use std::net::Net;
use std::random::RandomSource;
use std::sync::Arc;
use std::test::Fail;
use std::time::{Duration, Instant};
use std::{env, io};
use tokio::runtime::LocalRuntime;
use tokio_timer::TokioTimer;

const MAX_SIZE: u32 = 8;

const STATEMENTS: usize = 32;

/// How many milliseconds a caller waits for a connection, and as many for a query.
pub const TIMEOUT_MILLIS: u64 = 1000;

/// What each task asks, again and again.
#[derive(Clone, Copy, PartialEq, Eq)]
pub enum Request {
    Read,
    Value,
    Text,
    Write,
    Reset,
}

impl Request {
    fn of(word: &str) -> Request {
        match word {
            "read" => Request::Read,
            "value" => Request::Value,
            "text" => Request::Text,
            "write" => Request::Write,
            _ => Request::Reset,
        }
    }

    fn reset(self) -> Reset {
        match self {
            Request::Reset => Reset::IfMarked,
            _ => Reset::Never,
        }
    }

    // How many statements the server keeps for a connection.
    fn kept(self) -> usize {
        match self {
            Request::Value => STATEMENTS,
            _ => 0,
        }
    }

    /// How many statements it has.
    pub fn statements(self) -> u32 {
        match self {
            Request::Read | Request::Value | Request::Text => 1,
            Request::Write | Request::Reset => 3,
        }
    }
}

fn main(rt: HostRuntime) -> Result<(), Fail> {
    let mut words = Vec::new(rt.alloc());
    for word in env::args(&rt)?.skip(1) {
        words.push(word)?;
    }
    let [address, request, tasks, millis] = words.as_slice() else {
        println!(rt; "usage: server_bench ADDRESS REQUEST TASKS MS")?;
        return Ok(());
    };
    let request = Request::of(request.as_str());
    let timeout = Duration::from_millis(TIMEOUT_MILLIS);
    let manager = PostgresConnectionManager::new(
        rt,
        address.as_str(),
        "postgres",
        "postgres",
        timeout,
    )?;
    let (tasks, millis) = (
        tasks.as_str().parse::<u32>()?,
        millis.as_str().parse::<u64>()?,
    );
    let manager = manager
        .with_reset(request.reset())
        .with_statements(request.kept());
    serve(rt, manager, request, tasks, Duration::from_millis(millis))
}

fn serve<R: PoolRuntime + RandomSource + Net + Print>(
    rt: R,
    manager: PostgresConnectionManager,
    request: Request,
    tasks: u32,
    length: Duration,
) -> Result<(), Fail> {
    let mut runtime = LocalRuntime::new(&rt)?;
    let manager = TaskConnectionManager::new(manager, runtime.handle())?;
    let timer = TokioTimer::new(rt, runtime.handle())?;
    let builder = Builder::new()
        .max_size(MAX_SIZE)
        .test_on_check_out(false)
        .connection_timeout(Duration::from_millis(TIMEOUT_MILLIS))
        .max_retry_delay(Some(Duration::from_millis(200)));
    let pool = Pool::build(builder, rt, manager, timer)?;
    let mut workers = Vec::new(rt.alloc());
    for _ in 0..MAX_SIZE {
        workers.push(pool.worker()?)?;
    }
    let timer = Arc::new(rt.alloc(), TokioTimer::new(rt, runtime.handle())?)?;
    let counts = Arc::new(rt.alloc(), Counts::new(rt)?)?;
    let until = Instant::now(&rt)?.checked_add(length);
    let callers = runtime.task_set(&rt)?;
    for task in 0..tasks {
        let (timer, counts) = (Arc::try_clone(&timer)?, Arc::try_clone(&counts)?);
        let pool = pool.try_clone()?;
        let caller = Caller::new(rt, pool, timer, counts, request, task, until)?;
        callers.spawn(caller).map_err(io::Error::from)?;
    }
    // They end with the last pool, which the last caller has.
    drop(pool);
    let workers = future::join_all(rt.alloc(), workers)?;
    runtime.block_on_with(&rt, &callers, workers)??;
    counts.tell(&rt)
}
