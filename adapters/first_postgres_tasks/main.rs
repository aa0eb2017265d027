//! A first program with a pool for tasks of connections to PostgreSQL: 100 tasks ask with 4 of
//! them.
#![tactic(auto)]

use futures::{FutureExt, future};
use postgres_tasks::{Commands, PostgresConnectionManager, TaskConnectionManager};
use r2d2_async::{Builder, Pool};
use std::io;
use std::time::Duration;
use tokio::runtime::LocalRuntime;
use tokio_timer::TokioTimer;

fn main(rt: HostRuntime) -> Result<(), anyhow::Error> {
    let mut runtime = LocalRuntime::new(&rt)?;
    // (Without proof, logging in takes seconds.)
    let (address, timeout) = ("127.0.0.1:5432", Duration::from_secs(30));
    let settings = PostgresConnectionManager::new(
        rt, address, "postgres", "postgres", timeout,
    )?.with_password("secret")?;
    let manager = TaskConnectionManager::new(settings, runtime.handle())?;
    let timer = TokioTimer::new(rt, runtime.handle())?;
    let pool = Pool::build(Builder::new().max_size(4), rt, manager, timer)?;
    let workers = runtime.task_set(&rt)?;
    for _ in 0..4 {
        workers.spawn(pool.worker()?).map_err(io::Error::from)?;
    }
    let mut tasks = Vec::new(rt.alloc());
    for _ in 0..100 {
        let asked = pool.get()?.then(|lent| match lent {
            Ok(lent) => lent
                .query_with("SELECT 6 * $1::int", &[Some("7")])
                .map(|(_, rows)| rows.is_ok_and(|rows| rows.as_slice()[0].get(0) == Some("42")))
                .left_future(),
            Err(_) => future::ready(false).right_future(),
        });
        tasks.push(asked)?;
    }
    // The pool closes with the last task, and then the workers end.
    drop(pool);
    let all = future::join_all(rt.alloc(), tasks)?;
    let asked = runtime.block_on_with(&rt, &workers, all)??;
    let count = asked
        .as_slice()
        .iter()
        .filter(|is_answered| **is_answered)
        .count();
    println!(rt; "{count}")?;
    Ok(())
}
