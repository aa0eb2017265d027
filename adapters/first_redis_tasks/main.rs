//! A first program with a pool for tasks of connections to Redis: 100 tasks count with 8 of them.
#![tactic(auto)]

use futures::{FutureExt, future};
use r2d2_async::{Builder, Pool};
use redis_tasks::{Commands, RedisConnectionManager, TaskConnectionManager};
use std::io;
use std::time::Duration;
use tokio::runtime::LocalRuntime;
use tokio_timer::TokioTimer;

fn main(rt: HostRuntime) -> Result<(), anyhow::Error> {
    let mut runtime = LocalRuntime::new(&rt)?;
    let settings = RedisConnectionManager::new(rt, "127.0.0.1:6379", Duration::from_secs(1))?;
    let manager = TaskConnectionManager::new(settings, runtime.handle())?;
    let timer = TokioTimer::new(rt, runtime.handle())?;
    let pool = Pool::build(Builder::new().max_size(8), rt, manager, timer)?;
    let workers = runtime.task_set(&rt)?;
    for _ in 0..8 {
        workers.spawn(pool.worker()?).map_err(io::Error::from)?;
    }
    let mut tasks = Vec::new(rt.alloc());
    for _ in 0..100 {
        let counted = pool.get()?.then(|lent| match lent {
            Ok(lent) => lent
                .command(&["INCR", "visits"])
                .map(|(_, reply)| reply.is_ok())
                .left_future(),
            Err(_) => future::ready(false).right_future(),
        });
        tasks.push(counted)?;
    }
    // The pool closes with the last task, and then the workers end.
    drop(pool);
    let all = future::join_all(rt.alloc(), tasks)?;
    let counted = runtime.block_on_with(&rt, &workers, all)??;
    let count = counted
        .as_slice()
        .iter()
        .filter(|is_counted| **is_counted)
        .count();
    println!(rt; "{count}")?;
    Ok(())
}
