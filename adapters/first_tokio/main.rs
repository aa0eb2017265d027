//! A first program with a pool for tasks, on tokio's runtime.
#![tactic(auto)]

use futures::future::Ready;
use futures::{FutureExt, future};
use r2d2_async::{Builder, ManageConnection, Pool};
use std::alloc::AllocError;
use std::io;
use tokio::runtime::LocalRuntime;
use tokio_timer::TokioTimer;

/// Opens connections that are numbers.
#[derive(Drop)]
struct Numbers;

impl ManageConnection for Numbers {
    type Connection = u32;

    type Error = AllocError;

    type Extension = ();

    type Connect = Ready<Result<u32, AllocError>>;

    type Check = Ready<(u32, Result<(), AllocError>)>;

    fn connect(&self) -> Ready<Result<u32, AllocError>> {
        future::ready(Ok(7))
    }

    fn check(&self, connection: u32) -> Ready<(u32, Result<(), AllocError>)> {
        future::ready((connection, Ok(())))
    }

    fn has_broken(&self, _connection: &mut u32) -> bool {
        false
    }
}

fn main(rt: HostRuntime) -> Result<(), anyhow::Error> {
    let mut runtime = LocalRuntime::new(&rt)?;
    let timer = TokioTimer::new(rt, runtime.handle())?;
    let pool = Pool::build(Builder::new().max_size(4), rt, Numbers, timer)?;
    let workers = runtime.task_set(&rt)?;
    workers.spawn(pool.worker()?).map_err(io::Error::from)?;
    let get = pool.get()?;
    // The `get`, and then what it lends, keep the pool open: the worker ends with it.
    drop(pool);
    let found = get.map(|lent| lent.map(|connection| *connection));
    let found = runtime.block_on_with(&rt, &workers, found)??;
    println!(rt; "{found}")?;
    Ok(())
}
