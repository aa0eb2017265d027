// What grows with the size of a pool, or with the number of lent connections.
ghost use Rattle.std.specs.Prelude.{◌<◌};

use crate::pools::{Nothings, open_pool};
use crate::scenario::Case;
use r2d2::{
    NopConnectionCustomizer, NopErrorHandler, NopEventHandler, PlainPool, PoolRuntime,
    PooledConnection,
};
use std::collections::VecDeque;
use std::time::{Duration, Instant};

/// How many connections are taken and given back, beside those that stay lent.
pub const BATCH: u32 = 10;

/// Batches of one run.
pub const BATCHES: u32 = 50;

type Lent<R> = VecDeque<
    PooledConnection<Nothings, NopErrorHandler, NopEventHandler, NopConnectionCustomizer, R>,
>;

/// A pool is built, and all its connections opened.
pub fn build<R: PoolRuntime>(rt: R, case: Case) -> Result<Duration, anyhow::Error> {
    let start = Instant::now(&rt)?;
    let pool = open_pool(rt, case.max_size, false)?;
    let time = start.elapsed(&rt)?;
    drop(pool);
    Ok(time)
}

/// `get`, while all but a batch of the connections are lent.
pub fn lent_get<R: PoolRuntime>(rt: R, case: Case) -> Result<Duration, anyhow::Error> {
    let (gets, _) = batches(rt, case.max_size, Which::Newest)?;
    Ok(gets)
}

/// The return of the connection that was lent last, while all but a batch are lent.
pub fn lent_drop<R: PoolRuntime>(rt: R, case: Case) -> Result<Duration, anyhow::Error> {
    let (_, drops) = batches(rt, case.max_size, Which::Newest)?;
    Ok(drops)
}

/// The return of the connection that was lent first, while all but a batch are lent.
pub fn lent_drop_oldest<R: PoolRuntime>(rt: R, case: Case) -> Result<Duration, anyhow::Error> {
    let (_, drops) = batches(rt, case.max_size, Which::Oldest)?;
    Ok(drops)
}

/// Which lent connection is given back.
#[derive(Clone, Copy)]
enum Which {
    Newest,
    Oldest,
}

// The times of all takings and of all returns.
fn batches<R: PoolRuntime>(
    rt: R,
    max_size: u32,
    which: Which,
) -> Result<(Duration, Duration), anyhow::Error>
    requires { 0 < max_size }
{
    let pool = open_pool(rt, max_size, false)?;
    let mut lent = VecDeque::with_capacity(rt.alloc(), max_size as usize)?;
    take(&pool, &mut lent, max_size.saturating_sub(BATCH))?;
    let mut gets = Duration::ZERO;
    let mut drops = Duration::ZERO;
    for _ in 0..BATCHES {
        let (taking, returning) = batch(rt, &pool, &mut lent, which)?;
        gets = gets.saturating_add(taking);
        drops = drops.saturating_add(returning);
    }
    // The oldest of many costs most, and `lent` itself would begin with it.
    give_back(&mut lent, max_size.saturating_sub(BATCH), Which::Newest);
    Ok((gets, drops))
}

// The time of one batch's takings, and that of its returns.
fn batch<R: PoolRuntime>(
    rt: R,
    pool: &PlainPool<Nothings, R>,
    lent: &mut Lent<R>,
    which: Which,
) -> Result<(Duration, Duration), anyhow::Error> {
    let start = Instant::now(&rt)?;
    take(pool, lent, BATCH)?;
    let gets = start.elapsed(&rt)?;
    let start = Instant::now(&rt)?;
    give_back(lent, BATCH, which);
    Ok((gets, start.elapsed(&rt)?))
}

// Takes so many connections.
fn take<R: PoolRuntime>(
    pool: &PlainPool<Nothings, R>,
    lent: &mut Lent<R>,
    count: u32,
) -> Result<(), anyhow::Error> {
    for _ in 0..count {
        lent.push_back(pool.get()?)?;
    }
    Ok(())
}

// Gives so many back, one by one.
fn give_back<R: PoolRuntime>(lent: &mut Lent<R>, count: u32, which: Which) {
    for _ in 0..count {
        match which {
            Which::Newest => drop(lent.pop_back()),
            Which::Oldest => drop(lent.pop_front()),
        }
    }
}
