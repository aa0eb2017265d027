// What grows with the size of a pool, or with the number of lent connections.
use crate::pools::{open_pool, Nothings};
use crate::scenario::Case;
use r2d2::{Pool, PooledConnection};
use std::collections::VecDeque;
use std::time::{Duration, Instant};

/// How many connections are taken and given back, beside those that stay lent.
pub const BATCH: u32 = 10;

/// Batches of one run.
pub const BATCHES: u32 = 50;

type Lent = VecDeque<PooledConnection<Nothings>>;

/// A pool is built, and all its connections opened.
pub fn build(case: Case) -> Duration {
    let start = Instant::now();
    let pool = open_pool(case.max_size, false);
    let time = start.elapsed();
    drop(pool);
    time
}

/// `get`, while all but a batch of the connections are lent.
pub fn lent_get(case: Case) -> Duration {
    batches(case.max_size, Which::Newest).0
}

/// The return of the connection that was lent last, while all but a batch are lent.
pub fn lent_drop(case: Case) -> Duration {
    batches(case.max_size, Which::Newest).1
}

/// The return of the connection that was lent first, while all but a batch are lent.
pub fn lent_drop_oldest(case: Case) -> Duration {
    batches(case.max_size, Which::Oldest).1
}

/// Which lent connection is given back.
#[derive(Clone, Copy)]
enum Which {
    Newest,
    Oldest,
}

// The times of all takings and of all returns.
fn batches(max_size: u32, which: Which) -> (Duration, Duration) {
    let pool = open_pool(max_size, false);
    let mut lent = VecDeque::with_capacity(max_size as usize);
    take(&pool, &mut lent, max_size.saturating_sub(BATCH));
    let mut gets = Duration::ZERO;
    let mut drops = Duration::ZERO;
    for _ in 0..BATCHES {
        let start = Instant::now();
        take(&pool, &mut lent, BATCH);
        gets = gets.saturating_add(start.elapsed());
        let start = Instant::now();
        give_back(&mut lent, BATCH, which);
        drops = drops.saturating_add(start.elapsed());
    }
    (gets, drops)
}

// Takes so many connections.
fn take(pool: &Pool<Nothings>, lent: &mut Lent, count: u32) {
    for _ in 0..count {
        lent.push_back(pool.get().expect("a call was not served"));
    }
}

// Gives so many back, one by one.
fn give_back(lent: &mut Lent, count: u32, which: Which) {
    for _ in 0..count {
        match which {
            Which::Newest => drop(lent.pop_back()),
            Which::Oldest => drop(lent.pop_front()),
        }
    }
}
