// One thread, and no connection lent beside its own.
use crate::pools::open_pool;
use crate::scenario::Case;
use parking_lot::Mutex;
use std::hint::black_box;
use std::sync::Arc;
use std::time::{Duration, Instant};

/// Reads the clock.
pub fn clock(case: Case) -> Duration {
    let start = Instant::now();
    for _ in 0..case.operations {
        black_box(start.elapsed());
    }
    start.elapsed()
}

/// Takes a lock that nobody holds, and lets it go.
pub fn lock(case: Case) -> Duration {
    let latest = Mutex::new(0);
    let start = Instant::now();
    for call in 0..case.operations {
        *latest.lock() = call;
    }
    start.elapsed()
}

/// `get`, and the connection's return; where `checks` is on, with a check that answers at once.
pub fn get_drop(case: Case, checks: bool) -> Duration {
    let pool = open_pool(case.max_size, checks);
    let start = Instant::now();
    for _ in 0..case.operations {
        drop(pool.get().expect("a call was not served"));
    }
    start.elapsed()
}

/// `try_get` that finds one, and the connection's return.
pub fn try_get_hit(case: Case) -> Duration {
    let pool = open_pool(case.max_size, false);
    let start = Instant::now();
    for _ in 0..case.operations {
        drop(pool.try_get());
    }
    start.elapsed()
}

/// `try_get` while the only connection is lent.
pub fn try_get_miss(case: Case) -> Duration {
    let pool = open_pool(1, false);
    let lent = pool.get().expect("the first call was not served");
    let start = Instant::now();
    for _ in 0..case.operations {
        drop(pool.try_get());
    }
    let time = start.elapsed();
    drop(lent);
    time
}

/// What a `get` and a return need of the machine, with no pool: a shared pointer cloned and
/// dropped, and the lock taken twice, with a reading of the clock under it each time. The lock is
/// the one that r2d2 takes.
pub fn floor(case: Case) -> Duration {
    let latest = Arc::new(Mutex::new(Duration::ZERO));
    let start = Instant::now();
    for _ in 0..case.operations {
        floor_round(&latest, start);
    }
    start.elapsed()
}

/// One round of `floor`.
pub fn floor_round(latest: &Arc<Mutex<Duration>>, start: Instant) {
    let holder = Arc::clone(latest);
    step(&holder, start);
    step(&holder, start);
}

// Takes the lock, and reads the clock under it.
fn step(latest: &Mutex<Duration>, start: Instant) {
    let mut latest = latest.lock();
    *latest = start.elapsed();
}
