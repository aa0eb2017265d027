// Several threads at one pool. They begin all at once.
use crate::alone::floor_round;
use crate::gate;
use crate::pools::{open_pool, Nothings};
use crate::scenario::{figures, Case};
use parking_lot::Mutex;
use r2d2::Pool;
use std::sync::Arc;
use std::thread;
use std::time::{Duration, Instant};

/// Calls of all threads together, in one run.
const CALLS: u32 = 80_000;

/// Times each number of threads at each size of pool.
pub fn measure_pools() {
    for max_size in [1, 4, 10] {
        measure("mt", max_size, get_drop);
    }
}

/// Times the round of `floor` by each number of threads at one lock.
pub fn measure_floor() {
    measure("mt_floor", 1, floor);
}

// Runs a scenario a few times with each number of threads, and prints the lines.
fn measure(name: &str, max_size: u32, run: impl Fn(Case) -> Duration) {
    // What one thread takes.
    let mut alone = 0;
    for threads in [1, 2, 4, 8] {
        let case = Case {
            threads,
            max_size,
            operations: CALLS,
        };
        let figures = figures(case, &run);
        if threads == 1 {
            alone = figures.least;
        }
        case.print(name, figures.unless_below(alone));
    }
}

// `get`, and the connection's return, in threads that share the calls.
fn get_drop(case: Case) -> Duration {
    let pool = open_pool(case.max_size, false);
    in_threads(case, || {
        let theirs = pool.clone();
        move |calls| serve(theirs, calls)
    })
}

// Rounds of `floor` in threads that share the calls.
fn floor(case: Case) -> Duration {
    let latest = Arc::new(Mutex::new(Duration::ZERO));
    in_threads(case, || {
        let theirs = Arc::clone(&latest);
        move |rounds| go_round(theirs, rounds)
    })
}

// The time of threads that share the calls, from when all are there until all have ended.
fn in_threads<C: FnOnce(u32) + Send + 'static>(case: Case, caller: impl Fn() -> C) -> Duration {
    let calls = case.operations / case.threads;
    let gate = gate::for_callers(case.threads);
    let mut callers = Vec::new();
    for _ in 0..case.threads {
        let (call, gate) = (caller(), Arc::clone(&gate));
        callers.push(thread::spawn(move || {
            gate::pass(&gate);
            call(calls)
        }));
    }
    let begun = gate::open(&gate);
    for caller in callers {
        caller.join().expect("a call was not served");
    }
    begun.elapsed()
}

fn serve(pool: Pool<Nothings>, calls: u32) {
    for _ in 0..calls {
        drop(pool.get().expect("a call was not served"));
    }
}

fn go_round(latest: Arc<Mutex<Duration>>, rounds: u32) {
    let start = Instant::now();
    for _ in 0..rounds {
        floor_round(&latest, start);
    }
}
