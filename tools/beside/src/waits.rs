//! How long callers wait where there are more of them than connections.
use crate::gate;
use crate::pools::{open_pool, Nothings};
use r2d2::Pool;
use std::sync::Arc;
use std::thread;
use std::time::{Duration, Instant};

/// So many callers, `max_size`, how many microseconds a connection is held, and the calls of each.
pub type Load = (u32, u32, u64, u32);

/// Loads of two seconds at most.
pub const SHORT: [Load; 6] = [
    (8, 1, 0, 10_000),
    (8, 1, 20, 2_000),
    (8, 1, 1_000, 250),
    (8, 4, 0, 10_000),
    (8, 4, 20, 2_000),
    (8, 4, 1_000, 250),
];

/// Loads of some ten seconds, in which who is not served for long is seen.
pub const LONG: [Load; 3] = [
    (8, 1, 50, 22_000),
    (8, 1, 1_000, 1_180),
    (64, 8, 1_000, 1_180),
];

/// Times each load, and prints a line for each: how many nanoseconds passed for each call of all,
/// and the waits in microseconds.
pub fn measure(loads: &[Load]) {
    println!("way callers max_size held_us calls ns_for_each p50_us p99_9_us longest_us");
    for load in loads {
        measure_load(*load);
    }
}

fn measure_load((callers, max_size, held_us, calls): Load) {
    let pool = open_pool(max_size, false);
    let gate = gate::for_callers(callers);
    let threads: Vec<_> = (0..callers)
        .map(|_| {
            let (theirs, gate) = (pool.clone(), Arc::clone(&gate));
            thread::spawn(move || {
                gate::pass(&gate);
                waited(theirs, Duration::from_micros(held_us), calls)
            })
        })
        .collect();
    let begun = gate::open(&gate);
    let mut waits: Vec<u64> = Vec::new();
    for thread in threads {
        waits.extend(thread.join().expect("a call was not served"));
    }
    let each = begun.elapsed().as_nanos() / waits.len() as u128;
    waits.sort_unstable();
    let part = |of_a_thousand: usize| {
        waits[(waits.len() * of_a_thousand / 1000).min(waits.len() - 1)] / 1000
    };
    println!(
        "r2d2 {callers} {max_size} {held_us} {calls} {each} {} {} {}",
        part(500),
        part(999),
        part(1000)
    );
}

// How long each call waited, in nanoseconds.
fn waited(pool: Pool<Nothings>, held: Duration, calls: u32) -> Vec<u64> {
    let mut waits = Vec::with_capacity(calls as usize);
    for _ in 0..calls {
        let start = Instant::now();
        let lent = pool.get().expect("a call was not served");
        let waited = start.elapsed();
        hold(held);
        drop(lent);
        waits.push(waited.as_nanos() as u64);
    }
    waits
}

// Sleeps for a length of a hundred microseconds or more, and turns for a shorter one.
fn hold(held: Duration) {
    if held.as_micros() >= 100 {
        thread::sleep(held);
        return;
    }
    let start = Instant::now();
    while start.elapsed() < held {}
}
