//! Times the calls of r2d2's pool in the scenarios of `tests/pool_bench`, under their names and
//! with their figures, and prints the same lines: the name, the threads, `max_size`, how many
//! operations were timed, and the nanoseconds for each, the least and the median of the runs; `-`
//! for both where several threads hardly met. Given `waits`, it prints how long callers wait; given
//! `long_waits`, that of loads of some ten seconds; given `build` and a number, it builds a pool of so
//! many connections, and prints how many nanoseconds that took.

mod alone;
mod contended;
mod gate;
mod growing;
mod pools;
mod scenario;
mod waits;

use growing::{BATCH, BATCHES};
use scenario::{measure, Case};

/// Calls of a scenario of one thread, in one run.
const CALLS: u32 = 2_000;

fn main() {
    let words: Vec<String> = std::env::args().skip(1).collect();
    match words.iter().map(String::as_str).collect::<Vec<_>>()[..] {
        ["waits"] => waits::measure(&waits::SHORT),
        ["long_waits"] => waits::measure(&waits::LONG),
        ["build", size] => {
            let size = size.parse().expect("how many connections");
            println!("{}", growing::build(one_thread(size, 1)).as_nanos());
        }
        _ => measure_all(),
    }
}

fn measure_all() {
    println!("scenario threads max_size ops least_ns median_ns");
    measure_alone();
    contended::measure_pools();
    contended::measure_floor();
    measure_growing();
}

fn one_thread(max_size: u32, operations: u32) -> Case {
    Case {
        threads: 1,
        max_size,
        operations,
    }
}

fn measure_alone() {
    let one = one_thread(1, CALLS);
    measure("clock", one, alone::clock);
    measure("lock", one, alone::lock);
    measure("floor", one, alone::floor);
    let ten = one_thread(10, CALLS);
    measure("get_drop", ten, |case| alone::get_drop(case, false));
    measure("get_drop_check", ten, |case| alone::get_drop(case, true));
    measure("try_get_hit", ten, alone::try_get_hit);
    measure("try_get_miss", one, alone::try_get_miss);
}

fn measure_growing() {
    for max_size in [10, 100, 1000, 10_000] {
        measure("build", one_thread(max_size, 1), growing::build);
    }
    for lent in [10, 100, 1000, 10_000] {
        let case = one_thread(lent + BATCH, BATCH * BATCHES);
        measure("lent_get", case, growing::lent_get);
        measure("lent_drop", case, growing::lent_drop);
        measure("lent_drop_oldest", case, growing::lent_drop_oldest);
    }
}
