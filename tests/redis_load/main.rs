//! Times commands at a real Redis over a pool of eight connections, for tools/times: the words are
//! `ADDRESS THREADS CHECKS COMMANDS`, where the checks are `never`, `idle` (of what was idle for a
//! second) or `always`. Prints how many nanoseconds all of them took together.
#![tactic(auto)]

use r2d2::{Builder, PlainPool, PoolRuntime};
use redis::RedisConnectionManager;
use std::test::Fail;
use std::time::{Duration, Instant};
use std::{env, thread};

type Connections<R> = PlainPool<RedisConnectionManager, R>;

fn main(rt: HostRuntime) -> Result<(), Fail> {
    let mut words = Vec::new(rt.alloc());
    for word in env::args(&rt)?.skip(1) {
        words.push(word)?;
    }
    let [address, threads, checks, commands] = words.as_slice() else {
        return Err(Fail::from("ADDRESS THREADS CHECKS COMMANDS"));
    };
    let second = Duration::from_secs(1);
    let manager = RedisConnectionManager::new(rt, address.as_str(), second * 5)?;
    let pool = Builder::new()
        .max_size(8)
        .test_on_check_out(checks.as_str() != "never")
        .test_if_idle_for((checks.as_str() == "idle").then_some(second))
        .build_unchecked(rt, manager)?;
    let threads = threads.as_str().parse::<u32>()?;
    let each = commands.as_str().parse::<u32>()? / threads.max(1);
    // (connections are opened and code is read before)
    load(rt, &pool, threads, 100)?;
    let begun = Instant::now(&rt)?;
    load(rt, &pool, threads, each)?;
    println!(rt; "{}", begun.elapsed(&rt)?.as_nanos())?;
    Ok(())
}

fn load<R: PoolRuntime>(rt: R, pool: &Connections<R>, threads: u32, each: u32) -> Result<(), Fail> {
    let mut running = Vec::new(rt.alloc());
    for _ in 0..threads {
        let pool = pool.try_clone()?;
        running.push(thread::spawn(&rt, move || counted(pool, each))?)?;
    }
    for thread in running {
        if thread.join(&rt) < each {
            return Err(Fail::from("no connection, or no reply"));
        }
    }
    Ok(())
}

// How many were counted until one failed, or so many.
fn counted<R: PoolRuntime>(pool: Connections<R>, each: u32) -> u32 {
    for number in 0..each {
        let is_counted = match pool.get() {
            Ok(mut redis) => redis.command(&["INCR", "n"]).is_ok(),
            Err(_) => false,
        };
        if !is_counted {
            return number;
        }
    }
    each
}
