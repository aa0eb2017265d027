//! A first program with a pool of connections to Redis.
#![tactic(auto)]

use r2d2::Builder;
use redis::RedisConnectionManager;
use std::time::Duration;

fn main(rt: HostRuntime) -> Result<(), anyhow::Error> {
    let manager = RedisConnectionManager::new(rt, "127.0.0.1:6379", Duration::from_secs(1))?;
    let pool = Builder::new()
        .max_size(4)
        .connection_timeout(Duration::from_secs(5))
        .build(rt, manager)?;
    let mut redis = pool.get()?;
    println!(rt; "{:?}", redis.command(&["INCR", "visits"])?)?;
    Ok(())
}
