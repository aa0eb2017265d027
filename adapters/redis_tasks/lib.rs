//! Connections to Redis for the pool for tasks, `r2d2_async`, over tokio's runtime: what is said is
//! that of the crate `redis`, and only the look-up of a name blocks. This copy is yours, to be
//! changed.
#![tactic(auto)]

mod connection;
mod exchange;
mod manager;
mod opening;
mod socket;

pub use connection::TaskConnection;
pub use exchange::{Check, Commands, Exchange, ExchangeOfAll};
pub use manager::TaskConnectionManager;
pub use opening::Connect;
pub use redis::{Limits, Pipeline, RedisConnectionManager, RedisError, Reply, Reset, Session};
