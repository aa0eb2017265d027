//! Connections to Redis for the pool `r2d2`. This copy is yours, to be changed.
#![tactic(auto)]

mod connection;
mod error;
mod greeting;
mod manager;
mod pipeline;
mod probe;
mod reply;
mod reset;
mod settings;
mod socket;
mod standing;
mod urls;
mod wire;

pub use connection::RedisConnection;
pub use error::RedisError;
pub use greeting::Greeting;
pub use manager::RedisConnectionManager;
pub use pipeline::Pipeline;
pub use probe::Probe;
pub use redis_codec::{Limits, Session};
pub use reply::Reply;
pub use reset::{Login, Reset};
pub use server_url::UrlError;
pub use settings::{Settings, Timeouts};
pub use standing::{Standing, must_be_a_word};
