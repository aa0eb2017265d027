//! Connections to PostgreSQL for the pool for tasks, `r2d2_async`, over tokio's runtime: what is
//! said is that of the crate `postgres`, and only the look-up of a name blocks. This copy is yours,
//! to be changed.
#![tactic(auto)]

mod cancelling;
mod connection;
mod exchange;
mod manager;
mod opening;
mod socket;

pub use connection::TaskConnection;
pub use exchange::{Check, Commands, Executed, Queried};
pub use manager::TaskConnectionManager;
pub use opening::Connect;
pub use postgres::{Limits, PostgresConnectionManager, PostgresError, Reset, Row, Session};
