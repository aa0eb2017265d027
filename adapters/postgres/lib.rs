//! Connections to PostgreSQL for the pool `r2d2`. This copy is yours, to be changed.
#![tactic(auto)]

mod answer;
mod connection;
mod error;
mod greeting;
mod login;
mod manager;
mod mark;
mod probe;
mod query;
mod refusal;
mod reset;
mod scram;
mod settings;
mod socket;
mod standing;
mod statements;
mod urls;
mod wire;

pub use answer::{Answer, Limits, Reading, Row, Rows, Session};
pub use connection::PostgresConnection;
pub use error::PostgresError;
pub use greeting::{Begun, Greeting, Next};
pub use login::Login;
pub use manager::PostgresConnectionManager;
pub use probe::Probe;
pub use query::Query;
pub use reset::Reset;
pub use server_url::UrlError;
pub use settings::{Settings, Timeouts};
pub use standing::{Standing, must_be_taken};
pub use statements::{Asked, Statement, Statements};
