//! The settings of a manager.

use crate::probe::Probe;
use crate::reset::{Login, Reset};
use redis_codec::Limits;
use std::time::Duration;

/// Where the server is, who logs in, and how long to wait.
#[derive(Drop)]
pub struct Settings {
    /// A host and a port, or a path.
    pub address: String,
    pub login: Login,
    pub reset: Reset,
    pub timeouts: Timeouts,
    pub limits: Limits,
    /// What is asked at an opening and at a check.
    pub probe: Probe,
}

/// How long a call may take, from its beginning to its end.
#[derive(Clone, Copy)]
pub struct Timeouts {
    pub connect: Duration,
    pub check: Duration,
    pub command: Duration,
}
