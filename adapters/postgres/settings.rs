//! The settings of a manager.

use crate::answer::Limits;
use crate::login::Login;
use crate::probe::Probe;
use crate::reset::Reset;
use std::time::Duration;

/// Where the server is, who logs in, and how long to wait.
#[derive(Drop)]
pub struct Settings {
    /// A host and a port, or a path.
    pub address: String,
    pub login: Login,
    pub reset: Reset,
    /// What a check asks; and an opening, where that is for a server that takes writes.
    pub probe: Probe,
    pub timeouts: Timeouts,
    pub limits: Limits,
    /// How many statements with values the server keeps for a connection.
    pub statements: usize,
}

/// How long a call may take, from its beginning to its end.
#[derive(Clone, Copy)]
pub struct Timeouts {
    pub connect: Duration,
    pub check: Duration,
    pub command: Duration,
}
