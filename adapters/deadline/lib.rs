//! By when a call to a server is over, however many reads and writes it takes; how a connection is
//! opened by then, and looked at before it is used. This copy is yours, to be changed.
#![tactic(auto)]

ghost use Rattle.std.specs.Prelude.{◌≡◌, ◌<◌, ◌≤◌, IfOk};
ghost use Rattle.std.specs.Duration.{as_nanos};

mod look;
mod place;

pub use look::is_quiet;
pub use place::Place;
use std::io;
use std::time::{Duration, Instant};

/// A length of time that has begun.
#[derive(Clone, Copy)]
pub struct Deadline {
    // When it began. With a clock that fails nothing is left.
    begun: Option<Instant>,
    length: Duration,
}

impl Deadline {
    /// So long from now.
    pub fn new(rt: HostRuntime, length: Duration) -> Deadline {
        Deadline {
            begun: Instant::now(&rt).ok(),
            length,
        }
    }

    /// What is left of it; the error is `TimedOut` once that is nothing.
    pub fn left(&self, rt: HostRuntime) -> io::Result<Duration>
        ensures some { IfOk result (λ left. 0 < as_nanos left) }
        ensures within { IfOk result (λ left. as_nanos left ≤ as_nanos self.now.length) }
    {
        let late = io::Error::from(io::ErrorKind::TimedOut);
        let Some(begun) = self.begun else {
            return Err(late);
        };
        let left = self.length.saturating_sub(begun.elapsed(&rt)?);
        if left.is_zero() { Err(late) } else { Ok(left) }
    }

    /// By how much it may be passed.
    pub fn tenth(&self) -> Duration {
        self.length / 10
    }

    /// How long it is, from its beginning.
    pub fn length(&self) -> Duration
        ensures { result ≡ self.now.length }
    {
        self.length
    }

    /// The same, in milliseconds.
    pub fn millis(&self) -> u128 {
        self.length.as_millis()
    }
}
