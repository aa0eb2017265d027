//! What the threads do, and what each of their calls met: by this the pool's own counts are judged.

use pool_metrics::{CountingErrorHandler, Metrics};
use r2d2::{ErrorKind, NopConnectionCustomizer, NopErrorHandler, Pool, PoolRuntime};
use redis::RedisConnectionManager;
use std::sync::Arc;
use std::sync::atomic::{AtomicU64, Ordering};
use std::time::Duration;
use std::{fmt, thread};

pub type PoolOf<R> = Pool<
    RedisConnectionManager,
    CountingErrorHandler<NopErrorHandler, R>,
    Metrics<R>,
    NopConnectionCustomizer,
    R,
>;

/// How many threads call now, again and again, for how many milliseconds each holds what it is
/// lent, and after how many it calls again.
#[derive(Drop)]
pub struct Load {
    callers: AtomicU64,
    hold: AtomicU64,
    pause: AtomicU64,
    is_over: AtomicU64,
}

impl Load {
    pub fn none() -> Load {
        let [callers, hold, pause, is_over] = [0, 0, 0, 0].map(|zero| AtomicU64::new(zero));
        Load {
            callers,
            hold,
            pause,
            is_over,
        }
    }

    pub fn begin(&self, numbers: &[u64]) {
        for (number, place) in numbers.iter().zip([&self.callers, &self.hold, &self.pause]) {
            place.store(*number, Ordering::SeqCst);
        }
    }

    pub fn end(&self) {
        self.is_over.store(1, Ordering::SeqCst);
    }
}

/// What a call met, and the moments between which it was lent a connection, or the pool gave up.
#[derive(Clone, Copy)]
pub struct Call {
    kind: &'static str,
    from: Duration,
    to: Duration,
}

impl fmt::Display for Call {
    fn fmt<W: fmt::Write>(&self, f: &mut fmt::Formatter<W>) -> fmt::Result {
        let (from, to) = (self.from.as_nanos(), self.to.as_nanos());
        write!(f, "{} {from} {to}", self.kind)
    }
}

/// A thread that calls.
#[derive(Drop)]
pub struct Caller<R: PoolRuntime> {
    pub rt: R,
    pub pool: PoolOf<R>,
    pub load: Arc<Load>,
    pub number: u64,
}

impl<R: PoolRuntime> Caller<R> {
    pub fn calls(&self) -> Result<Vec<Call>, anyhow::Error> {
        let mut calls = Vec::new(self.rt.alloc());
        for _ in self.rt.forever() {
            if self.load.is_over.load(Ordering::SeqCst) != 0 {
                break;
            }
            if self.number < self.load.callers.load(Ordering::SeqCst) {
                calls.push(self.call())?;
                self.sleep(&self.load.pause);
            } else {
                thread::sleep(&self.rt, Duration::from_millis(5));
            }
        }
        Ok(calls)
    }

    fn sleep(&self, milliseconds: &AtomicU64) {
        let length = Duration::from_millis(milliseconds.load(Ordering::SeqCst));
        thread::sleep(&self.rt, length);
    }

    fn call(&self) -> Call {
        let begun = self.pool.uptime();
        let lent = self.pool.get();
        let to = self.pool.uptime();
        let (kind, from) = match lent {
            Ok(mut redis) => {
                let is_answered = redis.command(&["INCR", "calls"]).is_ok();
                self.sleep(&self.load.hold);
                (if is_answered { "served" } else { "broken" }, begun)
            }
            Err(error) => match error.kind() {
                // No caller gives up sooner.
                ErrorKind::Timeout => ("timeouts", begun + self.pool.connection_timeout()),
                ErrorKind::QueueFull => ("refused", begun),
                _ => ("other", begun),
            },
        };
        Call { kind, from, to }
    }
}
