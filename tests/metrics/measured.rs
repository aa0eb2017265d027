// A pool and its metrics, by a clock that the row moves.

use crate::clock::BEGIN;
use crate::ear::{Hear, Heard};
pub(crate) use crate::rows::*;
pub(crate) use pool_metrics::{CountingErrorHandler, Distribution, Metrics, Snapshot};
pub(crate) use r2d2::{HandleError, HandleEvent, NopErrorHandler};

/// The metrics of a world's pool.
pub(crate) type Measure<R> = Metrics<Place<R>>;

/// The metrics as a handler of events, beside the handler of errors that they make.
impl<H: HandleError<Sorry>, R: Host> Hear for (Measure<R>, CountingErrorHandler<H, Place<R>>) {
    fn hear(&self, heard: Heard) {
        let (metrics, errors) = self;
        match heard {
            Heard::Acquire(event) => metrics.handle_acquire(event),
            Heard::Release(event) => metrics.handle_release(event),
            Heard::Checkout(event) => metrics.handle_checkout(event),
            Heard::Timeout(event) => metrics.handle_timeout(event),
            Heard::Checkin(event) => metrics.handle_checkin(event),
            Heard::Error(error) => errors.handle_error(error),
        }
    }
}

impl World {
    /// Metrics of its pool, with room for so many loans, and with this handler of errors inside.
    pub(crate) fn measure<R: Host, H: HandleError<Sorry>>(
        &'static self,
        rt: R,
        room: u32,
        inside: H,
    ) -> Result<Measure<R>, Fail> {
        let metrics = Metrics::new(Place { world: self, rt }, room)?;
        let both = (metrics.try_clone()?, metrics.around(inside)?);
        self.let_hear(Box::leak(Box::new(rt.alloc(), both)?));
        Ok(metrics)
    }

    /// Moves the clock on to so many seconds since the making of the pool.
    pub(crate) fn set(&self, seconds: u64) {
        self.pass(BEGIN / 1_000_000 + seconds * 1_000 - self.now());
    }
}

/// A pool with these settings, whose connections are checked as they are lent, and its metrics.
pub(crate) fn measured<R: Host>(
    rt: R,
    world: &'static World,
    settings: Settings,
) -> Result<(Pool<R>, Measure<R>), Fail> {
    let metrics = world.measure(rt, settings.max_size, NopErrorHandler)?;
    Ok((Pool::of(rt, world, settings.checked())?, metrics))
}

/// How many waits, waits that timed out, uses and ages were counted, and how many milliseconds together.
pub(crate) fn lengths(seen: &Snapshot) -> [(u64, u64); 4] {
    [seen.waits, seen.timed_out_waits, seen.uses, seen.ages]
        .map(|lengths| (lengths.count(), milliseconds(lengths.sum())))
}

/// So many seconds.
pub(crate) fn seconds(count: u64) -> Duration {
    Duration::from_secs(count)
}
