//! The timer of tokio's runtime for the pool `r2d2_async`. This copy is yours, to be changed.
#![tactic(auto)]

use futures::future::{Pending, pending};
use futures::task::{Context, Poll};
use futures::{Future, ready};
use r2d2_async::Timer;
use std::alloc::AllocError;
use std::time::{Clock, Duration};
use tokio::{runtime, time};

/// Makes sleeps of a runtime, which end only while that runs.
#[derive(Drop)]
pub struct TokioTimer<R> {
    time: time::Handle,
    rt: R,
}

impl<R: Clock + Drop> TokioTimer<R> {
    /// The timer of the runtime that has this handle. The error is lack of memory.
    pub fn new(rt: R, handle: &runtime::Handle) -> Result<TokioTimer<R>, AllocError> {
        let time = handle.time().clone()?;
        Ok(TokioTimer { time, rt })
    }
}

impl<R: Clock + Drop> Timer for TokioTimer<R> {
    type Sleep = TokioSleep;

    fn sleep(&self, length: Duration) -> TokioSleep {
        TokioSleep {
            sleep: self.time.sleep(&self.rt, length).ok(),
            never: pending(),
        }
    }
}

/// A sleep, which never ends without memory, without a clock, or once the runtime is gone.
#[derive(Drop)]
pub struct TokioSleep {
    sleep: Option<time::Sleep>,
    never: Pending<()>,
}

impl Future for TokioSleep {
    type Output = ();

    fn poll(&mut self, cx: &mut Context<'_>) -> Poll<()> {
        if let Some(sleep) = &mut self.sleep {
            if ready!(sleep.poll(cx)).is_ok() {
                return Poll::Ready(());
            }
        }
        self.never.poll(cx)
    }
}
