//! What wakes calls whose deadlines are over.

ghost use Rattle.futures.specs.Task.{IsArmed, Keeps};
ghost use Rattle.futures.specs.Poll.{OnPending};

use deadline::Deadline;
use futures::task::{Context, Poll};
use futures::{Future, ready};
use std::alloc::AllocError;
use std::time::Duration;
use tokio::time;

/// How long a call waits, by the runtime's timer; and those after it, one at a time.
#[derive(Drop)]
pub struct Patience {
    rt: HostRuntime,
    pub deadline: Deadline,
    time: time::Handle,
    // None until it has to wait. It ends at the deadline, or at that of an earlier call.
    sleep: Option<time::Sleep>,
}

impl Patience {
    /// So long from now.
    pub fn new(
        rt: HostRuntime,
        time: &time::Handle,
        length: Duration,
    ) -> Result<Patience, AllocError> {
        Ok(Patience {
            rt,
            deadline: Deadline::new(rt, length),
            time: time.clone()?,
            sleep: None,
        })
    }

    /// So long from now, for the next call. (A timer that is set already goes on, and is set anew
    /// once it has ended: to set one takes as long as all else of a short call.)
    pub fn begin(&mut self, length: Duration) {
        if length < self.deadline.length() {
            self.sleep = None;
        }
        self.deadline = Deadline::new(self.rt, length);
    }

    /// Whether the deadline is over.
    pub fn is_over(&self) -> bool {
        self.deadline.left(self.rt).is_err()
    }

    /// Ready once the deadline is over, or where nothing could wake the call then.
    pub fn poll_over(&mut self, cx: &mut Context<'_>) -> Poll<()>
        ensures armed { OnPending result (IsArmed cx.new) }
        ensures kept { Keeps cx.old cx.new }
    {
        if let Some(sleep) = &mut self.sleep {
            let _ = ready!(sleep.poll(cx));
        }
        self.sleep = match self.deadline.left(self.rt) {
            Ok(left) => self.time.sleep(&self.rt, left).ok(),
            Err(_) => None,
        };
        match &mut self.sleep {
            Some(sleep) => match sleep.poll(cx) {
                Poll::Ready(_) => Poll::Ready(()),
                Poll::Pending => Poll::Pending,
            },
            None => Poll::Ready(()),
        }
    }
}
