// Callers that give up in the middle of the line: nobody is served, and who leaves comes again.
ghost use Rattle.std.specs.Prelude.{◌<◌, IfSome};
ghost use Rattle.futures.specs.Task.{Keeps};

use crate::scenario::Case;
use crate::tasks::{Lender, open_pool};
use anyhow::ensure;
use futures::Future;
use futures::executor::{TaskSet, block_on};
use futures::task::{Context, Doorbell, Poll};
use r2d2::PoolRuntime;
use r2d2_async::Timer;
use std::alloc::Global;
use std::io;
use std::random::RandomSource;
use std::sync::Arc;
use std::sync::atomic::{AtomicU32, Ordering};
use std::time::{Duration, Instant};

/// How a call ends that is not served.
#[derive(Clone, Copy)]
pub enum End {
    /// Its task drops it.
    Dropped,
    /// Its time is over.
    TimedOut,
}

// Time for one poll: it is over at the second.
#[derive(Drop)]
struct OnePoll;

impl Timer for OnePoll {
    type Sleep = SecondPoll;

    fn sleep(&self, _length: Duration) -> SecondPoll {
        SecondPoll { is_polled: false }
    }
}

#[derive(Drop)]
struct SecondPoll {
    is_polled: bool,
}

impl Future for SecondPoll {
    type Output = ();

    fn poll(&mut self, cx: &mut Context<'_>) -> Poll<()> {
        if self.is_polled {
            return Poll::Ready(());
        }
        self.is_polled = true;
        cx.yield_now()
    }
}

// Puts so many calls in line.
#[derive(Drop)]
struct Stands<L: Lender> {
    lender: L,
    count: u32,
    alloc: Global,
}

impl<L: Lender> Future for Stands<L> {
    /// They wait until they are dropped; None where one of them does not.
    type Output = Option<Vec<L::Get>>;

    fn poll(&mut self, cx: &mut Context<'_>) -> Poll<Option<Vec<L::Get>>> {
        let mut waiting = Vec::new(self.alloc);
        for _ in 0..self.count {
            let Ok(mut get) = self.lender.call() else {
                return Poll::Ready(None);
            };
            if get.poll(cx).is_ready() || waiting.push(get).is_err() {
                return Poll::Ready(None);
            }
        }
        Poll::Ready(Some(waiting))
    }
}

// Makes its calls one after the other. Each gives up when its task is polled again; by then it
// stands behind those that only wait, and before those that came later.
#[derive(Drop)]
struct Leaver<L: Lender> {
    lender: L,
    calls: u32,
    end: End,
    get: Option<L::Get>,
    left: Arc<AtomicU32>,
}

impl<L: Lender> Leaver<L> {
    // Ends the call that it is in, if any.
    fn leave(&mut self, cx: &mut Context<'_>)
        requires { IfSome self.old.get L.Get.can_poll }
        ensures { Keeps cx.old cx.new }
    {
        let Some(mut get) = self.get.take() else {
            return;
        };
        let has_left = match self.end {
            End::Dropped => true,
            End::TimedOut => matches!(get.poll(cx), Poll::Ready(Err(_))),
        };
        drop(get);
        if has_left {
            self.left.fetch_add(1, Ordering::Relaxed);
        }
    }

    // The next call; None where it has made all, or is refused memory.
    fn call(&mut self) -> Option<L::Get>
        ensures { IfSome result L.Get.can_poll }
    {
        self.calls = self.calls.checked_sub(1)?;
        self.lender.call().ok()
    }
}

impl<L: Lender> Future for Leaver<L> {
    type Output = ();

    ghost can_poll = { λ l. IfSome l.get L.Get.can_poll };

    fn poll(&mut self, cx: &mut Context<'_>) -> Poll<()> {
        self.leave(cx);
        let Some(mut get) = self.call() else {
            return Poll::Ready(());
        };
        if get.poll(cx).is_ready() {
            return Poll::Ready(());
        }
        self.get = Some(get);
        cx.yield_now()
    }
}

/// Calls that give up while all connections are lent: half of the callers wait all the time, and
/// the others stand behind them and leave in turn, so that each leaves from the middle.
pub fn leave<R: PoolRuntime + RandomSource>(
    rt: R,
    case: Case,
    end: End,
) -> Result<Duration, anyhow::Error> {
    let pool = open_pool(rt, case.max_size, case.threads, OnePoll)?;
    let mut lent = Vec::new(rt.alloc());
    for _ in 0..case.max_size {
        lent.push(pool.try_get()?)?;
    }
    let stands = Stands {
        lender: pool.another()?,
        count: case.threads / 2,
        alloc: rt.alloc(),
    };
    let waiting = block_on(&rt, stands)?;
    let took = leave_in_turn(rt, pool, case, end)?;
    ensure!(waiting.is_some(), "a connection was idle");
    drop(lent);
    Ok(took)
}

// How long the calls take of those who leave.
fn leave_in_turn<R: PoolRuntime + RandomSource, L: Lender>(
    rt: R,
    lender: L,
    case: Case,
    end: End,
) -> Result<Duration, anyhow::Error> {
    let left = Arc::new(rt.alloc(), AtomicU32::new(0))?;
    let leavers = case.threads - case.threads / 2;
    let calls = case.operations / leavers;
    let set = TaskSet::new(&rt, Doorbell::parking(), 1)?;
    for _ in 0..leavers {
        let leaver = Leaver {
            lender: lender.another()?,
            calls,
            end,
            get: None,
            left: Arc::try_clone(&left)?,
        };
        set.spawn(leaver).map_err(io::Error::from)?;
    }
    let start = Instant::now(&rt)?;
    set.work(&rt, 0);
    let took = start.elapsed(&rt)?;
    let count = left.load(Ordering::Relaxed);
    ensure!(count == case.operations, "a call went on");
    Ok(took)
}
