// Tasks at a pool of their own, all of them on one thread.
ghost use Rattle.std.specs.Prelude.{◌<◌, IfOk, IfSome};

use crate::pools::Nothings;
use crate::scenario::Case;
use anyhow::ensure;
use futures::executor::block_on;
use futures::future::{Either, Pending, Ready, pending, ready};
use futures::task::{Context, Poll};
use futures::{Future, stream};
use r2d2::{Error, NopConnectionCustomizer, NopErrorHandler, NopEventHandler, PoolRuntime};
use r2d2_async::{
    AsyncRuntime, Builder, Get, Handlers, ManageConnection, Pool, PooledConnection, Timer,
};
use std::alloc::AllocError;
use std::net::Net;
use std::random::RandomSource;
use std::sync::Arc;
use std::sync::atomic::{AtomicU32, Ordering};
use std::time::{Duration, Instant};
use tokio::runtime::LocalRuntime;

impl ManageConnection for Nothings {
    type Connection = ();

    type Error = AllocError;

    type Extension = ();

    type Connect = Ready<Result<(), AllocError>>;

    type Check = Ready<((), Result<(), AllocError>)>;

    fn connect(&self) -> Ready<Result<(), AllocError>> {
        ready(Ok(()))
    }

    fn check(&self, connection: ()) -> Ready<((), Result<(), AllocError>)> {
        ready((connection, Ok(())))
    }

    fn has_broken(&self, _connection: &mut ()) -> bool {
        false
    }
}

/// Time that never passes: no call of these runs waits in vain.
#[derive(Drop)]
pub struct NoTime;

impl Timer for NoTime {
    type Sleep = Pending<()>;

    fn sleep(&self, _length: Duration) -> Pending<()> {
        pending()
    }
}

type Nobody = Handlers<NopErrorHandler, NopEventHandler, NopConnectionCustomizer>;

/// A pool for tasks whose calls end by this timer.
pub type TaskPool<T, R> = Pool<Nothings, T, Nobody, R>;

/// What lends connections to tasks.
pub trait Lender: Drop {
    type Lent: Drop;

    type Get: Future<Output = Result<Self::Lent, Error>>;

    /// The future of a connection.
    fn call(&self) -> Result<Self::Get, Error>
        ensures { IfOk result Self.Get.can_poll };

    /// The same, for another task.
    fn another(&self) -> Result<Self, Error>;
}

impl<T: Timer, R: AsyncRuntime> Lender for TaskPool<T, R> {
    type Lent = PooledConnection<Nothings, T, Nobody, R>;

    type Get = Get<Nothings, T, Nobody, R>;

    fn call(&self) -> Result<Get<Nothings, T, Nobody, R>, Error> {
        self.get()
    }

    fn another(&self) -> Result<TaskPool<T, R>, Error> {
        self.try_clone()
    }
}

// Makes all of its calls in one poll: each finds an idle connection, and gives it back at once.
#[derive(Drop)]
struct Calls<T: Timer, R: AsyncRuntime> {
    pool: TaskPool<T, R>,
    calls: u32,
}

impl<T: Timer, R: AsyncRuntime> Future for Calls<T, R> {
    /// Whether each was served.
    type Output = bool;

    fn poll(&mut self, cx: &mut Context<'_>) -> Poll<bool> {
        for _ in 0..self.calls {
            let Ok(mut get) = self.pool.get() else {
                return Poll::Ready(false);
            };
            match get.poll(cx) {
                Poll::Ready(Ok(lent)) => drop(lent),
                _ => return Poll::Ready(false),
            }
        }
        Poll::Ready(true)
    }
}

// Makes its calls one after the other. Other tasks are polled while it holds a connection.
#[derive(Drop)]
struct Caller<L: Lender> {
    // The last caller holds all connections until it waits, so that all others wait by then.
    held: Option<Vec<L::Lent>>,
    lender: L,
    calls: u32,
    // How many of them it has not begun.
    left: u32,
    get: Option<L::Get>,
    lent: Option<L::Lent>,
    // The calls of all who were served each time.
    served: Arc<AtomicU32>,
}

impl<L: Lender> Caller<L> {
    // Gives back what it holds, and begins the next call; false where it has made all, or is
    // refused memory.
    #[inline(never)]
    fn call(&mut self) -> bool
        ensures { IfSome self.new.get L.Get.can_poll }
    {
        self.lent = None;
        self.get = None;
        let Some(left) = self.left.checked_sub(1) else {
            self.served.fetch_add(self.calls, Ordering::Relaxed);
            return false;
        };
        self.left = left;
        match self.lender.call() {
            Ok(get) => {
                self.get = Some(get);
                true
            }
            Err(_) => false,
        }
    }
}

impl<L: Lender> Future for Caller<L> {
    type Output = ();

    ghost can_poll = { λ c. IfSome c.get L.Get.can_poll };

    fn poll(&mut self, cx: &mut Context<'_>) -> Poll<()> {
        if self.get.is_none() && !self.call() {
            return Poll::Ready(());
        }
        let Some(get) = &mut self.get else {
            return Poll::Ready(());
        };
        match get.poll(cx) {
            Poll::Pending => {
                self.held = None;
                Poll::Pending
            }
            Poll::Ready(Ok(lent)) => {
                self.get = None;
                self.lent = Some(lent);
                cx.yield_now()
            }
            Poll::Ready(Err(_)) => Poll::Ready(()),
        }
    }
}

// Polls a worker until all connections are open.
#[derive(Drop)]
struct Opens<W: Future<Output = ()>, T: Timer, R: AsyncRuntime> {
    worker: W,
    pool: TaskPool<T, R>,
    max_size: u32,
}

impl<W: Future<Output = ()>, T: Timer, R: AsyncRuntime> Future for Opens<W, T, R> {
    type Output = ();

    ghost can_poll = { λ o. W.can_poll o.worker };

    ghost needs = { λ o s. W.needs o.worker s };

    fn poll(&mut self, cx: &mut Context<'_>) -> Poll<()> {
        if self.worker.poll(cx).is_ready() {
            return Poll::Ready(());
        }
        if self.pool.state().idle_connections >= self.max_size {
            return Poll::Ready(());
        }
        Poll::Pending
    }
}

/// A pool of so many connections, all of them open, for which so many may wait. Nothing in it
/// expires.
pub fn open_pool<T: Timer, R: PoolRuntime + RandomSource>(
    rt: R,
    max_size: u32,
    max_waiting: u32,
    timer: T,
) -> Result<TaskPool<T, R>, anyhow::Error>
    requires size { 0 < max_size }
    requires room { 0 < max_waiting }
{
    let builder = Builder::new()
        .max_size(max_size)
        .max_waiting(Some(max_waiting))
        .test_on_check_out(false)
        .max_lifetime(None)
        .idle_timeout(None);
    let pool = Pool::build(builder, rt, Nothings, timer)?;
    let opens = Opens {
        worker: pool.worker()?,
        pool: pool.try_clone()?,
        max_size,
    };
    block_on(&rt, opens)?;
    Ok(pool)
}

/// `get`, and the connection's return, by one task that finds an idle one each time.
pub fn get_drop<R: PoolRuntime + RandomSource>(
    rt: R,
    case: Case,
) -> Result<Duration, anyhow::Error> {
    let calls = Calls {
        pool: open_pool(rt, case.max_size, 1, NoTime)?,
        calls: case.operations,
    };
    let start = Instant::now(&rt)?;
    let went = block_on(&rt, calls)?;
    let took = start.elapsed(&rt)?;
    ensure!(went, "a call was not served");
    Ok(took)
}

/// The same by tasks that share the calls and wait in line for a few connections, each of which is
/// held until its task is polled again.
pub fn tasks<R: PoolRuntime + RandomSource + Net>(
    rt: R,
    case: Case,
) -> Result<Duration, anyhow::Error> {
    let served = Arc::new(rt.alloc(), AtomicU32::new(0))?;
    let took = serve_all(rt, case, &served)?;
    let count = served.load(Ordering::Relaxed);
    ensure!(count == case.operations, "a call was not served");
    Ok(took)
}

fn serve_all<R: PoolRuntime + RandomSource + Net>(
    rt: R,
    case: Case,
    served: &Arc<AtomicU32>,
) -> Result<Duration, anyhow::Error> {
    let pool = open_pool(rt, case.max_size, case.threads, NoTime)?;
    let mut held = Vec::with_capacity(rt.alloc(), case.max_size as usize)?;
    for _ in 0..case.max_size {
        if let Some(lent) = pool.try_get()? {
            held.push(lent)?;
        }
    }
    let worker = pool.worker()?;
    run_all(rt, worker, pool, held, case, served)
}

// How long the callers of a pool take together, beside a worker.
fn run_all<R: PoolRuntime + RandomSource + Net, W: Future<Output = ()>, L: Lender>(
    rt: R,
    worker: W,
    lender: L,
    held: Vec<L::Lent>,
    case: Case,
    served: &Arc<AtomicU32>,
) -> Result<Duration, anyhow::Error>
    requires { W.can_poll worker }
{
    let mut held = Some(held);
    let mut tasks = Vec::with_capacity(rt.alloc(), case.threads as usize + 1)?;
    tasks.push(Either::Left(worker))?;
    for number in 1..=case.threads {
        let calls = case.operations / case.threads;
        tasks.push(Either::Right(Caller {
            held: held.take_if(|_| number == case.threads),
            lender: lender.another()?,
            calls,
            left: calls,
            get: None,
            lent: None,
            served: Arc::try_clone(served)?,
        }))?;
    }
    // The worker ends with the last pool.
    drop(lender);
    let mut runtime = LocalRuntime::new(&rt)?;
    let start = Instant::now(&rt)?;
    runtime.run_all(&rt, stream::iter(tasks))?;
    Ok(start.elapsed(&rt)?)
}
