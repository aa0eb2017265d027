//! Tasks over eight connections, each of which asks for the echo of a number of its own: a request
//! is given up where it takes too long.

use crate::service::{Lent, TaskPool};
use crate::talks::{Server, Talks};
use futures::task::{Context, Poll};
use futures::{Future, future, ready};
use r2d2::PoolRuntime;
use r2d2_async::{Builder, Get, NoHandlers, Pool, Timer};
use std::alloc::AllocError;
use std::io;
use std::random::RandomSource;
use std::sync::Arc;
use std::sync::atomic::{AtomicU64, Ordering};
use std::test::Fail;
use std::time::{Duration, Instant};
use tokio::runtime::LocalRuntime;
use tokio_timer::{TokioSleep, TokioTimer};

type Call<M, R> = Get<M, TokioTimer<R>, NoHandlers, R>;

/// What all of them count.
#[derive(Drop)]
pub struct Counts {
    pub asked: AtomicU64,
    pub answered: AtomicU64,
    /// Answers that were not those of their own request.
    pub wrong: AtomicU64,
    pub given_up: AtomicU64,
    pub failed: AtomicU64,
    pub refused: AtomicU64,
    /// The longest time that a `get` and a request took, in milliseconds.
    pub longest_get: AtomicU64,
    pub longest_request: AtomicU64,
}

impl Counts {
    pub fn new() -> Counts {
        let zero = || AtomicU64::new(0);
        Counts {
            asked: zero(),
            answered: zero(),
            wrong: zero(),
            given_up: zero(),
            failed: zero(),
            refused: zero(),
            longest_get: zero(),
            longest_request: zero(),
        }
    }
}

impl Counts {
    fn tell<R: Print>(&self, rt: &R, gap: (u128, u128)) -> Result<(), Fail> {
        let read = |count: &AtomicU64| count.load(Ordering::SeqCst);
        println!(rt;
            "= asked={} answered={} wrong={} given_up={} failed={} refused={} longest_get={} \
             longest_request={} from={} to={}",
            read(&self.asked),
            read(&self.answered),
            read(&self.wrong),
            read(&self.given_up),
            read(&self.failed),
            read(&self.refused),
            read(&self.longest_get),
            read(&self.longest_request),
            gap.0,
            gap.1
        )?;
        Ok(())
    }
}

fn add_one(count: &AtomicU64) {
    count.fetch_add(1, Ordering::SeqCst);
}

const CONNECTIONS: u32 = 8;

const CALLERS: u32 = 12;

/// How many requests there are at most, until when, and how long one waits for a connection, and
/// for its answer before it is given up.
#[derive(Clone, Copy)]
pub struct Length {
    pub requests: u64,
    pub until: Option<Instant>,
    pub patience: Option<Duration>,
    pub get: Duration,
}

// A request, and when it is given up.
#[derive(Drop)]
struct Asked<T> {
    told: T,
    sleep: Option<TokioSleep>,
    // How its answer is told.
    wanted: String,
}

/// Asks for one number after the other, each over a connection that is lent for that alone.
#[derive(Drop)]
pub struct Caller<M: Talks<Lent<M, R>>, R: PoolRuntime> {
    rt: R,
    pool: TaskPool<M, R>,
    timer: Arc<TokioTimer<R>>,
    counts: Arc<Counts>,
    /// When the answers came that were right.
    pub answers: Vec<Instant>,
    length: Length,
    // When the call or the request began.
    begun: Option<Instant>,
    call: Option<Call<M, R>>,
    asked: Option<Asked<M::Told>>,
}

impl<M: Talks<Lent<M, R>>, R: PoolRuntime> Caller<M, R> {
    pub fn new(
        rt: R,
        pool: TaskPool<M, R>,
        timer: Arc<TokioTimer<R>>,
        counts: Arc<Counts>,
        length: Length,
    ) -> Caller<M, R> {
        Caller {
            rt,
            pool,
            timer,
            counts,
            answers: Vec::new(rt.alloc()),
            length,
            begun: None,
            call: None,
            asked: None,
        }
    }

    fn begin(&mut self) {
        self.begun = Instant::now(&self.rt).ok();
    }

    // How long it took from there on.
    fn lasted(&self) -> u64 {
        match self.begun.map(|begun| begun.elapsed(&self.rt)) {
            Some(Ok(length)) => u64::try_from(length.as_millis()).unwrap_or(u64::MAX),
            _ => 0,
        }
    }

    // Whether it has asked for all.
    fn is_done(&self) -> bool {
        let is_late = match (self.length.until, Instant::now(&self.rt)) {
            (Some(until), Ok(now)) => now >= until,
            _ => false,
        };
        is_late || self.counts.asked.load(Ordering::SeqCst) >= self.length.requests
    }

    fn ask(&mut self, lent: Lent<M, R>) -> Result<(), AllocError> {
        let number = self.counts.asked.fetch_add(1, Ordering::SeqCst);
        let (request, wanted) = M::echo(self.rt.alloc(), number)?;
        self.begin();
        self.asked = Some(Asked {
            told: M::tell(self.rt.alloc(), lent, request.as_str())?,
            sleep: self
                .length
                .patience
                .map(|patience| self.timer.sleep(patience)),
            wanted,
        });
        Ok(())
    }

    // What an answer shows.
    fn judge(&mut self, told: &str, wanted: &str) -> Result<(), AllocError> {
        let lasted = self.lasted();
        self.counts
            .longest_request
            .fetch_max(lasted, Ordering::SeqCst);
        if told == wanted {
            add_one(&self.counts.answered);
            if let Ok(now) = Instant::now(&self.rt) {
                self.answers.push(now)?;
            }
        } else if told.starts_with("! ") {
            add_one(&self.counts.failed);
        } else {
            add_one(&self.counts.wrong);
        }
        Ok(())
    }

    // Goes on with what it is at. Whether there is more to be done.
    fn poll_step(&mut self, cx: &mut Context<'_>) -> Poll<Result<bool, AllocError>> {
        if self.asked.is_some() {
            return self.poll_answer(cx);
        }
        if let Some(call) = &mut self.call {
            let lent = ready!(call.poll(cx));
            self.call = None;
            let lasted = self.lasted();
            self.counts.longest_get.fetch_max(lasted, Ordering::SeqCst);
            return match lent {
                Ok(lent) => Poll::Ready(self.ask(lent).map(|()| true)),
                Err(_) => {
                    add_one(&self.counts.refused);
                    Poll::Ready(Ok(true))
                }
            };
        }
        if self.is_done() {
            return Poll::Ready(Ok(false));
        }
        self.begin();
        self.call = self.pool.get().ok();
        Poll::Ready(Ok(true))
    }

    fn poll_answer(&mut self, cx: &mut Context<'_>) -> Poll<Result<bool, AllocError>> {
        let Some(mut asked) = self.asked.take() else {
            return Poll::Ready(Ok(true));
        };
        if let Poll::Ready((lent, told)) = asked.told.poll(cx) {
            drop(lent);
            let judged = match told {
                Ok(told) => self.judge(told.as_str(), asked.wanted.as_str()),
                Err(error) => Err(error),
            };
            return Poll::Ready(judged.map(|()| true));
        }
        let is_over = match &mut asked.sleep {
            Some(sleep) => sleep.poll(cx).is_ready(),
            None => false,
        };
        if is_over {
            // The future is dropped half-way, with what was lent.
            drop(asked);
            add_one(&self.counts.given_up);
            return Poll::Ready(Ok(true));
        }
        self.asked = Some(asked);
        Poll::Pending
    }
}

impl<M: Talks<Lent<M, R>>, R: PoolRuntime> Future for Caller<M, R> {
    /// When its answers came.
    type Output = Result<Vec<Instant>, AllocError>;

    fn poll(&mut self, cx: &mut Context<'_>) -> Poll<Result<Vec<Instant>, AllocError>> {
        for _ in 0..100u32 {
            match ready!(self.poll_step(cx)) {
                Ok(true) => {}
                Ok(false) => {
                    let mut answers = Vec::new(self.rt.alloc());
                    std::mem::swap(&mut answers, &mut self.answers);
                    return Poll::Ready(Ok(answers));
                }
                Err(error) => return Poll::Ready(Err(error)),
            }
        }
        cx.yield_now()
    }
}

/// Lets so many callers ask, and tells what came of it: how often what was counted, when the longest
/// time without an answer began, and when it was over, in milliseconds.
pub fn throng<M: Talks<Lent<M, R>>, R: PoolRuntime + RandomSource + Print>(
    rt: R,
    mut runtime: LocalRuntime,
    manager: M,
    length: Length,
) -> Result<(), Fail> {
    let begun = Instant::now(&rt)?;
    let timer = TokioTimer::new(rt, runtime.handle())?;
    let builder = Builder::new()
        .max_size(CONNECTIONS)
        .test_if_idle_for(Some(Duration::from_millis(1)))
        .connection_timeout(length.get)
        .max_retry_delay(Some(Duration::from_millis(200)));
    let pool = Pool::build(builder, rt, manager, timer)?;
    let workers = runtime.task_set(&rt)?;
    for _ in 0..CONNECTIONS {
        workers.spawn(pool.worker()?).map_err(io::Error::from)?;
    }
    let timer = TokioTimer::new(rt, runtime.handle())?;
    let timer = Arc::new(rt.alloc(), timer)?;
    let counts = Arc::new(rt.alloc(), Counts::new())?;
    let mut callers = Vec::new(rt.alloc());
    for _ in 0..CALLERS {
        let (pool, timer) = (pool.try_clone()?, Arc::try_clone(&timer)?);
        callers.push(Caller::new(rt, pool, timer, Arc::try_clone(&counts)?, length))?;
    }
    drop(pool);
    let all = future::join_all(rt.alloc(), callers)?;
    let mut times = Vec::new(rt.alloc());
    for answers in runtime.block_on_with(&rt, &workers, all)?? {
        for answer in answers? {
            times.push(answer.duration_since(begun).as_millis())?;
        }
    }
    times.sort_unstable();
    counts.tell(&rt, longest(times.as_slice()))
}

// The longest time between two of these.
fn longest(times: &[u128]) -> (u128, u128) {
    let (mut last, mut gap) = (0, (0, 0));
    for time in times.iter().copied() {
        if time - last > gap.1 - gap.0 {
            gap = (last, time);
        }
        last = time;
    }
    gap
}
