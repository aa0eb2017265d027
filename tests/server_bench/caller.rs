//! A task that asks, again and again.

use crate::Request;
use crate::counts::Counts;
use futures::task::{Context, Poll};
use futures::{Future, ready};
use postgres_tasks::{Commands, PostgresError, Queried, Row, TaskConnectionManager};
use r2d2::PoolRuntime;
use r2d2_async::{Error, ErrorKind, Get, NoHandlers, PlainPool, PooledConnection, Timer};
use std::alloc::AllocError;
use std::sync::Arc;
use std::time::{Duration, Instant};
use tokio_timer::{TokioSleep, TokioTimer};

type TaskPool<R> = PlainPool<TaskConnectionManager, TokioTimer<R>, R>;

type Call<R> = Get<TaskConnectionManager, TokioTimer<R>, NoHandlers, R>;

type Lent<R> = PooledConnection<TaskConnectionManager, TokioTimer<R>, NoHandlers, R>;

/// How many milliseconds a task rests after it was refused or failed.
const REST_MILLIS: u64 = 10;

/// How many steps a poll makes before others have their turn.
const STEPS: u32 = 8;

#[derive(Drop)]
struct Asking<R: PoolRuntime> {
    rt: R,
    pool: TaskPool<R>,
    timer: Arc<TokioTimer<R>>,
    counts: Arc<Counts<R>>,
    request: Request,
    task: u32,
    until: Option<Instant>,
    // When the request began, and how many of its statements were answered.
    begun: u64,
    step: u32,
    call: Option<Call<R>>,
    asked: Option<Queried<Lent<R>>>,
    rest: Option<TokioSleep>,
}

/// What asks, in a box: a set of tasks moves each future that it polls.
#[derive(Drop)]
pub struct Caller<R: PoolRuntime> {
    asking: Box<Asking<R>>,
}

impl<R: PoolRuntime> Caller<R> {
    pub fn new(
        rt: R,
        pool: TaskPool<R>,
        timer: Arc<TokioTimer<R>>,
        counts: Arc<Counts<R>>,
        request: Request,
        task: u32,
        until: Option<Instant>,
    ) -> Result<Caller<R>, AllocError> {
        let asking = Asking {
            rt,
            pool,
            timer,
            counts,
            request,
            task,
            until,
            begun: 0,
            step: 0,
            call: None,
            asked: None,
            rest: None,
        };
        let asking = Box::new(rt.alloc(), asking)?;
        Ok(Caller { asking })
    }
}

impl<R: PoolRuntime> Asking<R> {
    fn is_over(&self) -> bool {
        match (Instant::now(&self.rt), &self.until) {
            (Ok(now), Some(until)) => now >= *until,
            _ => true,
        }
    }

    // Sends the next statement of the request; it goes back once there is none.
    fn send(&mut self, lent: Lent<R>) -> Result<Option<Lent<R>>, AllocError> {
        let (alloc, task) = (self.rt.alloc(), self.task);
        self.asked = match (self.request, self.step) {
            (Request::Read, 0) => {
                let text = format!(in alloc; "SELECT n FROM counts WHERE thread = {}", task % 8)?;
                Some(lent.query(text.as_str()))
            }
            (Request::Value | Request::Text, 0) => {
                let thread = format!(in alloc; "{}", task % 8)?;
                let text = "SELECT n FROM counts WHERE thread = $1";
                Some(lent.query_with(text, &[Some(thread.as_str())]))
            }
            (Request::Write | Request::Reset, 0) => Some(lent.query("BEGIN")),
            (Request::Write | Request::Reset, 1) => {
                let text = format!(in alloc; "INSERT INTO noted (task) VALUES ({task})")?;
                Some(lent.query(text.as_str()))
            }
            (Request::Write | Request::Reset, 2) => Some(lent.query("COMMIT")),
            _ => return Ok(Some(lent)),
        };
        Ok(None)
    }

    // Rests, and begins anew.
    fn fail(&mut self) {
        self.rest = Some(self.timer.sleep(Duration::from_millis(REST_MILLIS)));
    }

    fn begin(&mut self) -> bool {
        if self.is_over() {
            return false;
        }
        self.begun = self.counts.moment();
        self.step = 0;
        self.call = self.pool.get().ok();
        true
    }

    fn lend(&mut self, lent: Result<Lent<R>, Error>) -> Result<(), AllocError> {
        match lent {
            Ok(lent) => {
                self.send(lent)?;
            }
            Err(error) if error.kind() == ErrorKind::Timeout => {
                self.counts.time_out(self.begun);
                self.fail();
            }
            Err(_) => {
                self.counts.fail();
                self.fail();
            }
        }
        Ok(())
    }

    fn take(
        &mut self,
        lent: Lent<R>,
        rows: Result<Vec<Row>, PostgresError>,
    ) -> Result<(), AllocError> {
        let is_row = |rows: &Vec<Row>| match rows.as_slice() {
            [row] => row.get(0).is_some(),
            _ => false,
        };
        let is_right = match &rows {
            Ok(rows) => self.request.statements() > 1 || is_row(rows),
            Err(_) => false,
        };
        self.step += 1;
        if !is_right {
            self.counts.fail();
            self.fail();
            return Ok(());
        }
        if let Some(lent) = self.send(lent)? {
            drop(lent);
            self.counts.serve(self.begun);
        }
        Ok(())
    }

    // Whether there is more to be done.
    fn poll_step(&mut self, cx: &mut Context<'_>) -> Poll<Result<bool, AllocError>> {
        if let Some(asked) = &mut self.asked {
            let (lent, rows) = ready!(asked.poll(cx));
            self.asked = None;
            return Poll::Ready(self.take(lent, rows).map(|()| true));
        }
        if let Some(call) = &mut self.call {
            let lent = ready!(call.poll(cx));
            self.call = None;
            return Poll::Ready(self.lend(lent).map(|()| true));
        }
        if let Some(rest) = &mut self.rest {
            ready!(rest.poll(cx));
            self.rest = None;
        }
        Poll::Ready(Ok(self.begin()))
    }
}

impl<R: PoolRuntime> Future for Caller<R> {
    type Output = ();

    fn poll(&mut self, cx: &mut Context<'_>) -> Poll<()> {
        for _ in 0..STEPS {
            match ready!(self.asking.poll_step(cx)) {
                Ok(true) => {}
                Ok(false) => return Poll::Ready(()),
                Err(AllocError) => {
                    self.asking.counts.fail();
                    return Poll::Ready(());
                }
            }
        }
        cx.yield_now()
    }
}
