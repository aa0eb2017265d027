//! What the lines say.

use crate::talks::{Owned, Server, Talks};
use futures::future::Either;
use futures::task::{Context, Poll};
use futures::{Future, future};
use r2d2::PoolRuntime;
use r2d2_async::{
    Builder, ManageConnection, NoHandlers, PlainPool, Pool, PooledConnection, Timer, Worker,
};
use std::alloc::AllocError;
use std::io;
use std::random::RandomSource;
use std::test::Fail;
use std::time::{Duration, Instant};
use tokio::runtime::LocalRuntime;
use tokio_timer::TokioTimer;

pub type TaskPool<M, R> = PlainPool<M, TokioTimer<R>, R>;

pub type Lent<M, R> = PooledConnection<M, TokioTimer<R>, NoHandlers, R>;

type Opener<M, R> = Worker<M, TokioTimer<R>, NoHandlers, R>;

type ToldBy<M> = (
    Owned<<M as ManageConnection>::Connection>,
    Result<String, AllocError>,
);

/// How many calls are late at once.
const CALLS: u32 = 8;

// A future, with the worker beside it: it ends when that does.
#[derive(Drop)]
struct Beside<'a, F, M: Server, R: PoolRuntime> {
    worker: &'a mut Opener<M, R>,
    future: F,
}

impl<F: Future, M: Server, R: PoolRuntime> Future for Beside<'_, F, M, R> {
    type Output = F::Output;

    fn poll(&mut self, cx: &mut Context<'_>) -> Poll<F::Output> {
        let _ = self.worker.poll(cx);
        self.future.poll(cx)
    }
}

/// Whether a connection is checked before it is lent, and how long a `get` waits.
#[derive(Clone, Copy)]
pub struct Lending {
    pub checks: bool,
    pub patience: Duration,
}

/// A pool of one connection, and what runs it.
#[derive(Drop)]
pub struct Service<M: Server, R: PoolRuntime> {
    rt: R,
    runtime: LocalRuntime,
    worker: Opener<M, R>,
    pool: TaskPool<M, R>,
    // One whose openings and checks are called without a pool.
    manager: M,
}

impl<M: Talks<Lent<M, R>>, R: PoolRuntime + RandomSource + Print> Service<M, R> {
    /// Two managers of the same.
    pub fn new(
        rt: R,
        runtime: LocalRuntime,
        ours: M,
        other: M,
        lending: Lending,
    ) -> Result<Service<M, R>, Fail> {
        let timer = TokioTimer::new(rt, runtime.handle())?;
        let builder = Builder::new()
            .max_size(1)
            .test_on_check_out(lending.checks)
            .connection_timeout(lending.patience)
            .max_retry_delay(Some(Duration::from_millis(200)));
        let pool = Pool::build(builder, rt, ours, timer)?;
        Ok(Service {
            rt,
            runtime,
            worker: pool.worker()?,
            pool,
            manager: other,
        })
    }

    // What a future gives.
    fn wait<F: Future>(&mut self, future: F) -> io::Result<F::Output> {
        let worker = &mut self.worker;
        self.runtime.block_on(&self.rt, Beside { worker, future })
    }

    /// Does what a line says, and answers it with a line.
    pub fn obey(&mut self, line: &str) -> Result<(), Fail> {
        let (word, rest) = line.split_once(' ').unwrap_or((line, "0"));
        match word {
            "run" => self.run(rest),
            "get" => {
                let get = self.pool.get()?;
                match self.wait(get)? {
                    Ok(_) => self.say("lent"),
                    Err(error) => Ok(println!(self.rt; "= {error}")?),
                }
            }
            "evict" => Ok(println!(self.rt; "= {}", self.pool.evict()?)?),
            "late" => self.be_late(rest),
            "drop" => self.drop_late(rest),
            _ => self.say("what?"),
        }
    }

    fn say(&self, text: &str) -> Result<(), Fail> {
        Ok(println!(self.rt; "= {text}")?)
    }

    // Sends requests over one connection, and tells what came of each.
    fn run(&mut self, requests: &str) -> Result<(), Fail> {
        let get = self.pool.get()?;
        let mut lent = match self.wait(get)? {
            Ok(lent) => lent,
            Err(error) => return Ok(println!(self.rt; "= {error}")?),
        };
        let mut told = String::new(self.rt.alloc());
        for request in requests.split(M::separator()) {
            let (back, answer) = self.wait(M::tell(self.rt.alloc(), lent, request)?)?;
            lent = back;
            let answer = answer?;
            let gap = if answer.is_empty() { "" } else { " " };
            write!(told, "{}{gap}| ", answer.as_str())?;
        }
        drop(lent);
        self.say(told.as_str())
    }

    // Sends a request, and drops its future after 100 milliseconds. Whether it was answered.
    fn drop_late(&mut self, request: &str) -> Result<(), Fail> {
        let get = self.pool.get()?;
        let lent = match self.wait(get)? {
            Ok(lent) => lent,
            Err(error) => return Ok(println!(self.rt; "= {error}")?),
        };
        let timer = TokioTimer::new(self.rt, self.runtime.handle())?;
        let sleep = timer.sleep(Duration::from_millis(100));
        let told = M::tell(self.rt.alloc(), lent, request)?;
        match self.wait(future::select(told, sleep))? {
            Either::Left(_) => self.say("answered"),
            Either::Right((_, told)) => {
                drop(told);
                self.say("dropped")
            }
        }
    }

    // Eight calls at once. It tells how many failed, and after how many milliseconds the last of
    // them had ended.
    fn be_late(&mut self, what: &str) -> Result<(), Fail> {
        let mut openings = Vec::new(self.rt.alloc());
        for _ in 0..CALLS {
            openings.push(self.manager.connect())?;
        }
        let mut begun = Instant::now(&self.rt)?;
        let mut failed = 0;
        let mut connections: Vec<M::Connection> = Vec::new(self.rt.alloc());
        let all = future::join_all(self.rt.alloc(), openings)?;
        for opened in self.wait(all)?? {
            match opened {
                Ok(connection) => connections.push(connection)?,
                Err(_) => failed += 1,
            }
        }
        if what == "check" || what == "check-after-command" {
            if what == "check-after-command" {
                connections = self.answered(connections)?;
            }
            begun = Instant::now(&self.rt)?;
            failed = self.fail_checks(connections)?;
        } else if what == "command" {
            begun = Instant::now(&self.rt)?;
            failed = self.fail_commands(connections)?;
        }
        println!(self.rt;
            "= failed={failed} millis={}",
            begun.elapsed(&self.rt)?.as_millis()
        )?;
        Ok(())
    }

    fn fail_checks(&mut self, connections: Vec<M::Connection>) -> Result<u32, Fail> {
        let mut checks = Vec::new(self.rt.alloc());
        for connection in connections {
            checks.push(self.manager.check(connection))?;
        }
        let all = future::join_all(self.rt.alloc(), checks)?;
        let mut failed = 0;
        for (connection, verdict) in self.wait(all)?? {
            failed += u32::from(verdict.is_err() && M::is_broken(&connection));
        }
        Ok(failed)
    }

    fn fail_commands(&mut self, connections: Vec<M::Connection>) -> Result<u32, Fail> {
        let mut failed = 0;
        for (owned, answer) in self.told(connections)? {
            failed += u32::from(answer?.as_str().starts_with("! ") && M::is_broken(&owned.0));
        }
        Ok(failed)
    }

    fn answered(&mut self, connections: Vec<M::Connection>) -> Result<Vec<M::Connection>, Fail> {
        let mut answered = Vec::new(self.rt.alloc());
        for (owned, answer) in self.told(connections)? {
            answer?;
            answered.push(owned.0)?;
        }
        Ok(answered)
    }

    // What each answers to a request.
    fn told(&mut self, connections: Vec<M::Connection>) -> Result<Vec<ToldBy<M>>, Fail> {
        let (request, _) = M::echo(self.rt.alloc(), 7)?;
        let mut commands = Vec::new(self.rt.alloc());
        for connection in connections {
            let told = M::tell_alone(self.rt.alloc(), connection, request.as_str())?;
            commands.push(told)?;
        }
        let all = future::join_all(self.rt.alloc(), commands)?;
        Ok(self.wait(all)??)
    }
}
