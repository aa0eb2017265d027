//! What is asked of the database for a request, and what comes of it.

use crate::answer::{Answer, Page, Tally};
use crate::app::{Call, Lent};
use futures::task::{Context, Poll};
use futures::{Future, ready};
use hyper::StatusCode;
use postgres_tasks::{Commands, PostgresError, Queried, Row};
use r2d2::PoolRuntime;
use r2d2_async::{Error, ErrorKind};
use std::alloc::Global;
use std::convert::Infallible;
use std::sync::Arc;

#[derive(Clone, Copy, PartialEq, Eq)]
enum Statement {
    Ping,
    Select,
    Begin,
    Insert,
    Count,
    Commit,
}

const PROBE: [Statement; 1] = [Statement::Ping];

const READ: [Statement; 1] = [Statement::Select];

const WRITE: [Statement; 4] = [
    Statement::Begin,
    Statement::Insert,
    Statement::Count,
    Statement::Commit,
];

impl Statement {
    fn sent<R: PoolRuntime>(self, lent: Lent<R>, key: &str) -> Queried<Lent<R>> {
        match self {
            Statement::Ping => lent.query("SELECT 1"),
            Statement::Select => {
                lent.query_with("SELECT number FROM entries WHERE key = $1", &[Some(key)])
            }
            Statement::Begin => lent.query("BEGIN"),
            Statement::Insert => lent.query_with(
                "INSERT INTO entries (key) VALUES ($1) RETURNING number",
                &[Some(key)],
            ),
            Statement::Count => lent.query_with(
                "UPDATE totals SET entries = entries + 1 WHERE slot = abs(hashtext($1)) % 16",
                &[Some(key)],
            ),
            Statement::Commit => lent.query("COMMIT"),
        }
    }
}

/// What a request is for. Its statements go over one connection, one after the other.
#[derive(Clone, Copy, PartialEq, Eq)]
pub enum Errand {
    /// Whether the database answers.
    Probe,
    /// The entry of a key.
    Read,
    /// An entry more, which is counted: both, or neither.
    Write,
}

impl Errand {
    fn statement(self, step: usize) -> Option<Statement> {
        let statements = match self {
            Errand::Probe => PROBE.as_slice(),
            Errand::Read => READ.as_slice(),
            Errand::Write => WRITE.as_slice(),
        };
        statements.get(step).copied()
    }

    // The answer once all statements have been carried out.
    fn answer(self, alloc: Global, key: &str, found: Option<String>) -> Answer {
        let (status, number) = match (self, found) {
            (Errand::Probe, _) => return Answer::of(StatusCode::OK, "ok\n"),
            (_, None) => return Answer::of(StatusCode::NOT_FOUND, "no such entry\n"),
            (Errand::Read, Some(number)) => (StatusCode::OK, number),
            (Errand::Write, Some(number)) => (StatusCode::CREATED, number),
        };
        match format!(in alloc; "{key} {number}\n") {
            Ok(text) => Answer::made(status, text),
            Err(_) => Answer::no_memory(),
        }
    }
}

// The pool lends nothing: no text of the database goes out.
fn refused(error: &Error) -> Answer {
    match error.kind() {
        ErrorKind::QueueFull => Answer::of(StatusCode::SERVICE_UNAVAILABLE, "busy\n"),
        ErrorKind::Closed => Answer::of(StatusCode::SERVICE_UNAVAILABLE, "closing\n"),
        ErrorKind::Timeout => { Answer::of(StatusCode::GATEWAY_TIMEOUT, "no connection in time\n") }
        _ => Answer::no_memory(),
    }
}

// A statement failed. What fails at the end of a transaction may have been carried out.
fn failed(statement: Option<Statement>, error: &PostgresError) -> Answer {
    match (statement, error.state()) {
        (_, Some("23505")) => Answer::of(StatusCode::CONFLICT, "there already\n"),
        (Some(Statement::Commit), _) => Answer::of(StatusCode::BAD_GATEWAY, "perhaps written\n"),
        _ => Answer::of(StatusCode::BAD_GATEWAY, "the database failed\n"),
    }
}

/// The future of an answer. Dropped before its end, as where its client is gone, it leaves no
/// transaction open: the pool closes a connection that waits for an answer, and rolls back.
#[derive(Drop)]
pub struct Answering<R: PoolRuntime> {
    alloc: Global,
    tally: Option<Arc<Tally>>,
    errand: Errand,
    key: String,
    step: usize,
    // What stands for the request: an answer without the database, a call of the pool, a statement.
    known: Option<Answer>,
    call: Option<Call<R>>,
    asked: Option<Queried<Lent<R>>>,
    found: Option<String>,
}

impl<R: PoolRuntime> Answering<R> {
    /// An answer that is known.
    pub fn known(alloc: Global, tally: Option<Arc<Tally>>, answer: Answer) -> Answering<R> {
        Answering {
            alloc,
            tally,
            errand: Errand::Probe,
            key: String::new(alloc),
            step: 0,
            known: Some(answer),
            call: None,
            asked: None,
            found: None,
        }
    }

    /// The answer to an errand about a key, which waits for a connection.
    pub fn of(
        alloc: Global,
        tally: Option<Arc<Tally>>,
        errand: Errand,
        key: String,
        call: Call<R>,
    ) -> Answering<R> {
        Answering {
            alloc,
            tally,
            errand,
            key,
            step: 0,
            known: None,
            call: Some(call),
            asked: None,
            found: None,
        }
    }

    // Goes on with what it is at: the answer, once there is one.
    fn poll_step(&mut self, cx: &mut Context<'_>) -> Poll<Option<Answer>> {
        if let Some(call) = &mut self.call {
            let lent = ready!(call.poll(cx));
            self.call = None;
            return Poll::Ready(match lent {
                Ok(lent) => self.go_on(lent),
                Err(error) => Some(refused(&error)),
            });
        }
        if let Some(asked) = &mut self.asked {
            let (lent, rows) = ready!(asked.poll(cx));
            self.asked = None;
            return Poll::Ready(match rows {
                Ok(rows) => self.take(lent, rows),
                Err(error) => Some(failed(self.errand.statement(self.step), &error)),
            });
        }
        Poll::Ready(Some(self.known.take().unwrap_or_else(Answer::no_memory)))
    }

    // Sends the next statement. After the last one the connection goes back before the answer.
    fn go_on(&mut self, lent: Lent<R>) -> Option<Answer> {
        match self.errand.statement(self.step) {
            Some(statement) => {
                self.asked = Some(statement.sent(lent, self.key.as_str()));
                None
            }
            None => {
                drop(lent);
                let found = self.found.take();
                Some(self.errand.answer(self.alloc, self.key.as_str(), found))
            }
        }
    }

    // Keeps what a statement gave.
    fn take(&mut self, lent: Lent<R>, rows: Vec<Row>) -> Option<Answer> {
        if let Some(number) = rows.as_slice().first().and_then(|row| row.get(0)) {
            match String::from_str(self.alloc, number) {
                Ok(number) => self.found = Some(number),
                Err(_) => return Some(Answer::no_memory()),
            }
        }
        self.step += 1;
        self.go_on(lent)
    }
}

impl<R: PoolRuntime> Future for Answering<R> {
    type Output = Result<Page, Infallible>;

    fn poll(&mut self, cx: &mut Context<'_>) -> Poll<Result<Page, Infallible>> {
        for _ in 0..=WRITE.len() {
            if let Some(answer) = ready!(self.poll_step(cx)) {
                if let Some(tally) = &self.tally {
                    tally.count(answer.status);
                }
                return Poll::Ready(Ok(answer.page(self.alloc)));
            }
        }
        cx.yield_now()
    }
}
