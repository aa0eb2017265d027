//! The futures of a query and of a check.

ghost use Rattle.std.specs.Prelude.{◌≡◌, IfOk, IsSome};
ghost use Rattle.futures.specs.Task.{IsArmed, Keeps};
ghost use Rattle.futures.specs.Poll.{IfReady, OnPending};

use crate::connection::TaskConnection;
use futures::task::{Context, Poll};
use futures::{Future, ready};
use postgres::{Answer, PostgresError, Query, Row, Session};
use std::ops::DerefMut;

/// Queries over a lent connection, which their futures give back with what came of them. Nothing is
/// sent before the first poll; the timeout of a query counts from there on. Who drops such a future
/// after it, before its end, leaves a broken connection, which the pool closes; before the pool
/// opens another it asks the server to cancel the query.
pub trait Commands: DerefMut<Target = TaskConnection> + Drop + Sized {
    /// Sends a query, or several with `;` between them, and reads the rows of all. It has no
    /// parameters: what is no part of the text belongs into `query_with`.
    final fn query(self, text: &str) -> Queried<Self>
        ensures { IsSome result.0.lent }
    {
        let connection: &TaskConnection = &self;
        let query = Query::of(connection.alloc(), text);
        Queried(Exchange::of(self, query))
    }

    /// Sends one query, with values for `$1`, `$2` and so on: each as text, or None for NULL. The
    /// server takes them as values of the types that it finds for them, so nothing is to be quoted.
    final fn query_with(self, text: &str, values: &[Option<&str>]) -> Queried<Self>
        ensures { IsSome result.0.lent }
    {
        let connection: &TaskConnection = &self;
        let query = connection.inner.statements.ask(text, values);
        Queried(Exchange::of(self, query))
    }

    /// As `query`. How many rows its statements inserted, changed, deleted or returned, together.
    final fn execute(self, text: &str) -> Executed<Self>
        ensures { IsSome result.0.lent }
    {
        let connection: &TaskConnection = &self;
        let query = Query::of(connection.alloc(), text);
        Executed(Exchange::of(self, query))
    }

    /// As `query_with`. How many rows it inserted, changed, deleted or returned.
    final fn execute_with(self, text: &str, values: &[Option<&str>]) -> Executed<Self>
        ensures { IsSome result.0.lent }
    {
        let connection: &TaskConnection = &self;
        let query = connection.inner.statements.ask(text, values);
        Executed(Exchange::of(self, query))
    }
}

impl<L: DerefMut<Target = TaskConnection> + Drop> Commands for L {}

// What was lent, over which something is asked.
#[derive(Drop)]
struct Exchange<L> {
    // None once it was ready.
    lent: Option<L>,
}

impl<L: DerefMut<Target = TaskConnection> + Drop> Exchange<L> {
    fn of(lent: L, query: Result<Query, PostgresError>) -> Exchange<L>
        ensures { IsSome result.lent }
    {
        let mut lent = lent;
        let connection: &mut TaskConnection = &mut lent;
        let timeout = connection.inner.timeouts.command;
        connection.ask(query, timeout);
        Exchange { lent: Some(lent) }
    }

    fn poll_answer(&mut self, cx: &mut Context<'_>) -> Poll<(L, Result<Answer, PostgresError>)>
        requires { IsSome self.old.lent }
        ensures lent { OnPending result (IsSome self.new.lent) }
        ensures armed { OnPending result (IsArmed cx.new) }
        ensures kept { Keeps cx.old cx.new }
    {
        let mut lent = self.lent.take().unwrap();
        match poll_answer(&mut lent, cx) {
            Poll::Ready(answer) => Poll::Ready((lent, answer)),
            Poll::Pending => {
                self.lent = Some(lent);
                Poll::Pending
            }
        }
    }
}

fn poll_answer(
    connection: &mut TaskConnection,
    cx: &mut Context<'_>,
) -> Poll<Result<Answer, PostgresError>>
    ensures pending { OnPending result (connection.new.standing.session ≡ Session.Broken) }
    ensures sound { IfReady result (λ r. IfOk r (λ answer.
        connection.new.standing.session ≡ answer.session)) }
    ensures armed { OnPending result (IsArmed cx.new) }
    ensures kept { Keeps cx.old cx.new }
{
    match connection.refusal() {
        Some(error) => Poll::Ready(Err(error)),
        None => connection.poll_exchange(cx),
    }
}

/// The future of a query's rows: it gives back what was lent, and them.
#[derive(Drop)]
pub struct Queried<L>(Exchange<L>);

impl<L: DerefMut<Target = TaskConnection> + Drop> Future for Queried<L> {
    type Output = (L, Result<Vec<Row>, PostgresError>);

    ghost can_poll = { λ queried. IsSome queried.0.lent };

    fn poll(&mut self, cx: &mut Context<'_>) -> Poll<(L, Result<Vec<Row>, PostgresError>)> {
        let (lent, answer) = ready!(self.0.poll_answer(cx));
        match answer {
            Ok(answer) => Poll::Ready((lent, answer.rows)),
            Err(error) => Poll::Ready((lent, Err(error))),
        }
    }
}

/// The future of a query's count of rows: it gives back what was lent, and that.
#[derive(Drop)]
pub struct Executed<L>(Exchange<L>);

impl<L: DerefMut<Target = TaskConnection> + Drop> Future for Executed<L> {
    type Output = (L, Result<u64, PostgresError>);

    ghost can_poll = { λ executed. IsSome executed.0.lent };

    fn poll(&mut self, cx: &mut Context<'_>) -> Poll<(L, Result<u64, PostgresError>)> {
        let (lent, answer) = ready!(self.0.poll_answer(cx));
        match answer {
            Ok(answer) => Poll::Ready((lent, answer.rows.map(|_| answer.affected))),
            Err(error) => Poll::Ready((lent, Err(error))),
        }
    }
}

/// The future of a check: a query with no other use, and its answer.
#[derive(Drop)]
pub struct Check {
    // None once it was ready.
    connection: Option<TaskConnection>,
}

impl Check {
    pub(crate) fn of(connection: TaskConnection) -> Check
        ensures { IsSome result.connection }
    {
        let mut connection = connection;
        let (probe, timeout) = (connection.inner.probe, connection.inner.timeouts.check);
        let query = Query::plain(connection.alloc(), probe.query());
        connection.ask(query, timeout);
        Check {
            connection: Some(connection),
        }
    }
}

impl Future for Check {
    type Output = (TaskConnection, Result<(), PostgresError>);

    ghost can_poll = { λ check. IsSome check.connection };

    fn poll(&mut self, cx: &mut Context<'_>) -> Poll<(TaskConnection, Result<(), PostgresError>)> {
        let connection = self.connection.as_mut().unwrap();
        let verdict = match ready!(poll_answer(connection, cx)) {
            Ok(answer) => connection.passes(answer),
            Err(error) => Err(error),
        };
        Poll::Ready((self.connection.take().unwrap(), verdict))
    }
}
