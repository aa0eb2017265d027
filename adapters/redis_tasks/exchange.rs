//! The futures of a command, of a pipeline, and of a check.

ghost use Rattle.std.specs.Prelude.{◌≡◌, IsErr, IsFalse, IsOk, IsSome, IsTrue};
ghost use Rattle.futures.specs.Task.{IsArmed, Keeps};
ghost use Rattle.futures.specs.Poll.{IfReady, OnPending};

use crate::connection::{Request, TaskConnection};
use futures::task::{Context, Poll};
use futures::{Future, ready};
use redis::{Pipeline, Probe, RedisError, Reply};
use redis_codec::Item;
use std::alloc::{AllocError, Global};
use std::mem;
use std::ops::DerefMut;

/// Commands over a lent connection, which their futures give back with the reply. Nothing is sent
/// before the first poll; the timeout of a command counts from there on. Who drops such a future
/// after it, before its end, leaves a broken connection, which the pool closes.
pub trait Commands: DerefMut<Target = TaskConnection> + Drop + Sized {
    /// Sends a command, as `&["INCR", "visits"]`, and reads its reply.
    final fn command(self, words: &[&str]) -> Exchange<Self>
        ensures { IsSome result.lent }
    {
        let connection: &TaskConnection = &self;
        let timeout = connection.timeouts.command;
        let request = match bytes_of(connection.alloc(), words) {
            Ok(words) => Request::of(connection.alloc(), words.as_slice(), timeout),
            Err(error) => Err(error),
        };
        Exchange {
            lent: Some(self),
            request,
        }
    }

    /// The same with words of any bytes, as `&[b"SET", key, value]`.
    final fn call(self, words: &[&[u8]]) -> Exchange<Self>
        ensures { IsSome result.lent }
    {
        let connection: &TaskConnection = &self;
        let request = Request::of(connection.alloc(), words, connection.timeouts.command);
        Exchange {
            lent: Some(self),
            request,
        }
    }

    /// Sends the commands of a pipeline together, and reads their replies: one for each, in the
    /// same order, and `Reply::Refused` for one that was refused. All together have the time of a
    /// command; the limits are those of each answer. After an error some, or all, may have been
    /// carried out.
    final fn run_all(self, pipeline: Pipeline) -> ExchangeOfAll<Self>
        ensures { IsSome result.lent }
    {
        let connection: &TaskConnection = &self;
        let (alloc, timeout) = (connection.alloc(), connection.timeouts.command);
        ExchangeOfAll {
            lent: Some(self),
            request: Request::all_of(alloc, pipeline, timeout),
        }
    }
}

impl<L: DerefMut<Target = TaskConnection> + Drop> Commands for L {}

fn bytes_of<'a>(alloc: Global, words: &[&'a str]) -> Result<Vec<&'a [u8]>, AllocError> {
    let mut bytes: Vec<&'a [u8]> = Vec::new(alloc);
    for word in words {
        bytes.push(word.as_bytes())?;
    }
    Ok(bytes)
}

/// The future of a command: it gives back what was lent, and the reply.
#[derive(Drop)]
pub struct Exchange<L> {
    // None once it was ready.
    lent: Option<L>,
    request: Result<Request, AllocError>,
}

impl<L: DerefMut<Target = TaskConnection> + Drop> Future for Exchange<L> {
    type Output = (L, Result<Reply, RedisError>);

    ghost can_poll = { λ exchange. IsSome exchange.lent };

    fn poll(&mut self, cx: &mut Context<'_>) -> Poll<(L, Result<Reply, RedisError>)> {
        let mut lent = self.lent.take().unwrap();
        match poll_reply(&mut lent, &mut self.request, cx) {
            Poll::Ready(reply) => Poll::Ready((lent, reply)),
            Poll::Pending => {
                self.lent = Some(lent);
                Poll::Pending
            }
        }
    }
}

fn poll_reply(
    connection: &mut TaskConnection,
    request: &mut Result<Request, AllocError>,
    cx: &mut Context<'_>,
) -> Poll<Result<Reply, RedisError>>
    ensures pending { OnPending result (IsTrue connection.new.standing.is_broken) }
    ensures sound { IfReady result (λ r. IsOk r → IsFalse connection.new.standing.is_broken) }
    ensures armed { OnPending result (IsArmed cx.new) }
    ensures kept { Keeps cx.old cx.new }
{
    match ready!(poll_items(connection, request, cx)) {
        Ok(items) => {
            let alloc = connection.alloc();
            Poll::Ready(connection.standing.replied(alloc, items))
        }
        Err(error) => Poll::Ready(Err(error)),
    }
}

fn poll_items(
    connection: &mut TaskConnection,
    request: &mut Result<Request, AllocError>,
    cx: &mut Context<'_>,
) -> Poll<Result<Vec<Item>, RedisError>>
    ensures pending { OnPending result (IsTrue connection.new.standing.is_broken) }
    ensures sound { IfReady result (λ r. IsOk r → IsFalse connection.new.standing.is_broken) }
    ensures armed { OnPending result (IsArmed cx.new) }
    ensures kept { Keeps cx.old cx.new }
{
    match request {
        Ok(request) => match ready!(connection.poll_exchange(request, cx)) {
            Ok(()) => Poll::Ready(request.answer()),
            Err(error) => Poll::Ready(Err(error)),
        },
        Err(_) => Poll::Ready(Err(RedisError::Memory(AllocError))),
    }
}

/// The future of a pipeline: it gives back what was lent, and the replies.
#[derive(Drop)]
pub struct ExchangeOfAll<L> {
    // None once it was ready.
    lent: Option<L>,
    request: Request,
}

impl<L: DerefMut<Target = TaskConnection> + Drop> Future for ExchangeOfAll<L> {
    type Output = (L, Result<Vec<Reply>, RedisError>);

    ghost can_poll = { λ exchange. IsSome exchange.lent };

    fn poll(&mut self, cx: &mut Context<'_>) -> Poll<(L, Result<Vec<Reply>, RedisError>)> {
        let mut lent = self.lent.take().unwrap();
        match poll_replies(&mut lent, &mut self.request, cx) {
            Poll::Ready(replies) => Poll::Ready((lent, replies)),
            Poll::Pending => {
                self.lent = Some(lent);
                Poll::Pending
            }
        }
    }
}

fn poll_replies(
    connection: &mut TaskConnection,
    request: &mut Request,
    cx: &mut Context<'_>,
) -> Poll<Result<Vec<Reply>, RedisError>>
    ensures pending { OnPending result (IsTrue connection.new.standing.is_broken) }
    ensures failed { IfReady result (λ r. IsErr r → IsTrue connection.new.standing.is_broken) }
    ensures armed { OnPending result (IsArmed cx.new) }
    ensures kept { Keeps cx.old cx.new }
{
    match ready!(connection.poll_exchange(request, cx)) {
        Ok(()) => {
            let alloc = connection.alloc();
            let answers = mem::replace(&mut request.answers, Vec::new(alloc));
            Poll::Ready(connection.standing.replied_all(alloc, answers))
        }
        Err(error) => Poll::Ready(Err(error)),
    }
}

/// The future of a check: what it asks, and the answer.
#[derive(Drop)]
pub struct Check {
    // None once it was ready.
    connection: Option<TaskConnection>,
    probe: Probe,
    request: Result<Request, AllocError>,
}

impl Check {
    pub(crate) fn of(connection: TaskConnection, probe: Probe) -> Check
        ensures connection { IsSome result.connection }
        ensures probe { result.probe ≡ probe }
    {
        let timeout = connection.timeouts.check;
        let request = Request::of(connection.alloc(), &[probe.word()], timeout);
        Check {
            connection: Some(connection),
            probe,
            request,
        }
    }
}

impl Future for Check {
    type Output = (TaskConnection, Result<(), RedisError>);

    ghost can_poll = { λ check. IsSome check.connection };

    fn poll(&mut self, cx: &mut Context<'_>) -> Poll<(TaskConnection, Result<(), RedisError>)> {
        let connection = self.connection.as_mut().unwrap();
        let verdict = match ready!(poll_items(connection, &mut self.request, cx)) {
            Ok(items) => {
                let alloc = connection.alloc();
                connection.standing.passes(alloc, self.probe, items)
            }
            Err(error) => Err(error),
        };
        Poll::Ready((self.connection.take().unwrap(), verdict))
    }
}
