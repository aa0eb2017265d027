//! The socket, and what is said over it. Nothing waits here: what can't go on leaves a waker, or is
//! an error.

ghost use Rattle.std.specs.Prelude.{◌≡◌};
ghost use Rattle.futures.specs.Task.{IsArmed, Keeps};
ghost use Rattle.futures.specs.Poll.{OnPending};

use deadline::Deadline;
use futures::ready;
use futures::task::{Context, Poll};
use redis::RedisError;
use redis_codec::{Conversation, Item, Limits};
use std::alloc::{AllocError, Global};
use std::io;
use tokio::net::TcpStream;

#[derive(Drop)]
pub struct Socket {
    alloc: Global,
    socket: tokio_socket::Socket,
    address: String,
    pub talk: Conversation,
}

impl Socket {
    pub fn new(
        rt: HostRuntime,
        stream: TcpStream,
        address: &str,
        limits: Limits,
    ) -> Result<Socket, AllocError> {
        let alloc = rt.alloc();
        Ok(Socket {
            alloc,
            socket: tokio_socket::Socket::new(rt, stream)?,
            address: String::from_str(alloc, address)?,
            talk: Conversation::new(alloc, limits)?,
        })
    }

    /// Sends the bytes from a place on, and moves it. Ready once all are sent.
    pub fn poll_send(
        &mut self,
        bytes: &[u8],
        sent: &mut usize,
        deadline: Deadline,
        cx: &mut Context<'_>,
    ) -> Poll<Result<(), RedisError>>
        ensures armed { OnPending result (IsArmed cx.new) }
        ensures kept { Keeps cx.old cx.new }
    {
        match ready!(self.socket.poll_send(bytes, sent, cx)) {
            Ok(()) => Poll::Ready(Ok(())),
            Err(error) => Poll::Ready(Err(self.explained(deadline, error))),
        }
    }

    /// The answer to the request that waits for the longest.
    pub fn poll_receive(
        &mut self,
        deadline: Deadline,
        cx: &mut Context<'_>,
    ) -> Poll<Result<Vec<Item>, RedisError>>
        ensures armed { OnPending result (IsArmed cx.new) }
        ensures kept { Keeps cx.old cx.new }
    {
        if let Some(answer) = self.answer() {
            return Poll::Ready(answer);
        }
        let count = match ready!(self.socket.poll_read(cx)) {
            Ok(count) => count,
            Err(error) => return Poll::Ready(Err(self.explained(deadline, error))),
        };
        if let Err(error) = self.talk.feed(self.socket.came(count)) {
            return Poll::Ready(Err(RedisError::Memory(error)));
        }
        match self.answer() {
            Some(answer) => Poll::Ready(answer),
            None => cx.yield_now(),
        }
    }

    // The answer, once it is whole.
    fn answer(&mut self) -> Option<Result<Vec<Item>, RedisError>> {
        match self.talk.answer() {
            Ok(Some(items)) => Some(Ok(items)),
            Ok(None) => None,
            Err(error) => Some(Err(RedisError::from(error))),
        }
    }

    /// Sends what the socket takes at once, which has to be all.
    pub fn send_now(&mut self, bytes: &[u8], deadline: Deadline) -> Result<(), RedisError>
        ensures { self.new.talk ≡ self.old.talk }
    {
        match self.socket.send_now(bytes) {
            Ok(()) => Ok(()),
            Err(error) => Err(self.explained(deadline, error)),
        }
    }

    /// Fails where an answer is owed, or bytes came that nobody asked for, or the stream's end.
    pub fn must_be_quiet(&mut self, deadline: Deadline) -> Result<(), RedisError>
        ensures { self.new.talk ≡ self.old.talk }
    {
        if !self.talk.is_settled() {
            return Err(RedisError::Unasked);
        }
        match self.socket.is_quiet() {
            Ok(true) => Ok(()),
            Ok(false) => Err(RedisError::Unasked),
            Err(error) => Err(self.explained(deadline, error)),
        }
    }

    /// The error of a call that took too long.
    pub fn late(&self, deadline: Deadline) -> RedisError {
        self.explained(deadline, io::Error::from(io::ErrorKind::TimedOut))
    }

    fn explained(&self, deadline: Deadline, error: io::Error) -> RedisError {
        RedisError::of_socket(self.alloc, self.address.as_str(), deadline, error)
    }
}
