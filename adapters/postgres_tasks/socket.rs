//! The socket, and what is said over it. Nothing waits here: what can't go on leaves a waker, or is
//! an error.

ghost use Rattle.std.specs.Prelude.{◌≡◌};
ghost use Rattle.futures.specs.Task.{IsArmed, Keeps};
ghost use Rattle.futures.specs.Poll.{OnPending};

use deadline::Deadline;
use futures::ready;
use futures::task::{Context, Poll};
use postgres::{Answer, Limits, PostgresError, Reading};
use postgres_codec::Conversation;
use std::alloc::{AllocError, Global};
use std::io;
use std::net::SocketAddr;
use tokio::net::TcpStream;

#[derive(Drop)]
pub struct Socket {
    alloc: Global,
    socket: tokio_socket::Socket,
    address: String,
    pub talk: Conversation,
}

impl Socket {
    /// An answer may have so many bytes.
    pub fn new(
        rt: HostRuntime,
        stream: TcpStream,
        address: &str,
        limit: usize,
    ) -> Result<Socket, AllocError> {
        let alloc = rt.alloc();
        Ok(Socket {
            alloc,
            socket: tokio_socket::Socket::new(rt, stream)?,
            address: String::from_str(alloc, address)?,
            talk: Conversation::new(alloc, limit),
        })
    }

    /// The server's address, not only its name.
    pub fn peer(&self) -> Option<SocketAddr> {
        self.socket.peer().ok()
    }

    /// Sends the bytes from a place on, and moves it. Ready once all are sent.
    pub fn poll_send(
        &mut self,
        bytes: &[u8],
        sent: &mut usize,
        deadline: Deadline,
        cx: &mut Context<'_>,
    ) -> Poll<Result<(), PostgresError>>
        ensures armed { OnPending result (IsArmed cx.new) }
        ensures kept { Keeps cx.old cx.new }
    {
        match ready!(self.socket.poll_send(bytes, sent, cx)) {
            Ok(()) => Poll::Ready(Ok(())),
            Err(error) => Poll::Ready(Err(self.explained(deadline, error))),
        }
    }

    /// The next answer, of which this came so far.
    pub fn poll_answer(
        &mut self,
        reading: &mut Reading,
        limits: Limits,
        deadline: Deadline,
        cx: &mut Context<'_>,
    ) -> Poll<Result<Answer, PostgresError>>
        ensures armed { OnPending result (IsArmed cx.new) }
        ensures kept { Keeps cx.old cx.new }
    {
        if let Some(answer) = self.answer(reading, limits) {
            return Poll::Ready(answer);
        }
        if let Err(error) = ready!(self.poll_feed(deadline, cx)) {
            return Poll::Ready(Err(error));
        }
        match self.answer(reading, limits) {
            Some(answer) => Poll::Ready(answer),
            None => cx.yield_now(),
        }
    }

    // The answer, once it is whole.
    fn answer(
        &mut self,
        reading: &mut Reading,
        limits: Limits,
    ) -> Option<Result<Answer, PostgresError>> {
        match reading.go_on(&mut self.talk, limits) {
            Ok(Some(answer)) => Some(Ok(answer)),
            Ok(None) => None,
            Err(error) => Some(Err(error)),
        }
    }

    /// Reads what is there.
    pub fn poll_feed(
        &mut self,
        deadline: Deadline,
        cx: &mut Context<'_>,
    ) -> Poll<Result<(), PostgresError>>
        ensures armed { OnPending result (IsArmed cx.new) }
        ensures kept { Keeps cx.old cx.new }
    {
        match ready!(self.socket.poll_read(cx)) {
            Ok(count) => {
                let fed = self.talk.feed(self.socket.came(count));
                Poll::Ready(fed.map_err(PostgresError::Memory))
            }
            Err(error) => Poll::Ready(Err(self.explained(deadline, error))),
        }
    }

    /// Sends what the socket takes at once, which has to be all.
    pub fn send_now(&mut self, bytes: &[u8], deadline: Deadline) -> Result<(), PostgresError>
        ensures { self.new.talk ≡ self.old.talk }
    {
        match self.socket.send_now(bytes) {
            Ok(()) => Ok(()),
            Err(error) => Err(self.explained(deadline, error)),
        }
    }

    /// Fails where an answer is owed, or bytes came that nobody asked for, or the stream's end.
    pub fn must_be_quiet(&mut self, deadline: Deadline) -> Result<(), PostgresError>
        ensures { self.new.talk ≡ self.old.talk }
    {
        let seen = self.socket.is_quiet();
        self.quiet(seen, deadline)
    }

    /// The same, but that it does not look at the socket within a millisecond of what it read there
    /// last: who is to send next looks.
    pub fn must_be_still_quiet(&mut self, deadline: Deadline) -> Result<(), PostgresError>
        ensures { self.new.talk ≡ self.old.talk }
    {
        let seen = self.socket.is_still_quiet();
        self.quiet(seen, deadline)
    }

    fn quiet(&self, seen: io::Result<bool>, deadline: Deadline) -> Result<(), PostgresError> {
        match seen {
            Ok(is_quiet) if is_quiet && self.talk.is_settled() => Ok(()),
            Ok(_) => Err(PostgresError::Unasked),
            Err(error) => Err(self.explained(deadline, error)),
        }
    }

    /// The error of a call that took too long.
    pub fn late(&self, deadline: Deadline) -> PostgresError {
        self.explained(deadline, io::Error::from(io::ErrorKind::TimedOut))
    }

    fn explained(&self, deadline: Deadline, error: io::Error) -> PostgresError {
        PostgresError::of_socket(self.alloc, self.address.as_str(), deadline, error)
    }
}
