//! A connection to Redis.

ghost use Rattle.std.specs.Prelude.{◌≡◌, ◌<◌, ◌⊎◌, IsErr, IsFalse, IsOk, IsTrue};
ghost use Rattle.futures.specs.Task.{IsArmed, Keeps};
ghost use Rattle.futures.specs.Poll.{IfReady, OnPending};
ghost use Rattle.redis_codec.specs.Sessions.{plain};

use crate::socket::Socket;
use deadline::Deadline;
use futures::ready;
use futures::task::{Context, Poll};
use redis::{Login, Pipeline, RedisError, Reset, Session, Standing, Timeouts, must_be_a_word};
use redis_codec::Item;
use std::alloc::{AllocError, Global};
use std::time::Duration;
use tokio::time;
use tokio_socket::Patience;

/// A connection to Redis, whose commands are futures: those of the trait `Commands`.
#[derive(Drop)]
pub struct TaskConnection {
    rt: HostRuntime,
    time: time::Handle,
    pub(crate) socket: Socket,
    pub(crate) timeouts: Timeouts,
    pub(crate) standing: Standing,
}

/// A request, or several that go out together: how far they have come, and how long their answers
/// are waited for.
#[derive(Drop)]
pub(crate) struct Request {
    pipeline: Pipeline,
    sent: usize,
    // How many answers are lacking, and those that came.
    left: usize,
    pub answers: Vec<Vec<Item>>,
    stage: Stage,
    timeout: Duration,
    // Since its first poll.
    patience: Option<Patience>,
}

#[derive(Clone, Copy, PartialEq, Eq)]
enum Stage {
    New,
    // The answers to the reset of an earlier caller are read.
    Resetting,
    Sending,
}

impl Request {
    /// The request of these words.
    pub fn of(alloc: Global, words: &[&[u8]], timeout: Duration) -> Result<Request, AllocError> {
        let mut pipeline = Pipeline::new(alloc);
        pipeline.call(words)?;
        Ok(Request::all_of(alloc, pipeline, timeout))
    }

    /// Those of a pipeline.
    pub fn all_of(alloc: Global, pipeline: Pipeline, timeout: Duration) -> Request {
        let left = pipeline.len();
        Request {
            pipeline,
            sent: 0,
            left,
            answers: Vec::new(alloc),
            stage: Stage::New,
            timeout,
            patience: None,
        }
    }

    /// The answer to a request of one command.
    pub fn answer(&mut self) -> Result<Vec<Item>, RedisError> {
        self.answers.pop().ok_or(RedisError::Protocol)
    }

    // The next answer came.
    fn take(&mut self, items: Vec<Item>) -> Result<(), RedisError> {
        self.answers.push(items)?;
        self.left = self.left.saturating_sub(1);
        Ok(())
    }
}

impl TaskConnection {
    pub(crate) fn new(
        rt: HostRuntime,
        time: time::Handle,
        socket: Socket,
        timeouts: Timeouts,
        standing: Standing,
    ) -> TaskConnection {
        TaskConnection {
            rt,
            time,
            socket,
            timeouts,
            standing,
        }
    }

    /// Whether a command has not had its reply, and never will.
    pub fn is_broken(&self) -> bool
        ensures { result ≡ self.now.standing.is_broken }
    {
        self.standing.is_broken
    }

    /// How what was sent so far has left the session at the server. A reset that is not over yet
    /// has not changed it.
    pub fn session(&self) -> Session
        ensures { result ≡ self.now.socket.talk.session }
    {
        self.socket.talk.session()
    }

    pub(crate) fn alloc(&self) -> Global {
        self.rt.alloc()
    }

    /// Ready once a request has all its answers, or with why it has not by the deadline, which
    /// counts from here on. It is broken until they are there: so who drops the request leaves them
    /// to nobody.
    pub(crate) fn poll_exchange(
        &mut self,
        request: &mut Request,
        cx: &mut Context<'_>,
    ) -> Poll<Result<(), RedisError>>
        ensures pending { OnPending result (IsTrue self.new.standing.is_broken) }
        ensures failed { IfReady result (λ r. IsErr r → IsTrue self.new.standing.is_broken) }
        ensures sound { IfReady result (λ r. IsOk r → IsFalse self.new.standing.is_broken) }
        ensures armed { OnPending result (IsArmed cx.new) }
        ensures kept { Keeps cx.old cx.new }
    {
        if self.standing.is_broken && request.stage == Stage::New {
            return Poll::Ready(Err(RedisError::Broken));
        }
        self.standing.is_broken = true;
        let mut patience = match request.patience.take() {
            Some(patience) => patience,
            None => match Patience::new(self.rt, &self.time, request.timeout) {
                Ok(patience) => patience,
                Err(error) => return Poll::Ready(Err(RedisError::Memory(error))),
            },
        };
        let answered = match self.poll_steps(request, &patience, cx) {
            Poll::Pending if patience.poll_over(cx).is_ready() => {
                Poll::Ready(Err(self.socket.late(patience.deadline)))
            }
            answered => answered,
        };
        match answered {
            Poll::Ready(Ok(())) => {
                self.standing.is_broken = false;
                Poll::Ready(Ok(()))
            }
            Poll::Ready(Err(error)) => Poll::Ready(Err(error)),
            Poll::Pending => {
                request.patience = Some(patience);
                Poll::Pending
            }
        }
    }

    fn poll_steps(
        &mut self,
        request: &mut Request,
        patience: &Patience,
        cx: &mut Context<'_>,
    ) -> Poll<Result<(), RedisError>>
        ensures same { self.new.standing.is_broken ≡ self.old.standing.is_broken }
        ensures armed { OnPending result (IsArmed cx.new) }
        ensures kept { Keeps cx.old cx.new }
    {
        let deadline = patience.deadline;
        // (Who sends for ever keeps no caller for ever.)
        if patience.is_over() {
            return Poll::Ready(Err(self.socket.late(deadline)));
        }
        if request.stage != Stage::Sending {
            request.stage = Stage::Resetting;
            if let Err(error) = ready!(self.poll_reset(deadline, cx)) {
                return Poll::Ready(Err(error));
            }
            if let Err(error) = self.begin(&request.pipeline, deadline) {
                return Poll::Ready(Err(error));
            }
            request.stage = Stage::Sending;
        }
        let (bytes, sent) = (request.pipeline.bytes(), &mut request.sent);
        if let Err(error) = ready!(self.socket.poll_send(bytes, sent, deadline, cx)) {
            return Poll::Ready(Err(error));
        }
        self.poll_answer(request, deadline, cx)
    }

    // Reads an answer, if one is lacking. Ready once none is.
    fn poll_answer(
        &mut self,
        request: &mut Request,
        deadline: Deadline,
        cx: &mut Context<'_>,
    ) -> Poll<Result<(), RedisError>>
        ensures same { self.new.standing.is_broken ≡ self.old.standing.is_broken }
        ensures armed { OnPending result (IsArmed cx.new) }
        ensures kept { Keeps cx.old cx.new }
    {
        if request.left == 0 {
            return Poll::Ready(Ok(()));
        }
        let answered = match ready!(self.socket.poll_receive(deadline, cx)) {
            Ok(items) => request.take(items),
            Err(error) => Err(error),
        };
        match answered {
            Ok(()) if request.left > 0 => cx.yield_now(),
            answered => Poll::Ready(answered),
        }
    }

    // Reads the answers to the reset of an earlier caller.
    fn poll_reset(
        &mut self,
        deadline: Deadline,
        cx: &mut Context<'_>,
    ) -> Poll<Result<(), RedisError>>
        ensures same { self.new.standing.is_broken ≡ self.old.standing.is_broken }
        ensures armed { OnPending result (IsArmed cx.new) }
        ensures kept { Keeps cx.old cx.new }
    {
        if self.standing.resetting == 0 {
            return Poll::Ready(Ok(()));
        }
        let answered = match ready!(self.socket.poll_receive(deadline, cx)) {
            Ok(items) => must_be_a_word(items),
            Err(error) => Err(error),
        };
        if let Err(error) = answered {
            return Poll::Ready(Err(error));
        }
        self.standing.resetting -= 1;
        if self.standing.resetting > 0 {
            return cx.yield_now();
        }
        self.socket.talk.begin();
        Poll::Ready(Ok(()))
    }

    // The server has said nothing since it answered last: so what comes now is the answer.
    fn begin(&mut self, pipeline: &Pipeline, deadline: Deadline) -> Result<(), RedisError>
        ensures { self.new.standing ≡ self.old.standing }
    {
        self.socket.must_be_quiet(deadline)?;
        pipeline.expect_by(&mut self.socket.talk)?;
        Ok(())
    }

    /// Comes back from a caller. Whether it may be lent on: to a caller who finds the session as it
    /// began, or as the mode says. What ends the session is sent, as far as the socket takes it at
    /// once; nothing waits.
    pub(crate) fn come_back(&mut self, reset: Reset, login: &Login) -> bool
        ensures broken { IsTrue self.old.standing.is_broken → IsFalse result }
        ensures never { IsTrue result → self.old.standing.resetting ≡ 0 → reset ≡ Reset.Never →
            IsFalse self.old.socket.talk.session.transaction
            × IsFalse self.old.socket.talk.session.watch
            × IsFalse self.old.socket.talk.session.subscriptions
            × IsFalse self.old.socket.talk.session.monitor }
        ensures marked { IsTrue result → reset ≡ Reset.IfMarked →
            (self.new.socket.talk.session ≡ plain) ⊎ (0 < self.new.standing.resetting) }
        ensures always { IsTrue result → reset ≡ Reset.Always → 0 < self.new.standing.resetting }
    {
        let is_kept = self.end_session(reset, login).is_ok();
        self.standing.is_broken = !is_kept;
        is_kept
    }

    fn end_session(&mut self, reset: Reset, login: &Login) -> Result<(), RedisError>
        ensures broken { IsTrue self.old.standing.is_broken → IsErr result }
        ensures never { IsOk result → self.old.standing.resetting ≡ 0 → reset ≡ Reset.Never →
            IsFalse self.old.socket.talk.session.transaction
            × IsFalse self.old.socket.talk.session.watch
            × IsFalse self.old.socket.talk.session.subscriptions
            × IsFalse self.old.socket.talk.session.monitor }
        ensures marked { IsOk result → reset ≡ Reset.IfMarked →
            (self.new.socket.talk.session ≡ plain) ⊎ (0 < self.new.standing.resetting) }
        ensures always { IsOk result → reset ≡ Reset.Always → 0 < self.new.standing.resetting }
    {
        let deadline = Deadline::new(self.rt, self.timeouts.check);
        // (What comes of a reset is read by the next command.)
        if self.standing.resetting == 0 {
            self.socket.must_be_quiet(deadline)?;
        }
        let (alloc, talk) = (self.rt.alloc(), &mut self.socket.talk);
        let requests = self.standing.come_back(alloc, talk, reset, login)?;
        if requests.is_empty() {
            return Ok(());
        }
        self.socket.send_now(requests.as_slice(), deadline)
    }
}
