//! A connection to PostgreSQL.

ghost use Rattle.std.specs.Prelude.{◌≡◌, ◌≢◌, ◌<◌, ◌⊎◌, IfOk, IsErr, IsFalse, IsOk, IsTrue};
ghost use Rattle.futures.specs.Task.{IsArmed, Keeps};
ghost use Rattle.futures.specs.Poll.{IfReady, OnPending};

use crate::cancelling::Cancel;
use crate::socket::Socket;
use futures::ready;
use futures::task::{Context, Poll};
use postgres::{
    Answer, Begun, Limits, PostgresError, Probe, Query, Reading, Reset, Session, Settings,
    Standing, Statements, Timeouts, must_be_taken,
};
use postgres_codec::Mark;
use std::alloc::Global;
use std::time::Duration;
use tokio::time;
use tokio_socket::Patience;

/// A connection to PostgreSQL, whose queries are futures: those of the trait `Commands`.
#[derive(Drop)]
pub struct TaskConnection {
    pub(crate) standing: Standing,
    // All else stays where it is: a connection is moved at each loan, poll and return.
    pub(crate) inner: Box<Inner>,
}

/// What a connection has beside how it stands, for as long as it is open.
#[derive(Drop)]
pub(crate) struct Inner {
    rt: HostRuntime,
    socket: Socket,
    pub timeouts: Timeouts,
    limits: Limits,
    pub probe: Probe,
    pub statements: Statements,
    // What is asked, or why it is not sent; what came of its answer, and for how long that is
    // waited for.
    request: Request,
    refused: Option<PostgresError>,
    reading: Reading,
    patience: Patience,
    // What a cancel names this connection by.
    key: Option<Vec<u8>>,
    // Whether the server may be at a query whose answer nobody waits for.
    is_left: bool,
}

// A request, how far it has come, and how long its answer is waited for.
#[derive(Drop)]
struct Request {
    query: Query,
    sent: usize,
    stage: Stage,
    timeout: Duration,
}

#[derive(Clone, Copy, PartialEq, Eq)]
enum Stage {
    New,
    // The answers to the reset of an earlier caller are read.
    Resetting,
    Sending,
}

impl Request {
    fn of(query: Query, timeout: Duration) -> Request {
        Request {
            query,
            sent: 0,
            stage: Stage::New,
            timeout,
        }
    }
}

impl TaskConnection {
    /// One over a socket, at which a session has begun.
    pub(crate) fn over(
        rt: HostRuntime,
        time: &time::Handle,
        settings: &Settings,
        socket: Socket,
        begun: Begun,
    ) -> Result<TaskConnection, PostgresError> {
        let timeouts = settings.timeouts;
        let inner = Inner {
            rt,
            socket,
            timeouts,
            limits: settings.limits,
            probe: settings.probe,
            statements: Statements::new(rt.alloc(), settings.statements),
            request: Request::of(Query::none(rt.alloc()), timeouts.command),
            refused: None,
            reading: Reading::new(rt.alloc()),
            patience: Patience::new(rt, time, timeouts.command)?,
            key: begun.key,
            is_left: false,
        };
        Ok(TaskConnection {
            standing: Standing::new(begun.session),
            inner: Box::new(rt.alloc(), inner)?,
        })
    }

    /// What the server last said of it.
    pub fn session(&self) -> Session
        ensures { result ≡ self.now.standing.session }
    {
        self.standing.session
    }

    pub(crate) fn alloc(&self) -> Global {
        self.inner.rt.alloc()
    }

    /// What is asked next, or why it can't be, and for how long its answer is waited for. Nothing is
    /// sent yet.
    pub(crate) fn ask(&mut self, query: Result<Query, PostgresError>, timeout: Duration)
        ensures { self.new.standing ≡ self.old.standing }
    {
        let inner = &mut *self.inner;
        inner.refused = None;
        match query {
            Ok(query) => inner.request = Request::of(query, timeout),
            Err(error) => inner.refused = Some(error),
        }
    }

    /// Why what was asked last can't be, which is told once.
    pub(crate) fn refusal(&mut self) -> Option<PostgresError>
        ensures { self.new.standing ≡ self.old.standing }
    {
        self.inner.refused.take()
    }

    /// The answer to what was asked last, or why there is none by the deadline, which counts from
    /// the first poll on. It is broken until the answer is there: so who gives up leaves its answer
    /// to nobody.
    pub(crate) fn poll_exchange(
        &mut self,
        cx: &mut Context<'_>,
    ) -> Poll<Result<Answer, PostgresError>>
        ensures pending { OnPending result (self.new.standing.session ≡ Session.Broken) }
        ensures failed { IfReady result (λ r. IsErr r → self.new.standing.session ≡ Session.Broken) }
        ensures sound { IfReady result (λ r. IfOk r (λ answer.
            self.new.standing.session ≡ answer.session)) }
        ensures armed { OnPending result (IsArmed cx.new) }
        ensures kept { Keeps cx.old cx.new }
    {
        if self.inner.request.stage == Stage::New {
            if self.standing.session == Session::Broken {
                return Poll::Ready(Err(PostgresError::Broken));
            }
            self.inner.begin();
        }
        self.standing.session = Session::Broken;
        let answered = match self.poll_steps(cx) {
            Poll::Pending if self.inner.patience.poll_over(cx).is_ready() => {
                Poll::Ready(Err(self.inner.late()))
            }
            answered => answered,
        };
        match answered {
            Poll::Ready(Ok(answer)) => {
                self.inner.answered(&answer);
                self.standing.answered(&answer);
                Poll::Ready(Ok(answer))
            }
            Poll::Ready(Err(error)) => {
                self.inner.is_left &= matches!(error, PostgresError::Timeout { .. });
                Poll::Ready(Err(error))
            }
            Poll::Pending => Poll::Pending,
        }
    }

    fn poll_steps(&mut self, cx: &mut Context<'_>) -> Poll<Result<Answer, PostgresError>>
        ensures same { self.new.standing.session ≡ self.old.standing.session }
        ensures armed { OnPending result (IsArmed cx.new) }
        ensures kept { Keeps cx.old cx.new }
    {
        // (Who sends for ever keeps no caller for ever.)
        if self.inner.request.stage != Stage::New && self.inner.patience.is_over() {
            return Poll::Ready(Err(self.inner.late()));
        }
        if self.inner.request.stage != Stage::Sending {
            self.inner.request.stage = Stage::Resetting;
            if let Err(error) = ready!(self.poll_reset(cx)) {
                return Poll::Ready(Err(error));
            }
            if let Err(error) = self.begin() {
                return Poll::Ready(Err(error));
            }
            self.inner.request.stage = Stage::Sending;
        }
        self.inner.poll_asked(cx)
    }

    // Reads the answers to the reset of an earlier caller.
    fn poll_reset(&mut self, cx: &mut Context<'_>) -> Poll<Result<(), PostgresError>>
        ensures same { self.new.standing.session ≡ self.old.standing.session }
        ensures armed { OnPending result (IsArmed cx.new) }
        ensures kept { Keeps cx.old cx.new }
    {
        if self.standing.resetting == 0 {
            return Poll::Ready(Ok(()));
        }
        let answered = match ready!(self.inner.poll_answer(cx)) {
            Ok(answer) => must_be_taken(answer),
            Err(error) => Err(error),
        };
        if let Err(error) = answered {
            return Poll::Ready(Err(error));
        }
        self.standing.resetting -= 1;
        if self.standing.resetting > 0 {
            return cx.yield_now();
        }
        self.standing.is_reset();
        Poll::Ready(Ok(()))
    }

    // The server has said nothing since it answered last: so what comes now is the answer.
    fn begin(&mut self) -> Result<(), PostgresError>
        ensures same { self.new.standing.session ≡ self.old.standing.session }
    {
        let inner = &mut *self.inner;
        inner.socket.must_be_quiet(inner.patience.deadline)?;
        self.standing.mark = self.standing.mark.and(inner.request.query.mark);
        inner.statements.send(&mut inner.request.query)?;
        inner.socket.talk.expect();
        inner.is_left = true;
        Ok(())
    }

    /// Whether the answer to a check is the right one.
    pub(crate) fn passes(&mut self, answer: Answer) -> Result<(), PostgresError>
        ensures { IsOk result → self.new.standing.session ≡ self.old.standing.session }
    {
        let probe = self.inner.probe;
        self.standing.passes(probe, answer.rows)
    }

    /// What asks the server to end the query that was left on it.
    pub(crate) fn cancel(&mut self) -> Option<Cancel> {
        let inner = &mut *self.inner;
        if !inner.is_left {
            return None;
        }
        Some(Cancel {
            peer: inner.socket.peer()?,
            key: inner.key.take()?,
        })
    }

    /// Comes back from a caller. Whether it may be lent on: to a caller who finds no transaction,
    /// and the session as it began, or as the mode says. What ends the session is sent, as far as
    /// the socket takes it at once; nothing waits.
    pub(crate) fn come_back(&mut self, reset: Reset) -> bool
        ensures broken { self.old.standing.session ≡ Session.Broken → IsFalse result }
        ensures idle { IsTrue result → self.new.standing.session ≡ Session.Idle }
        ensures rolled_back { IsTrue result → self.old.standing.session ≢ Session.Idle →
            0 < self.new.standing.resetting }
        ensures marked { IsTrue result → reset ≡ Reset.IfMarked →
            (self.new.standing.mark ≡ Mark.Plain) ⊎ (0 < self.new.standing.resetting) }
        ensures always { IsTrue result → reset ≡ Reset.Always →
            0 < self.new.standing.resetting }
    {
        let is_kept = self.end_session(reset).is_ok();
        if !is_kept {
            self.standing.session = Session::Broken;
        }
        is_kept
    }

    fn end_session(&mut self, reset: Reset) -> Result<(), PostgresError>
        ensures broken { self.old.standing.session ≡ Session.Broken → IsErr result }
        ensures idle { IsOk result → self.new.standing.session ≡ Session.Idle }
        ensures rolled_back { IsOk result → self.old.standing.session ≢ Session.Idle →
            0 < self.new.standing.resetting }
        ensures marked { IsOk result → reset ≡ Reset.IfMarked →
            (self.new.standing.mark ≡ Mark.Plain) ⊎ (0 < self.new.standing.resetting) }
        ensures always { IsOk result → reset ≡ Reset.Always →
            0 < self.new.standing.resetting }
    {
        let inner = &mut *self.inner;
        let (alloc, deadline) = (inner.rt.alloc(), inner.patience.deadline);
        // (What comes of a reset is read by the next query.)
        if self.standing.resetting == 0 {
            inner.socket.must_be_still_quiet(deadline)?;
        }
        if self.standing.is_due(reset) {
            inner.statements.forget();
        }
        let talk = &mut inner.socket.talk;
        let requests = self.standing.come_back(alloc, talk, reset)?;
        if requests.is_empty() {
            return Ok(());
        }
        inner.socket.send_now(requests.as_slice(), deadline)
    }
}

impl Inner {
    // The time for a request begins.
    fn begin(&mut self) {
        self.patience.begin(self.request.timeout);
    }

    // Sends what of the request was not sent yet, and reads its answer.
    fn poll_asked(&mut self, cx: &mut Context<'_>) -> Poll<Result<Answer, PostgresError>>
        ensures armed { OnPending result (IsArmed cx.new) }
        ensures kept { Keeps cx.old cx.new }
    {
        let deadline = self.patience.deadline;
        let request = &mut self.request;
        let (bytes, sent) = (request.query.request.as_slice(), &mut request.sent);
        if let Err(error) = ready!(self.socket.poll_send(bytes, sent, deadline, cx)) {
            return Poll::Ready(Err(error));
        }
        self.poll_answer(cx)
    }

    fn poll_answer(&mut self, cx: &mut Context<'_>) -> Poll<Result<Answer, PostgresError>>
        ensures armed { OnPending result (IsArmed cx.new) }
        ensures kept { Keeps cx.old cx.new }
    {
        let (limits, deadline) = (self.limits, self.patience.deadline);
        self.socket
            .poll_answer(&mut self.reading, limits, deadline, cx)
    }

    // Nobody waits for more, and the request may go.
    fn answered(&mut self, answer: &Answer) {
        self.is_left = false;
        self.statements.answered(&self.request.query, answer);
        self.request.query = Query::none(self.rt.alloc());
    }

    fn late(&self) -> PostgresError {
        self.socket.late(self.patience.deadline)
    }
}
