//! The future of an opening.

ghost use Rattle.futures.specs.Task.{IsArmed, Keeps};
ghost use Rattle.futures.specs.Poll.{OnPending};

use crate::cancelling::{Cancelling, Cancels};
use crate::connection::TaskConnection;
use crate::socket::Socket;
use deadline::Deadline;
use futures::task::{Context, Poll};
use futures::{Future, ready};
use postgres::{Begun, Greeting, Login, Next, PostgresError, Settings};
use std::alloc::AllocError;
use std::io;
use std::sync::Arc;
use tokio::net::TcpStream;
use tokio::runtime::Handle;
use tokio_socket::{Dialing, Patience};

/// Cancels what was left on earlier connections, connects to a server, and logs in. Dropped before
/// its end, it closes the socket.
#[derive(Drop)]
pub struct Connect {
    // (a worker, which has it, is moved at each of its polls)
    made: Result<Box<Opening>, AllocError>,
}

impl Connect {
    pub(crate) fn begin(
        rt: HostRuntime,
        settings: &Arc<Settings>,
        handle: &Handle,
        cancels: &Arc<Cancels>,
    ) -> Connect {
        Connect {
            made: Opening::new(rt, settings, handle, cancels),
        }
    }
}

impl Future for Connect {
    type Output = Result<TaskConnection, PostgresError>;

    fn poll(&mut self, cx: &mut Context<'_>) -> Poll<Result<TaskConnection, PostgresError>> {
        match &mut self.made {
            Ok(opening) => opening.poll_open(cx),
            Err(_) => Poll::Ready(Err(PostgresError::Memory(AllocError))),
        }
    }
}

#[derive(Drop)]
struct Opening {
    rt: HostRuntime,
    settings: Arc<Settings>,
    handle: Handle,
    cancels: Arc<Cancels>,
    // Since its first poll.
    patience: Option<Patience>,
    cancelling: Option<Cancelling>,
    dialing: Option<Dialing>,
    dialed: Option<Dialed>,
}

// A connection whose session has not begun, and what is sent next.
#[derive(Drop)]
struct Dialed {
    socket: Socket,
    greeting: Greeting,
    request: Vec<u8>,
    sent: usize,
}

impl Opening {
    fn new(
        rt: HostRuntime,
        settings: &Arc<Settings>,
        handle: &Handle,
        cancels: &Arc<Cancels>,
    ) -> Result<Box<Opening>, AllocError> {
        let opening = Opening {
            rt,
            settings: Arc::try_clone(settings)?,
            handle: handle.clone()?,
            cancels: Arc::try_clone(cancels)?,
            patience: None,
            cancelling: None,
            dialing: None,
            dialed: None,
        };
        Ok(Box::new(rt.alloc(), opening)?)
    }

    fn poll_open(&mut self, cx: &mut Context<'_>) -> Poll<Result<TaskConnection, PostgresError>>
        ensures armed { OnPending result (IsArmed cx.new) }
        ensures kept { Keeps cx.old cx.new }
    {
        let mut patience = match self.patience.take() {
            Some(patience) => patience,
            None => match self.start() {
                Ok(patience) => patience,
                Err(error) => return Poll::Ready(Err(error)),
            },
        };
        let deadline = patience.deadline;
        let opened = match self.poll_steps(deadline, cx) {
            Poll::Pending if patience.poll_over(cx).is_ready() => {
                Poll::Ready(Err(self.late(deadline)))
            }
            opened => opened,
        };
        if opened.is_pending() {
            self.patience = Some(patience);
        }
        opened
    }

    // Its time begins. A name is looked up by the system.
    fn start(&mut self) -> Result<Patience, PostgresError> {
        let timeout = self.settings.timeouts.connect;
        let patience = Patience::new(self.rt, self.handle.time(), timeout)?;
        let cancelling = Cancelling::begin(self.rt, &self.handle, &self.cancels)?;
        self.cancelling = Some(cancelling);
        let address = self.settings.address.as_str();
        match Dialing::by_name(self.rt, &self.handle, address) {
            Ok(dialing) => {
                self.dialing = Some(dialing);
                Ok(patience)
            }
            Err(error) => Err(self.explained(patience.deadline, error)),
        }
    }

    fn poll_steps(
        &mut self,
        deadline: Deadline,
        cx: &mut Context<'_>,
    ) -> Poll<Result<TaskConnection, PostgresError>>
        ensures armed { OnPending result (IsArmed cx.new) }
        ensures kept { Keeps cx.old cx.new }
    {
        if let Some(cancelling) = &mut self.cancelling {
            ready!(cancelling.poll_over(cx));
            self.cancelling = None;
        }
        if self.dialed.is_none() {
            let dialed = match ready!(self.poll_dial(deadline, cx)) {
                Ok(stream) => self.greet(stream),
                Err(error) => Err(self.explained(deadline, error)),
            };
            match dialed {
                Ok(dialed) => self.dialed = Some(dialed),
                Err(error) => return Poll::Ready(Err(error)),
            }
        }
        match ready!(self.poll_greeting(deadline, cx)) {
            Ok(begun) => Poll::Ready(self.opened(begun)),
            Err(error) => Poll::Ready(Err(error)),
        }
    }

    fn poll_dial(&mut self, deadline: Deadline, cx: &mut Context<'_>) -> Poll<io::Result<TcpStream>>
        ensures armed { OnPending result (IsArmed cx.new) }
        ensures kept { Keeps cx.old cx.new }
    {
        match &mut self.dialing {
            Some(dialing) => dialing.poll_dial(deadline, cx),
            None => Poll::Ready(Err(io::Error::from(io::ErrorKind::NotFound))),
        }
    }

    // What is sent first.
    fn greet(&self, stream: TcpStream) -> Result<Dialed, PostgresError> {
        let settings = &*self.settings;
        let address = settings.address.as_str();
        let mut socket = Socket::new(self.rt, stream, address, Greeting::MOST)?;
        let (greeting, request) = Greeting::ask(self.rt, &settings.login)?;
        socket.talk.expect();
        Ok(Dialed {
            socket,
            greeting,
            request,
            sent: 0,
        })
    }

    fn poll_greeting(
        &mut self,
        deadline: Deadline,
        cx: &mut Context<'_>,
    ) -> Poll<Result<Begun, PostgresError>>
        ensures armed { OnPending result (IsArmed cx.new) }
        ensures kept { Keeps cx.old cx.new }
    {
        let Some(dialed) = &mut self.dialed else {
            return Poll::Ready(Err(PostgresError::Broken));
        };
        let next = if dialed.greeting.is_proving() {
            dialed.prove()
        } else {
            ready!(dialed.poll_next(&self.settings.login, deadline, cx))
        };
        match next {
            Ok(Next::Begun(begun)) => Poll::Ready(Ok(begun)),
            Ok(Next::Send(bytes)) => {
                dialed.send(bytes);
                cx.yield_now()
            }
            Ok(_) => cx.yield_now(),
            Err(error) => Poll::Ready(Err(error)),
        }
    }

    // What the server told of its settings so far is how each session begins.
    fn opened(&mut self, begun: Begun) -> Result<TaskConnection, PostgresError> {
        let Some(mut dialed) = self.dialed.take() else {
            return Err(PostgresError::Broken);
        };
        let settings = &*self.settings;
        dialed.socket.talk.take_mark();
        dialed.socket.talk.allow(settings.limits.bytes);
        TaskConnection::over(self.rt, self.handle.time(), settings, dialed.socket, begun)
    }

    fn late(&self, deadline: Deadline) -> PostgresError {
        match &self.dialed {
            Some(dialed) if dialed.greeting.is_proving() => PostgresError::SlowLogin,
            _ => self.explained(deadline, io::Error::from(io::ErrorKind::TimedOut)),
        }
    }

    fn explained(&self, deadline: Deadline, error: io::Error) -> PostgresError {
        let address = self.settings.address.as_str();
        PostgresError::of_socket(self.rt.alloc(), address, deadline, error)
    }
}

impl Dialed {
    fn send(&mut self, bytes: Vec<u8>) {
        self.request = bytes;
        self.sent = 0;
    }

    // Some rounds of a proof, which take long: other tasks run between them.
    fn prove(&mut self) -> Result<Next, PostgresError> {
        match self.greeting.go_on()? {
            Some(bytes) => Ok(Next::Send(bytes)),
            None => Ok(Next::Prove),
        }
    }

    // Sends what is to be sent, and takes what the server says.
    fn poll_next(
        &mut self,
        login: &Login,
        deadline: Deadline,
        cx: &mut Context<'_>,
    ) -> Poll<Result<Next, PostgresError>>
        ensures armed { OnPending result (IsArmed cx.new) }
        ensures kept { Keeps cx.old cx.new }
    {
        let (bytes, sent) = (self.request.as_slice(), &mut self.sent);
        if let Err(error) = ready!(self.socket.poll_send(bytes, sent, deadline, cx)) {
            return Poll::Ready(Err(error));
        }
        match self.answered(login) {
            Ok(Next::Receive) => {}
            next => return Poll::Ready(next),
        }
        match ready!(self.socket.poll_feed(deadline, cx)) {
            Ok(()) => Poll::Ready(self.answered(login)),
            Err(error) => Poll::Ready(Err(error)),
        }
    }

    // What the messages ask for that came.
    fn answered(&mut self, login: &Login) -> Result<Next, PostgresError> {
        for _ in 0..u64::MAX {
            let Some(message) = self.socket.talk.next()? else {
                return Ok(Next::Receive);
            };
            match self.greeting.answered(login, message)? {
                Next::Receive => {}
                next => return Ok(next),
            }
        }
        Err(PostgresError::Protocol)
    }
}
