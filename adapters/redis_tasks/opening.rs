//! The future of an opening.

ghost use Rattle.futures.specs.Task.{IsArmed, Keeps};
ghost use Rattle.futures.specs.Poll.{OnPending};

use crate::connection::TaskConnection;
use crate::socket::Socket;
use deadline::Deadline;
use futures::task::{Context, Poll};
use futures::{Future, ready};
use redis::{Greeting, RedisError, Settings, Standing};
use std::alloc::AllocError;
use std::io;
use std::sync::Arc;
use tokio::net::TcpStream;
use tokio::runtime::Handle;
use tokio_socket::{Dialing, Patience};

/// Connects to a server, and logs in. Dropped before its end, it closes the socket.
#[derive(Drop)]
pub struct Connect {
    made: Result<Opening, AllocError>,
}

impl Connect {
    pub(crate) fn begin(rt: HostRuntime, settings: &Arc<Settings>, handle: &Handle) -> Connect {
        Connect {
            made: Opening::new(rt, settings, handle),
        }
    }
}

impl Future for Connect {
    type Output = Result<TaskConnection, RedisError>;

    fn poll(&mut self, cx: &mut Context<'_>) -> Poll<Result<TaskConnection, RedisError>> {
        match &mut self.made {
            Ok(opening) => opening.poll_open(cx),
            Err(_) => Poll::Ready(Err(RedisError::Memory(AllocError))),
        }
    }
}

#[derive(Drop)]
struct Opening {
    rt: HostRuntime,
    settings: Arc<Settings>,
    handle: Handle,
    // Since its first poll.
    patience: Option<Patience>,
    dialing: Option<Dialing>,
    dialed: Option<Dialed>,
}

// A connection whose session has not begun.
#[derive(Drop)]
struct Dialed {
    socket: Socket,
    standing: Standing,
    greeting: Greeting,
    requests: Vec<u8>,
    sent: usize,
}

impl Opening {
    fn new(
        rt: HostRuntime,
        settings: &Arc<Settings>,
        handle: &Handle,
    ) -> Result<Opening, AllocError> {
        Ok(Opening {
            rt,
            settings: Arc::try_clone(settings)?,
            handle: handle.clone()?,
            patience: None,
            dialing: None,
            dialed: None,
        })
    }

    fn poll_open(&mut self, cx: &mut Context<'_>) -> Poll<Result<TaskConnection, RedisError>>
        ensures armed { OnPending result (IsArmed cx.new) }
        ensures kept { Keeps cx.old cx.new }
    {
        let mut patience = match self.patience.take() {
            Some(patience) => patience,
            None => match self.start() {
                Ok(patience) => patience,
                Err(error) => return Poll::Ready(Err(error)),
            },
        };
        let deadline = patience.deadline;
        let opened = match self.poll_steps(deadline, cx) {
            Poll::Pending if patience.poll_over(cx).is_ready() => {
                let late = io::Error::from(io::ErrorKind::TimedOut);
                Poll::Ready(Err(self.explained(deadline, late)))
            }
            opened => opened,
        };
        if opened.is_pending() {
            self.patience = Some(patience);
        }
        opened
    }

    // Its time begins. A name is looked up by the system.
    fn start(&mut self) -> Result<Patience, RedisError> {
        let timeout = self.settings.timeouts.connect;
        let patience = Patience::new(self.rt, self.handle.time(), timeout)?;
        let address = self.settings.address.as_str();
        match Dialing::by_name(self.rt, &self.handle, address) {
            Ok(dialing) => {
                self.dialing = Some(dialing);
                Ok(patience)
            }
            Err(error) => Err(self.explained(patience.deadline, error)),
        }
    }

    fn poll_steps(
        &mut self,
        deadline: Deadline,
        cx: &mut Context<'_>,
    ) -> Poll<Result<TaskConnection, RedisError>>
        ensures armed { OnPending result (IsArmed cx.new) }
        ensures kept { Keeps cx.old cx.new }
    {
        if self.dialed.is_none() {
            let dialed = match ready!(self.poll_dial(deadline, cx)) {
                Ok(stream) => self.greet(stream),
                Err(error) => Err(self.explained(deadline, error)),
            };
            match dialed {
                Ok(dialed) => self.dialed = Some(dialed),
                Err(error) => return Poll::Ready(Err(error)),
            }
        }
        if let Err(error) = ready!(self.poll_greeting(deadline, cx)) {
            return Poll::Ready(Err(error));
        }
        Poll::Ready(self.opened())
    }

    fn poll_dial(&mut self, deadline: Deadline, cx: &mut Context<'_>) -> Poll<io::Result<TcpStream>>
        ensures armed { OnPending result (IsArmed cx.new) }
        ensures kept { Keeps cx.old cx.new }
    {
        match &mut self.dialing {
            Some(dialing) => dialing.poll_dial(deadline, cx),
            None => Poll::Ready(Err(io::Error::from(io::ErrorKind::NotFound))),
        }
    }

    // What is sent first.
    fn greet(&self, stream: TcpStream) -> Result<Dialed, RedisError> {
        let (alloc, settings) = (self.rt.alloc(), &*self.settings);
        let address = settings.address.as_str();
        let mut socket = Socket::new(self.rt, stream, address, settings.limits)?;
        let mut requests = Vec::new(alloc);
        let greeting = Greeting::ask(alloc, settings, &mut socket.talk, &mut requests)?;
        Ok(Dialed {
            socket,
            standing: Standing::new(),
            greeting,
            requests,
            sent: 0,
        })
    }

    fn poll_greeting(
        &mut self,
        deadline: Deadline,
        cx: &mut Context<'_>,
    ) -> Poll<Result<(), RedisError>>
        ensures armed { OnPending result (IsArmed cx.new) }
        ensures kept { Keeps cx.old cx.new }
    {
        let alloc = self.rt.alloc();
        let Some(dialed) = &mut self.dialed else {
            return Poll::Ready(Err(RedisError::Broken));
        };
        let (bytes, sent) = (dialed.requests.as_slice(), &mut dialed.sent);
        if let Err(error) = ready!(dialed.socket.poll_send(bytes, sent, deadline, cx)) {
            return Poll::Ready(Err(error));
        }
        let answered = match ready!(dialed.socket.poll_receive(deadline, cx)) {
            Ok(items) => {
                let login = &self.settings.login;
                dialed
                    .greeting
                    .answered(alloc, login, &mut dialed.standing, items)
            }
            Err(error) => Err(error),
        };
        match answered {
            Ok(()) if dialed.greeting.is_over() => Poll::Ready(Ok(())),
            Ok(()) => cx.yield_now(),
            Err(error) => Poll::Ready(Err(error)),
        }
    }

    // What was said so far is how each session begins.
    fn opened(&mut self) -> Result<TaskConnection, RedisError> {
        let Some(mut dialed) = self.dialed.take() else {
            return Err(RedisError::Broken);
        };
        dialed.socket.talk.begin();
        Ok(TaskConnection::new(
            self.rt,
            self.handle.time().clone()?,
            dialed.socket,
            self.settings.timeouts,
            dialed.standing,
        ))
    }

    fn explained(&self, deadline: Deadline, error: io::Error) -> RedisError {
        let address = self.settings.address.as_str();
        RedisError::of_socket(self.rt.alloc(), address, deadline, error)
    }
}
