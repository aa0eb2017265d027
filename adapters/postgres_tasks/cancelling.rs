//! What asks a server to end the queries that were left on connections: none who leaves one waits
//! for that. It is asked before another connection is opened.

ghost use Rattle.futures.specs.Task.{IsArmed, Keeps};
ghost use Rattle.futures.specs.Poll.{OnPending};

use deadline::Deadline;
use futures::ready;
use futures::spin::lock;
use futures::task::{Context, Poll};
use std::alloc::{AllocError, Global};
use std::net::SocketAddr;
use std::sync::{Arc, Mutex};
use std::time::Duration;
use tokio::runtime::Handle;
use tokio_socket::{Dialing, Patience, Socket};

/// How many may be left at most: those beyond are not cancelled.
const MOST: usize = 64;
/// A server that lives takes them at once: so many milliseconds it takes on a busy machine alone.
const WAIT: u64 = 200;

/// The query of a connection, by what the server named that.
#[derive(Drop)]
pub struct Cancel {
    pub peer: SocketAddr,
    pub key: Vec<u8>,
}

/// Those that were left, and not cancelled yet.
#[derive(Drop)]
pub struct Cancels {
    alloc: Global,
    left: Mutex<Vec<Cancel>>,
}

impl Cancels {
    pub fn new(alloc: Global) -> Cancels {
        Cancels {
            alloc,
            left: Mutex::new(Vec::new(alloc)),
        }
    }

    /// Adds one, where there is room.
    pub fn add(&self, cancel: Cancel) {
        if let Some(mut left) = lock(&self.left) {
            if left.len() < MOST {
                left.push(cancel).ok();
            }
        }
    }

    // Takes all.
    fn take(&self) -> Vec<Cancel> {
        let mut taken = Vec::new(self.alloc);
        if let Some(mut left) = lock(&self.left) {
            std::mem::swap(&mut *left, &mut taken);
        }
        taken
    }
}

/// Cancels those that were left until now, one after the other. What fails is left alone.
#[derive(Drop)]
pub struct Cancelling {
    rt: HostRuntime,
    handle: Handle,
    patience: Patience,
    left: Vec<Cancel>,
    asking: Option<Asking>,
}

// A connection for one of them, and the bytes that ask.
#[derive(Drop)]
struct Asking {
    dialing: Dialing,
    socket: Option<Socket>,
    request: Vec<u8>,
    sent: usize,
}

impl Cancelling {
    pub fn begin(
        rt: HostRuntime,
        handle: &Handle,
        cancels: &Arc<Cancels>,
    ) -> Result<Cancelling, AllocError> {
        Ok(Cancelling {
            rt,
            handle: handle.clone()?,
            patience: Patience::new(rt, handle.time(), Duration::from_millis(WAIT))?,
            left: cancels.take(),
            asking: None,
        })
    }

    /// Ready once all were asked for, or the time for that is over.
    pub fn poll_over(&mut self, cx: &mut Context<'_>) -> Poll<()>
        ensures armed { OnPending result (IsArmed cx.new) }
        ensures kept { Keeps cx.old cx.new }
    {
        if self.asking.is_none() {
            let Some(cancel) = self.left.pop() else {
                return Poll::Ready(());
            };
            self.asking = self.ask(cancel);
        }
        let deadline = self.patience.deadline;
        let asked = match &mut self.asking {
            Some(asking) => asking.poll_sent(self.rt, deadline, cx),
            None => Poll::Ready(()),
        };
        if asked.is_pending() {
            return self.patience.poll_over(cx);
        }
        self.asking = None;
        cx.yield_now()
    }

    fn ask(&self, cancel: Cancel) -> Option<Asking> {
        let request = postgres_codec::cancel(self.rt.alloc(), cancel.key.as_slice()).ok()?;
        Some(Asking {
            dialing: Dialing::to(self.rt, &self.handle, cancel.peer).ok()?,
            socket: None,
            request,
            sent: 0,
        })
    }
}

impl Asking {
    // (The server reads what was sent though nobody waits for it.)
    fn poll_sent(&mut self, rt: HostRuntime, deadline: Deadline, cx: &mut Context<'_>) -> Poll<()>
        ensures armed { OnPending result (IsArmed cx.new) }
        ensures kept { Keeps cx.old cx.new }
    {
        if self.socket.is_none() {
            let dialed = ready!(self.dialing.poll_dial(deadline, cx));
            self.socket = match dialed {
                Ok(stream) => Socket::new(rt, stream).ok(),
                Err(_) => return Poll::Ready(()),
            };
        }
        let (request, sent) = (self.request.as_slice(), &mut self.sent);
        if let Some(socket) = &mut self.socket {
            let _ = ready!(socket.poll_send(request, sent, cx));
        }
        Poll::Ready(())
    }
}
