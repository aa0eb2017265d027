//! The way to a connection.

ghost use Rattle.futures.specs.Task.{IsArmed, Keeps};
ghost use Rattle.futures.specs.Poll.{OnPending};

use crate::patience::Patience;
use deadline::Deadline;
use futures::Future;
use futures::task::{Context, Poll};
use std::alloc::AllocError;
use std::io;
use std::net::{SocketAddr, ToSocketAddrs};
use tokio::net::{ConnectFuture, TcpStream};
use tokio::runtime::Handle;

/// Connects to the first address of a name at which somebody listens. Dropped before its end, it
/// closes the socket.
#[derive(Drop)]
pub struct Dialing {
    rt: HostRuntime,
    handle: Handle,
    // Those that were not tried yet, the next one last.
    addresses: Vec<SocketAddr>,
    attempt: Option<Attempt>,
}

// An address at which it is tried, and for how long.
#[derive(Drop)]
struct Attempt {
    connecting: ConnectFuture,
    patience: Patience,
}

impl Dialing {
    /// To a host and a port. A name is looked up by the system, at once.
    pub fn by_name(rt: HostRuntime, handle: &Handle, address: &str) -> io::Result<Dialing> {
        let mut dialing = Dialing::nowhere(rt, handle)?;
        for address in address.to_socket_addrs(&rt)? {
            dialing.addresses.push(address)?;
        }
        dialing.addresses.reverse();
        Ok(dialing)
    }

    /// To an address.
    pub fn to(
        rt: HostRuntime,
        handle: &Handle,
        address: SocketAddr,
    ) -> Result<Dialing, AllocError> {
        let mut dialing = Dialing::nowhere(rt, handle)?;
        dialing.addresses.push(address)?;
        Ok(dialing)
    }

    fn nowhere(rt: HostRuntime, handle: &Handle) -> Result<Dialing, AllocError> {
        Ok(Dialing {
            rt,
            handle: handle.clone()?,
            addresses: Vec::new(rt.alloc()),
            attempt: None,
        })
    }

    /// The connection, or why the last address has none.
    pub fn poll_dial(
        &mut self,
        deadline: Deadline,
        cx: &mut Context<'_>,
    ) -> Poll<io::Result<TcpStream>>
        ensures armed { OnPending result (IsArmed cx.new) }
        ensures kept { Keeps cx.old cx.new }
    {
        let mut attempt = match self.attempt.take() {
            Some(attempt) => attempt,
            None => match self.begin(deadline) {
                Ok(attempt) => attempt,
                Err(error) => return Poll::Ready(Err(error)),
            },
        };
        let dialed = match attempt.connecting.poll(cx) {
            Poll::Pending if attempt.patience.poll_over(cx).is_ready() => {
                Poll::Ready(Err(io::Error::from(io::ErrorKind::TimedOut)))
            }
            dialed => dialed,
        };
        match dialed {
            Poll::Ready(Err(error)) if self.addresses.is_empty() => Poll::Ready(Err(error)),
            Poll::Ready(Err(_)) => cx.yield_now(),
            Poll::Ready(Ok(stream)) => Poll::Ready(stream.set_nodelay(true).map(|()| stream)),
            Poll::Pending => {
                self.attempt = Some(attempt);
                Poll::Pending
            }
        }
    }

    // Begins at the next address. What is left of the time is shared by those that are left.
    fn begin(&mut self, deadline: Deadline) -> io::Result<Attempt> {
        let addresses = u32::try_from(self.addresses.len()).unwrap_or(u32::MAX);
        let Some(address) = self.addresses.pop() else {
            return Err(io::Error::from(io::ErrorKind::NotFound));
        };
        let share = deadline.left(self.rt)? / addresses.max(1);
        Ok(Attempt {
            connecting: TcpStream::connect(&self.rt, address, self.handle.reactor()),
            patience: Patience::new(self.rt, self.handle.time(), share)?,
        })
    }
}
