//! A port: its connections, each of which is served until the exchange that it has begun is over
//! once the end is told.

use crate::app::Port;
use bytes::Bytes;
use futures::channel::oneshot::{Receiver, Sender, channel};
use futures::future::Shared;
use futures::stream::FuturesUnordered;
use futures::task::{Context, Poll};
use futures::{Future, FutureExt, Stream, ready};
use http_body_util::Full;
use hyper::rt::TokioTimer;
use hyper::server::conn::http1::{Builder, Connection};
use hyper::server::graceful::{Graceful, until};
use r2d2::PoolRuntime;
use std::alloc::{AllocError, Global};
use std::cell::Cell;
use std::rc::Rc;
use tokio::net::{TcpListener, TcpStream};

/// How many connections a port has at most: more are left to the system until some have ended.
const MOST: usize = 400;

/// Tells the end, once.
#[derive(Drop)]
pub struct Ender {
    sender: Rc<Cell<Option<Sender<()>>>>,
    is_told: Rc<Cell<bool>>,
}

impl Ender {
    pub fn tell(&self) {
        self.is_told.set(true);
        if let Some(sender) = self.sender.replace(None) {
            // (Nobody may listen any more.)
            let _ = sender.send(());
        }
    }

    pub fn is_told(&self) -> bool {
        self.is_told.get()
    }
}

/// Ready once the end is told.
#[derive(Drop)]
pub struct Told {
    receiver: Receiver<()>,
}

impl Future for Told {
    type Output = ();

    fn poll(&mut self, cx: &mut Context<'_>) -> Poll<()> {
        let _ = ready!(self.receiver.poll(cx));
        Poll::Ready(())
    }
}

/// The same for each connection.
pub type Ending = Shared<Told, ()>;

/// Who tells the end, and who waits for that.
pub fn ending(alloc: Global) -> Result<(Ender, Ending), AllocError> {
    let (sender, receiver) = channel(alloc)?;
    let ender = Ender {
        sender: Rc::new(alloc, Cell::new(Some(sender)))?,
        is_told: Rc::new(alloc, Cell::new(false))?,
    };
    Ok((ender, Told { receiver }.shared(alloc)?))
}

type Served<R> = Graceful<Connection<TcpStream, Port<R>, Full<Bytes>, TokioTimer<R>>, Ending>;

/// The future of a port. It is ready once the end is told and each connection is closed.
#[derive(Drop)]
pub struct Server<R: PoolRuntime> {
    // None once the end is told.
    listener: Option<TcpListener>,
    http: Builder<TokioTimer<R>>,
    port: Port<R>,
    ending: Ending,
    connections: FuturesUnordered<Served<R>>,
}

impl<R: PoolRuntime> Server<R> {
    pub fn new(
        alloc: Global,
        listener: TcpListener,
        http: Builder<TokioTimer<R>>,
        port: Port<R>,
        ending: &Ending,
    ) -> Result<Server<R>, AllocError> {
        Ok(Server {
            listener: Some(listener),
            http,
            port,
            ending: ending.clone()?,
            connections: FuturesUnordered::new(alloc)?,
        })
    }

    // Takes in who has come. Where there is no memory for one, its connection is closed.
    fn accept(&mut self, cx: &mut Context<'_>) {
        let room = MOST.saturating_sub(self.connections.len());
        for _ in 0..room {
            let Some(listener) = &mut self.listener else {
                return;
            };
            match listener.poll_accept(cx) {
                Poll::Ready(Ok((stream, _))) => drop(self.serve(stream)),
                Poll::Ready(Err(_)) => {}
                Poll::Pending => return,
            }
        }
    }

    fn serve(&mut self, stream: TcpStream) -> Result<(), AllocError> {
        // (What is not sent at once is sent all the same.)
        let _ = stream.set_nodelay(true);
        let connection = self.http.serve_connection(stream, self.port.try_clone()?);
        let served = until(connection, self.ending.clone()?);
        self.connections.push(served).map_err(|_| AllocError)
    }
}

impl<R: PoolRuntime> Future for Server<R> {
    type Output = ();

    fn poll(&mut self, cx: &mut Context<'_>) -> Poll<()> {
        if self.listener.is_some() && self.ending.poll(cx).is_ready() {
            self.listener = None;
        }
        self.accept(cx);
        match self.connections.poll_next(cx) {
            // There may be room for others.
            Poll::Ready(Some(_)) => cx.yield_now(),
            Poll::Ready(None) if self.listener.is_none() => Poll::Ready(()),
            _ => Poll::Pending,
        }
    }
}
