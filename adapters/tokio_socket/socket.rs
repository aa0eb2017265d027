//! A connection that is open. A poll reads or writes once, and lets other tasks run before it goes
//! on.

ghost use Rattle.futures.specs.Task.{IsArmed, Keeps};
ghost use Rattle.futures.specs.Poll.{OnPending};

use futures::ready;
use futures::task::{Context, Poll};
use std::alloc::AllocError;
use std::io;
use std::net::SocketAddr;
use std::time::{Duration, Instant};
use tokio::io::{AsyncRead, AsyncWrite};
use tokio::net::TcpStream;

const PIECE: usize = 16 * 1024;
/// For so many milliseconds what was seen of a socket is taken for what is to be seen.
const MOMENT: u64 = 1;

#[derive(Drop)]
pub struct Socket {
    rt: HostRuntime,
    stream: TcpStream,
    // What a read writes to.
    piece: Vec<u8>,
    // When all was read that had come; None where more may be there.
    emptied: Option<Instant>,
}

impl Socket {
    pub fn new(rt: HostRuntime, stream: TcpStream) -> Result<Socket, AllocError> {
        let mut piece = Vec::new(rt.alloc());
        piece.resize(PIECE, 0)?;
        Ok(Socket {
            rt,
            stream,
            piece,
            emptied: None,
        })
    }

    /// The server's address, not only its name.
    pub fn peer(&self) -> io::Result<SocketAddr> {
        self.stream.peer_addr()
    }

    /// Sends the bytes from a place on, and moves it. Ready once all are sent.
    pub fn poll_send(
        &mut self,
        bytes: &[u8],
        sent: &mut usize,
        cx: &mut Context<'_>,
    ) -> Poll<io::Result<()>>
        ensures armed { OnPending result (IsArmed cx.new) }
        ensures kept { Keeps cx.old cx.new }
    {
        let rest = match bytes.get(*sent..) {
            Some(rest) if !rest.is_empty() => rest,
            _ => return Poll::Ready(Ok(())),
        };
        match ready!(self.stream.poll_write(cx, rest)) {
            Ok(count) if count == rest.len() => {
                *sent = bytes.len();
                Poll::Ready(Ok(()))
            }
            Ok(count) => {
                *sent = sent.saturating_add(count);
                cx.yield_now()
            }
            Err(error) if error.kind() == io::ErrorKind::Interrupted => cx.yield_now(),
            Err(error) => Poll::Ready(Err(error)),
        }
    }

    /// Reads what is there, and says how many bytes came; the end of the stream is an error.
    pub fn poll_read(&mut self, cx: &mut Context<'_>) -> Poll<io::Result<usize>>
        ensures armed { OnPending result (IsArmed cx.new) }
        ensures kept { Keeps cx.old cx.new }
    {
        let done = ready!(self.stream.poll_read(cx, self.piece.as_mut_slice()));
        // (a read that is not filled has taken all)
        self.emptied = match done {
            Ok(count) if count > 0 && count < PIECE => Instant::now(&self.rt).ok(),
            _ => None,
        };
        match done {
            Ok(0) => Poll::Ready(Err(io::Error::from(io::ErrorKind::UnexpectedEof))),
            Err(error) if error.kind() == io::ErrorKind::Interrupted => Poll::Ready(Ok(0)),
            done => Poll::Ready(done),
        }
    }

    /// So many bytes that were read last.
    pub fn came(&self, count: usize) -> &[u8] {
        self.piece.as_slice().get(..count).unwrap_or(&[])
    }

    /// Sends what the system takes at once, which has to be all.
    pub fn send_now(&mut self, bytes: &[u8]) -> io::Result<()> {
        match self.stream.try_write(bytes) {
            Ok(count) if count == bytes.len() => Ok(()),
            Ok(_) => Err(io::Error::from(io::ErrorKind::WouldBlock)),
            Err(error) => Err(error),
        }
    }

    /// Looks whether no bytes came; the end of the stream is an error.
    pub fn is_quiet(&mut self) -> io::Result<bool> {
        let mut byte = [0; 1];
        self.emptied = None;
        match self.stream.try_read(&mut byte) {
            Err(error) if error.kind() == io::ErrorKind::WouldBlock => {
                self.emptied = Instant::now(&self.rt).ok();
                Ok(true)
            }
            Err(error) => Err(error),
            Ok(0) => Err(io::Error::from(io::ErrorKind::UnexpectedEof)),
            Ok(_) => Ok(false),
        }
    }

    /// The same, but that it does not look where all was read within the last millisecond.
    pub fn is_still_quiet(&mut self) -> io::Result<bool> {
        if self.was_emptied() {
            return Ok(true);
        }
        self.is_quiet()
    }

    // A moment ago. (With a clock that fails nobody knows.)
    fn was_emptied(&self) -> bool {
        let Some(emptied) = self.emptied else {
            return false;
        };
        match emptied.elapsed(&self.rt) {
            Ok(length) => length < Duration::from_millis(MOMENT),
            Err(_) => false,
        }
    }
}
