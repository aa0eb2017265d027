//! The socket: what waits, and for how long.

use crate::error::RedisError;
use deadline::{Deadline, Place, is_quiet};
use std::io;
use std::io::{Read, Write};
use std::net::TcpStream;
use std::time::Duration;

#[derive(Drop)]
pub struct Socket {
    rt: HostRuntime,
    stream: TcpStream,
    address: String,
    // How long a read and a write wait, as the system was told last.
    read_limit: Duration,
    write_limit: Duration,
}

impl Socket {
    /// Connects to a path, or to the first address of a name at which somebody listens. The look-up
    /// of the name has the system's own timeout.
    pub fn open(rt: HostRuntime, address: &str, deadline: Deadline) -> Result<Socket, RedisError> {
        match Place::connected(rt, address, deadline) {
            Ok((stream, _)) => Ok(Socket {
                rt,
                stream,
                address: String::from_str(rt.alloc(), address)?,
                read_limit: Duration::MAX,
                write_limit: Duration::MAX,
            }),
            Err(error) => Err(RedisError::of_socket(rt.alloc(), address, deadline, error)),
        }
    }

    /// Sends all of it.
    pub fn send(&mut self, bytes: &[u8], deadline: Deadline) -> Result<(), RedisError> {
        match self.write_by(bytes, deadline) {
            Ok(()) => Ok(()),
            Err(error) => Err(self.explained(deadline, error)),
        }
    }

    /// Waits for bytes, and says how many came.
    pub fn receive(&mut self, piece: &mut [u8], deadline: Deadline) -> Result<usize, RedisError> {
        match self.read_by(piece, deadline) {
            Ok(count) => Ok(count),
            Err(error) => Err(self.explained(deadline, error)),
        }
    }

    /// Looks whether bytes came, or the end of the stream, and waits for neither.
    pub fn must_be_quiet(&mut self, deadline: Deadline) -> Result<(), RedisError> {
        match is_quiet(&self.stream) {
            Ok(true) => Ok(()),
            Ok(false) => Err(RedisError::Unasked),
            Err(error) => Err(self.explained(deadline, error)),
        }
    }

    // A read waits for no longer than is left, but for a tenth of the whole: so the system need not
    // be told anew for each.
    fn read_by(&mut self, piece: &mut [u8], deadline: Deadline) -> io::Result<usize> {
        for _ in 0..u64::MAX {
            let left = deadline.left(self.rt)?;
            if self.read_limit > left.saturating_add(deadline.tenth()) {
                self.stream.set_read_timeout(Some(left))?;
                self.read_limit = left;
            }
            match self.stream.read(piece) {
                Ok(0) => return Err(io::Error::from(io::ErrorKind::UnexpectedEof)),
                Err(error) if may_go_on(&error) => self.read_limit = Duration::MAX,
                done => return done,
            }
        }
        Err(io::Error::from(io::ErrorKind::TimedOut))
    }

    fn write_by(&mut self, bytes: &[u8], deadline: Deadline) -> io::Result<()> {
        let mut rest = bytes;
        for _ in 0..u64::MAX {
            if rest.is_empty() {
                return Ok(());
            }
            let left = deadline.left(self.rt)?;
            if self.write_limit > left.saturating_add(deadline.tenth()) {
                self.stream.set_write_timeout(Some(left))?;
                self.write_limit = left;
            }
            match self.stream.write(rest) {
                Ok(count) => rest = &rest[count..],
                Err(error) if may_go_on(&error) => self.write_limit = Duration::MAX,
                Err(error) => return Err(error),
            }
        }
        Err(io::Error::from(io::ErrorKind::TimedOut))
    }

    fn explained(&self, deadline: Deadline, error: io::Error) -> RedisError {
        RedisError::of_socket(self.rt.alloc(), self.address.as_str(), deadline, error)
    }
}

// Whether a read or a write may succeed when it is tried again, if there is time.
fn may_go_on(error: &io::Error) -> bool {
    matches!(
        error.kind(),
        io::ErrorKind::WouldBlock | io::ErrorKind::TimedOut | io::ErrorKind::Interrupted
    )
}
