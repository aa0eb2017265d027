//! The socket: what waits, and for how long.

use crate::error::PostgresError;
use deadline::{Deadline, Place, is_quiet};
use std::alloc::{AllocError, Global};
use std::io;
use std::io::{Read, Write};
use std::net::TcpStream;
use std::time::Duration;

#[derive(Drop)]
pub struct Socket {
    rt: HostRuntime,
    stream: TcpStream,
    address: String,
    place: Place,
    // How long a read and a write wait, as the system was told last.
    read_limit: Duration,
    write_limit: Duration,
}

impl Socket {
    /// Connects to a path, or to the first address of a name at which somebody listens. The look-up
    /// of the name has the system's own timeout.
    pub fn open(
        rt: HostRuntime,
        address: &str,
        deadline: Deadline,
    ) -> Result<Socket, PostgresError> {
        let path = path_of(rt.alloc(), address)?;
        match Place::connected(rt, path.as_deref().unwrap_or(address), deadline) {
            Ok((stream, place)) => Socket::over(rt, stream, address, place),
            Err(error) => Err(PostgresError::of_socket(rt.alloc(), address, deadline, error)),
        }
    }

    /// Another one to the same server, not only to the same name.
    pub fn beside(&self, deadline: Deadline) -> Result<Socket, PostgresError> {
        match self.place.connect(self.rt, deadline) {
            Ok(stream) => {
                let place = self.place.try_clone(self.rt.alloc())?;
                Socket::over(self.rt, stream, self.address.as_str(), place)
            }
            Err(error) => Err(self.explained(deadline, error)),
        }
    }

    fn over(
        rt: HostRuntime,
        stream: TcpStream,
        address: &str,
        place: Place,
    ) -> Result<Socket, PostgresError> {
        Ok(Socket {
            rt,
            stream,
            address: String::from_str(rt.alloc(), address)?,
            place,
            read_limit: Duration::MAX,
            write_limit: Duration::MAX,
        })
    }

    /// Sends all of it.
    pub fn send(&mut self, bytes: &[u8], deadline: Deadline) -> Result<(), PostgresError> {
        match self.write_by(bytes, deadline) {
            Ok(()) => Ok(()),
            Err(error) => Err(self.explained(deadline, error)),
        }
    }

    /// Waits for bytes, and says how many came.
    pub fn receive(
        &mut self,
        piece: &mut [u8],
        deadline: Deadline,
    ) -> Result<usize, PostgresError> {
        match self.read_by(piece, deadline) {
            Ok(count) => Ok(count),
            Err(error) => Err(self.explained(deadline, error)),
        }
    }

    /// Looks whether bytes came, or the end of the stream, and waits for neither.
    pub fn must_be_quiet(&mut self, deadline: Deadline) -> Result<(), PostgresError> {
        match is_quiet(&self.stream) {
            Ok(true) => Ok(()),
            Ok(false) => Err(PostgresError::Unasked),
            Err(error) => Err(self.explained(deadline, error)),
        }
    }

    // A read waits for no longer than is left, but for a twentieth of the whole: so the system need
    // not be told anew for each. The other twentieth of what a call may overrun is for a cancel.
    fn read_by(&mut self, piece: &mut [u8], deadline: Deadline) -> io::Result<usize> {
        for _ in 0..u64::MAX {
            let left = deadline.left(self.rt)?;
            if self.read_limit > left.saturating_add(deadline.tenth() / 2) {
                self.stream.set_read_timeout(Some(left))?;
                self.read_limit = left;
            }
            match self.stream.read(piece) {
                Ok(0) => return Err(io::Error::from(io::ErrorKind::UnexpectedEof)),
                Err(error) if may_go_on(&error) => self.read_limit = Duration::MAX,
                done => return done,
            }
        }
        Err(io::Error::from(io::ErrorKind::TimedOut))
    }

    fn write_by(&mut self, bytes: &[u8], deadline: Deadline) -> io::Result<()> {
        let mut rest = bytes;
        for _ in 0..u64::MAX {
            if rest.is_empty() {
                return Ok(());
            }
            let left = deadline.left(self.rt)?;
            if self.write_limit > left.saturating_add(deadline.tenth() / 2) {
                self.stream.set_write_timeout(Some(left))?;
                self.write_limit = left;
            }
            match self.stream.write(rest) {
                Ok(count) => rest = &rest[count..],
                Err(error) if may_go_on(&error) => self.write_limit = Duration::MAX,
                Err(error) => return Err(error),
            }
        }
        Err(io::Error::from(io::ErrorKind::TimedOut))
    }

    fn explained(&self, deadline: Deadline, error: io::Error) -> PostgresError {
        PostgresError::of_socket(self.rt.alloc(), self.address.as_str(), deadline, error)
    }
}

// The path of a socket that is named by its folder and its port, as libpq has it.
fn path_of(alloc: Global, address: &str) -> Result<Option<String>, AllocError> {
    match address.rsplit_once(':') {
        Some((folder, port)) if folder.starts_with('/') && port.parse::<u16>().is_ok() => {
            Ok(Some(format!(in alloc; "{folder}/.s.PGSQL.{port}")?))
        }
        _ => Ok(None),
    }
}

// Whether a read or a write may succeed when it is tried again, if there is time.
fn may_go_on(error: &io::Error) -> bool {
    matches!(
        error.kind(),
        io::ErrorKind::WouldBlock | io::ErrorKind::TimedOut | io::ErrorKind::Interrupted
    )
}
