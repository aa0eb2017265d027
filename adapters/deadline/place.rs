//! Where a server is, and how to connect to it. The system's calls for a stream are the same
//! whether it is one of this machine's sockets.

use crate::Deadline;
use mio::net::UnixStream;
use std::alloc::{AllocError, Global};
use std::net::{SocketAddr, TcpStream, ToSocketAddrs};
use std::os::fd::OwnedFd;
use std::time::Duration;
use std::{io, thread};

/// After so long a socket of this machine whose queue is full is tried again.
const PAUSE_MILLIS: u64 = 5;

/// One of the addresses of a name, or the path of a socket of this machine.
#[derive(Drop)]
pub enum Place {
    Address(SocketAddr),
    Path(String),
}

impl Place {
    /// Connects to a path, or to the first address of a name at which somebody listens, and says
    /// where that is. The look-up of a name has the system's own timeout.
    pub fn connected(
        rt: HostRuntime,
        address: &str,
        deadline: Deadline,
    ) -> io::Result<(TcpStream, Place)> {
        if !address.starts_with('/') {
            return at_name(rt, address, deadline);
        }
        let place = Place::Path(String::from_str(rt.alloc(), address)?);
        Ok((place.connect(rt, deadline)?, place))
    }

    /// Connects to the same server, not only to the same name.
    pub fn connect(&self, rt: HostRuntime, deadline: Deadline) -> io::Result<TcpStream> {
        match self {
            Place::Address(address) => {
                TcpStream::connect_timeout(&rt, address, deadline.left(rt)?)
            }
            Place::Path(path) => at_path(rt, path.as_str(), deadline),
        }
    }

    /// The same place. The error is lack of memory.
    pub fn try_clone(&self, alloc: Global) -> Result<Place, AllocError> {
        Ok(match self {
            Place::Address(address) => Place::Address(*address),
            Place::Path(path) => Place::Path(String::from_str(alloc, path.as_str())?),
        })
    }
}

// (std waits without an end where the queue is full)
fn at_path(rt: HostRuntime, path: &str, deadline: Deadline) -> io::Result<TcpStream> {
    for _ in 0..u64::MAX {
        let left = deadline.left(rt)?;
        match UnixStream::connect(&rt, path) {
            Ok(stream) => {
                let stream = TcpStream::from(OwnedFd::from(stream));
                stream.set_nonblocking(false)?;
                return Ok(stream);
            }
            Err(error) if error.kind() == io::ErrorKind::WouldBlock => {
                thread::sleep(&rt, left.min(Duration::from_millis(PAUSE_MILLIS)));
            }
            Err(error) => return Err(error),
        }
    }
    Err(io::Error::from(io::ErrorKind::TimedOut))
}

fn at_name(rt: HostRuntime, name: &str, deadline: Deadline) -> io::Result<(TcpStream, Place)> {
    let mut addresses: Vec<SocketAddr> = Vec::new(rt.alloc());
    for address in name.to_socket_addrs(&rt)? {
        addresses.push(address)?;
    }
    let mut last = io::Error::from(io::ErrorKind::NotFound);
    let mut others = u32::try_from(addresses.len()).unwrap_or(u32::MAX);
    for address in addresses.as_slice() {
        // What is left is shared by the addresses that are left.
        let share = deadline.left(rt)? / others.max(1);
        others = others.saturating_sub(1);
        match TcpStream::connect_timeout(&rt, address, share) {
            Ok(stream) => {
                stream.set_nodelay(true)?;
                return Ok((stream, Place::Address(*address)));
            }
            Err(error) => last = error,
        }
    }
    Err(last)
}
