//! What a server says that was asked nothing.

use libc::net::{POLLIN, poll};
use libc::types::pollfd;
use std::io;
use std::net::TcpStream;
use std::os::fd::AsRawFd;

/// Whether no bytes came that are unread. It waits for none, and takes none; the end of the stream
/// is an error.
pub fn is_quiet(stream: &TcpStream) -> io::Result<bool> {
    // (one call of the system's, where nothing came)
    if reads_nothing(stream) {
        return Ok(true);
    }
    let mut byte = [0; 1];
    stream.set_nonblocking(true)?;
    let seen = stream.peek(&mut byte);
    stream.set_nonblocking(false)?;
    match seen {
        Err(error) if error.kind() == io::ErrorKind::WouldBlock => Ok(true),
        Err(error) => Err(error),
        Ok(0) => Err(io::Error::from(io::ErrorKind::UnexpectedEof)),
        Ok(_) => Ok(false),
    }
}

// Whether a read would have to wait for sure.
fn reads_nothing(stream: &TcpStream) -> bool {
    let mut asked = [pollfd {
        fd: stream.as_raw_fd(),
        events: POLLIN,
        revents: 0,
    }];
    poll(&mut asked, 0) == 0
}
