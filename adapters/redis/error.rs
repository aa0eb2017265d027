//! What fails.

use deadline::Deadline;
use redis_codec::{CodecError, Fault};
use std::alloc::{AllocError, Global};
use std::io;
use thiserror::Error;

/// Why a command or an opening failed. After each of these but `Refused` the connection is broken,
/// and after a refusal that begins with READONLY too.
#[derive(Debug, Drop, Error)]
pub enum RedisError {
    #[error("{address}: {error}")]
    Io { address: String, error: io::Error },
    #[error("no answer in {millis} ms from {address}")]
    Timeout { address: String, millis: u128 },
    #[error("{address} closed the connection")]
    Closed { address: String },
    /// The server's own words, with control characters escaped.
    #[error("redis: {0}")]
    Refused(String),
    /// A login with a password, by a refusal that begins with this word. The others are left out:
    /// they may have the password in them.
    #[error("redis: the login was refused ({0})")]
    Login(String),
    #[error("redis: the server is no primary")]
    Replica,
    #[error("redis: a reply that is not understood")]
    Protocol,
    #[error("redis: a reply is larger than the limits allow")]
    TooMuch,
    #[error("redis: bytes came that nobody asked for")]
    Unasked,
    #[error("redis: the session of an earlier caller could not be ended")]
    Reset,
    /// An earlier command broke the connection.
    #[error("redis: the connection is broken")]
    Broken,
    #[error(transparent)]
    Memory(#[from(alloc)] AllocError),
}

impl From<CodecError> for RedisError {
    fn from(error: CodecError) -> RedisError {
        match error {
            CodecError::Memory => RedisError::Memory(AllocError),
            CodecError::Fault(Fault::Malformed) => RedisError::Protocol,
            CodecError::Fault(Fault::TooMuch) => RedisError::TooMuch,
            CodecError::Unasked => RedisError::Unasked,
        }
    }
}

impl RedisError {
    /// An error of the socket, with the server's address, and what it was that took too long.
    pub fn of_socket(
        alloc: Global,
        address: &str,
        deadline: Deadline,
        error: io::Error,
    ) -> RedisError {
        let address = match String::from_str(alloc, address) {
            Ok(address) => address,
            Err(error) => return RedisError::Memory(error),
        };
        match error.kind() {
            io::ErrorKind::TimedOut => RedisError::Timeout {
                address,
                millis: deadline.millis(),
            },
            io::ErrorKind::UnexpectedEof => RedisError::Closed { address },
            _ => RedisError::Io { address, error },
        }
    }
}
