//! What fails.

use deadline::Deadline;
use postgres_codec::{CodecError, Fault, RequestError};
use std::alloc::{AllocError, Global};
use std::io;
use thiserror::Error;

/// Why a query or an opening failed. After each of these but `Refused`, `ZeroByte` and
/// `TooManyValues` the connection is broken.
#[derive(Debug, Drop, Error)]
pub enum PostgresError {
    #[error("{address}: {error}")]
    Io { address: String, error: io::Error },
    #[error("no answer in {millis} ms from {address}")]
    Timeout { address: String, millis: u128 },
    #[error("{address} closed the connection")]
    Closed { address: String },
    /// The server's own words, with control characters escaped, and its SQLSTATE. The connection is
    /// broken too where that is 25006, 57P01, 57P02, 57P03 or of class 08, or where the server says
    /// that this is the end.
    #[error("postgres: {text} (SQLSTATE {state})")]
    Refused { state: String, text: String },
    /// A login with a password. The server's words are left out: they may have that in them.
    #[error("postgres: the login was refused (SQLSTATE {state})")]
    Login { state: String },
    #[error("postgres: the server takes no writes")]
    ReadOnly,
    #[error("postgres: a message that is not understood")]
    Protocol,
    #[error("postgres: an answer is larger than the limits allow")]
    TooMuch,
    #[error("postgres: bytes came that nobody asked for")]
    Unasked,
    #[error("postgres: the session of an earlier caller could not be ended")]
    Reset,
    /// Nothing was sent.
    #[error("postgres: a query or a name has a zero byte in it")]
    ZeroByte,
    /// Nothing was sent.
    #[error("postgres: a query has more than 65535 values")]
    TooManyValues,
    #[error("postgres: the server asks for a password, and there is none")]
    NoPassword,
    #[error("postgres: the server asks for a kind of login that this client has not")]
    UnknownLogin,
    #[error("postgres: the server asked for no proof of the password")]
    NoProof,
    #[error("postgres: the server asks for MD5, by which it proves nothing itself")]
    Md5,
    #[error("postgres: the server's nonce does not go on from this login's")]
    ForeignNonce,
    #[error("postgres: the server asks for fewer rounds than 4096, or more than 1000000")]
    Rounds,
    #[error("postgres: the rounds of the login take too long")]
    SlowLogin,
    #[error("postgres: the server does not know the password itself")]
    UnknownServer,
    #[error("postgres: there are no random bytes: {0}")]
    Random(io::Error),
    /// An earlier query broke the connection.
    #[error("postgres: the connection is broken")]
    Broken,
    #[error(transparent)]
    Memory(#[from(alloc)] AllocError),
}

impl From<CodecError> for PostgresError {
    fn from(error: CodecError) -> PostgresError {
        match error {
            CodecError::Memory => PostgresError::Memory(AllocError),
            CodecError::Fault(Fault::Malformed) => PostgresError::Protocol,
            CodecError::Fault(Fault::TooMuch) => PostgresError::TooMuch,
            CodecError::Unasked => PostgresError::Unasked,
        }
    }
}

impl From<RequestError> for PostgresError {
    fn from(error: RequestError) -> PostgresError {
        match error {
            RequestError::Memory => PostgresError::Memory(AllocError),
            RequestError::ZeroByte => PostgresError::ZeroByte,
            RequestError::TooManyValues => PostgresError::TooManyValues,
            RequestError::TooMuch => PostgresError::TooMuch,
        }
    }
}

impl PostgresError {
    /// An error of the socket, with the server's address, and what it was that took too long.
    pub fn of_socket(
        alloc: Global,
        address: &str,
        deadline: Deadline,
        error: io::Error,
    ) -> PostgresError {
        let address = match String::from_str(alloc, address) {
            Ok(address) => address,
            Err(error) => return PostgresError::Memory(error),
        };
        match error.kind() {
            io::ErrorKind::TimedOut => PostgresError::Timeout {
                address,
                millis: deadline.millis(),
            },
            io::ErrorKind::UnexpectedEof => PostgresError::Closed { address },
            _ => PostgresError::Io { address, error },
        }
    }

    /// The SQLSTATE of a refusal, as `23505`.
    pub fn state(&self) -> Option<&str> {
        match self {
            PostgresError::Refused { state, .. } | PostgresError::Login { state } => {
                Some(state.as_str())
            }
            _ => None,
        }
    }
}
