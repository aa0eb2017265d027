//! What is refused in the URL of a server.

use std::alloc::AllocError;
use thiserror::Error;

/// Which part of a URL is not taken. None has the text itself, since that has a password in it.
#[derive(Debug, Drop, Error)]
pub enum UrlError {
    #[error("no URL of a server can be read")]
    Unreadable,
    /// Another service, or another way to it.
    #[error("the URL's scheme is of no such server")]
    Scheme,
    #[error("the URL asks for TLS, which there is not")]
    Tls,
    #[error("the URL names no host")]
    Host,
    /// A user without a password where both are wanted, or none where one is; or a text that is not
    /// of UTF-8.
    #[error("the URL's user and password are no login")]
    Login,
    #[error("the URL's database is none")]
    Database,
    #[error("the URL's parameter {0} is not known")]
    Parameter(String),
    #[error("the URL's parameter {0} has no such value")]
    Value(String),
    #[error("the URL has a fragment")]
    Fragment,
    #[error(transparent)]
    Memory(#[from(alloc)] AllocError),
}
