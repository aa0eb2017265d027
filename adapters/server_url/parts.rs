//! The parts of a server's URL, with what is escaped in them decoded.

ghost use Rattle.std.specs.Prelude.{◌≡◌, ◌++◌, IfOk, IfSome, IsSomeAnd, None, Ok, codes, decimal};
ghost use Rattle.std.specs.Prelude.{option_map, unwrap_or};
ghost use Rattle.std.specs.String.{string_bytes};
ghost use Rattle.percent_encoding.specs.Percent.{percent_decode};
ghost use Rattle.url.specs.Host.{host_text};
ghost use Rattle.url.specs.Parser.{parse_url};
ghost use Rattle.url.specs.Parts.{nonempty_host};

use crate::error::UrlError;
use percent_encoding::percent_decode;
use std::alloc::{AllocError, Global};
use url::{ParseError, Url};

/// A URL that was read.
#[derive(Drop)]
pub struct ServerUrl {
    alloc: Global,
    url: Url,
}

/// Who logs in.
#[derive(Drop)]
pub struct Login {
    pub user: Option<String>,
    pub password: Option<String>,
}

impl ServerUrl {
    /// Reads a text. One with a fragment is refused.
    pub fn parse(alloc: Global, text: &str) -> Result<ServerUrl, UrlError>
        ensures parts { IfOk result (λ it. parse_url None text.now ≡ Ok it.url) }
        ensures fragment { IfOk result (λ it. it.url.fragment ≡ None) }
    {
        let url = match Url::parse(alloc, text) {
            Ok(url) => url,
            Err(ParseError::OutOfMemory) => return Err(UrlError::Memory(AllocError)),
            Err(_) => return Err(UrlError::Unreadable),
        };
        if url.fragment().is_some() {
            return Err(UrlError::Fragment);
        }
        Ok(ServerUrl { alloc, url })
    }

    /// The scheme, in small letters.
    pub fn scheme(&self) -> &str
        ensures { result.now ≡ self.now.url.scheme }
    {
        self.url.scheme()
    }

    /// The host, where it names one.
    pub fn host(&self) -> Result<Option<String>, UrlError>
        ensures { IfOk result (λ found. IfSome found (λ host.
            IsSomeAnd (option_map host_text (nonempty_host self.now.url)) (λ text.
            string_bytes host ≡ percent_decode text))) }
    {
        match self.url.host_str() {
            None | Some("") => Ok(None),
            Some(host) => Ok(Some(decoded(self.alloc, host)?.ok_or(UrlError::Host)?)),
        }
    }

    /// The port, or this one, where it names none.
    pub fn port(&self, default: u16) -> u16
        ensures { result ≡ unwrap_or self.now.url.port default }
    {
        self.url.port().unwrap_or(default)
    }

    /// The host with the port, or with this one.
    pub fn address(&self, default_port: u16) -> Result<String, UrlError>
        ensures { IfOk result (λ address.
            IsSomeAnd (option_map host_text (nonempty_host self.now.url)) (λ text.
            string_bytes address ≡ percent_decode text ++ codes ":"
            ++ decimal (unwrap_or self.now.url.port default_port))) }
    {
        let host = self.host()?.ok_or(UrlError::Host)?;
        Ok(at_port(self.alloc, host.as_str(), self.port(default_port))?)
    }

    /// The user and the password; an empty one is none.
    pub fn login(&self) -> Result<Login, UrlError>
        ensures user { IfOk result (λ login. IfSome login.user
            (λ name. string_bytes name ≡ percent_decode self.now.url.username)) }
        ensures password { IfOk result (λ login. IfSome login.password
            (λ text. string_bytes text ≡ percent_decode self.now.url.password)) }
    {
        Ok(Login {
            user: self.name(self.url.username())?,
            password: self.name(self.url.password().unwrap_or(""))?,
        })
    }

    fn name(&self, text: &str) -> Result<Option<String>, UrlError>
        ensures { IfOk result (λ found. IfSome found
            (λ name. string_bytes name ≡ percent_decode text.now)) }
    {
        if text.is_empty() {
            return Ok(None);
        }
        Ok(Some(decoded(self.alloc, text)?.ok_or(UrlError::Login)?))
    }

    /// The path, with the stroke at its beginning, if it has one.
    pub fn path(&self) -> Result<String, UrlError>
        ensures { IfOk result (λ path. string_bytes path ≡ percent_decode self.now.url.path) }
    {
        decoded(self.alloc, self.url.path())?.ok_or(UrlError::Database)
    }

    /// The path without that stroke: the name of a database. None where that is empty.
    pub fn database(&self) -> Result<Option<String>, UrlError> {
        let path = self.path()?;
        let name = path.as_str();
        match name.strip_prefix('/').unwrap_or(name) {
            "" => Ok(None),
            name => Ok(Some(String::from_str(self.alloc, name)?)),
        }
    }

    /// The parameters, each a name and a value, in their order.
    pub fn parameters(&self) -> Result<Vec<(String, String)>, UrlError> {
        let mut found = Vec::new(self.alloc);
        for pair in self.url.query_pairs() {
            let (name, value) = pair?;
            let name = String::from_str(self.alloc, name.as_str())?;
            let value = String::from_str(self.alloc, value.as_str())?;
            found.push((name, value))?;
        }
        Ok(found)
    }
}

/// A host with a port.
pub fn at_port(alloc: Global, host: &str, port: u16) -> Result<String, AllocError>
    ensures { IfOk result (λ text.
        string_bytes text ≡ host.now ++ codes ":" ++ decimal port) }
{
    format!(in alloc; "{host}:{port}")
}

/// A number that is written by digits alone.
pub fn number(text: &str) -> Option<u32> {
    if text.bytes().all(|byte| byte.is_ascii_digit()) {
        text.parse::<u32>().ok()
    } else {
        None
    }
}

// None where it is no text of UTF-8.
fn decoded(alloc: Global, text: &str) -> Result<Option<String>, AllocError>
    ensures { IfOk result (λ found. IfSome found
        (λ text_of. string_bytes text_of ≡ percent_decode text.now)) }
{
    let mut bytes = Vec::new(alloc);
    percent_decode(text.as_bytes()).append_to(&mut bytes)?;
    Ok(String::from_utf8(bytes).ok())
}
