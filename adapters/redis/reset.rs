//! How a session ends as it began.

ghost use Rattle.std.specs.Prelude.{◌≤◌, IfOk, IsFalse};

use crate::error::RedisError;
use crate::reply::escaped;
use redis_codec::{Conversation, Item, Session};
use std::alloc::{AllocError, Global};

/// When a connection that comes back is reset. What a customizer has set is reset too.
#[derive(Clone, Copy, Debug, PartialEq, Eq)]
pub enum Reset {
    /// Never. It is closed where it came back in a transaction, with watched keys, a subscription
    /// or a MONITOR; what else a session keeps, as SELECT does, stays for the next caller.
    Never,
    /// Where the session differs from how it began.
    IfMarked,
    /// At each return.
    Always,
}

/// Who logs in, and where.
#[derive(Drop)]
pub struct Login {
    pub user: Option<String>,
    pub password: Option<String>,
    pub database: u32,
}

impl Login {
    /// The requests that log in, all to be sent at once, and how many they are.
    pub fn ask(
        &self,
        alloc: Global,
        talk: &mut Conversation,
        bytes: &mut Vec<u8>,
    ) -> Result<usize, AllocError>
        ensures { IfOk result (λ count. count ≤ 2) }
    {
        let user = self.ask_as_user(talk, bytes)?;
        let database = self.ask_for_database(alloc, talk, bytes)?;
        Ok(user + database)
    }

    fn ask_as_user(&self, talk: &mut Conversation, bytes: &mut Vec<u8>) -> Result<usize, AllocError>
        ensures { IfOk result (λ count. count ≤ 1) }
    {
        match (&self.user, &self.password) {
            (_, None) => return Ok(0),
            (None, Some(password)) => add(talk, bytes, &[b"AUTH", password.as_str().as_bytes()])?,
            (Some(user), Some(password)) => add(
                talk,
                bytes,
                &[
                    b"AUTH",
                    user.as_str().as_bytes(),
                    password.as_str().as_bytes(),
                ],
            )?,
        }
        Ok(1)
    }

    fn ask_for_database(
        &self,
        alloc: Global,
        talk: &mut Conversation,
        bytes: &mut Vec<u8>,
    ) -> Result<usize, AllocError>
        ensures { IfOk result (λ count. count ≤ 1) }
    {
        if self.database == 0 {
            return Ok(0);
        }
        self.select(alloc, talk, bytes)?;
        Ok(1)
    }

    fn select(
        &self,
        alloc: Global,
        talk: &mut Conversation,
        bytes: &mut Vec<u8>,
    ) -> Result<(), AllocError> {
        let database = format!(in alloc; "{}", self.database)?;
        add(talk, bytes, &[b"SELECT", database.as_str().as_bytes()])
    }

    /// The answer to one of them.
    pub fn must_be_taken(&self, alloc: Global, items: Vec<Item>) -> Result<(), RedisError> {
        match items.as_slice() {
            [Item::Word(_)] => Ok(()),
            [Item::Refusal(text)] => Err(RedisError::Refused(escaped(alloc, text.as_slice())?)),
            _ => Err(RedisError::Protocol),
        }
    }

    /// The error to return for one of the greeting. A server, or a proxy before it, may repeat what
    /// it was sent, or a part of it: so with a password only a refusal's first word is kept.
    pub fn told(&self, alloc: Global, error: RedisError) -> RedisError {
        match (error, &self.password) {
            (RedisError::Refused(text), Some(password)) => {
                let word = first_word(text.as_str(), password.as_str());
                match String::from_str(alloc, word) {
                    Ok(word) => RedisError::Login(word),
                    Err(error) => RedisError::Memory(error),
                }
            }
            (error, _) => error,
        }
    }

    /// The requests that bring a session back at a server that has RESET.
    pub fn ask_anew(
        &self,
        alloc: Global,
        talk: &mut Conversation,
        bytes: &mut Vec<u8>,
    ) -> Result<usize, AllocError> {
        add(talk, bytes, &[b"RESET"])?;
        let login = self.ask(alloc, talk, bytes)?;
        Ok(1 + login)
    }

    /// The same at an older one, part by part. Some of a session can't be brought back so.
    pub fn ask_in_parts(
        &self,
        alloc: Global,
        session: Session,
        talk: &mut Conversation,
        bytes: &mut Vec<u8>,
    ) -> Result<usize, RedisError> {
        if session.reply_mode || session.protocol || session.user && self.password.is_none() {
            return Err(RedisError::Reset);
        }
        let mut count = 0;
        if session.transaction {
            add(talk, bytes, &[b"DISCARD"])?;
            count += 1;
        }
        if session.watch {
            add(talk, bytes, &[b"UNWATCH"])?;
            count += 1;
        }
        if session.name {
            add(talk, bytes, &[b"CLIENT", b"SETNAME", b""])?;
            count += 1;
        }
        if session.user {
            count += self.ask_as_user(talk, bytes)?;
        }
        if session.database {
            self.select(alloc, talk, bytes)?;
            count += 1;
        }
        Ok(count)
    }
}

// The word that a refusal begins with, as WRONGPASS; `?` where that is no such word, or has to do
// with the password.
fn first_word<'a>(text: &'a str, password: &str) -> &'a str {
    let word = text.split(' ').next().unwrap_or("");
    let is_one = word.bytes().all(|byte| byte.is_ascii_uppercase());
    if is_one && !word.contains(password) && !password.contains(word) {
        word
    } else {
        "?"
    }
}

// A request more.
fn add(talk: &mut Conversation, bytes: &mut Vec<u8>, words: &[&[u8]]) -> Result<(), AllocError> {
    let request = talk.ask(words)?;
    bytes.extend_from_slice(request.as_slice())
}

/// Whether the server may send what nobody asked for, which no answer to a reset ends for sure; or
/// keeps a setting, of which servers forget some at a RESET and some not.
pub fn is_lasting(session: Session) -> bool {
    session.subscriptions || session.monitor || session.settings
}

/// Whether the next caller's commands may fare ill, where there is no reset.
pub fn is_left_open(session: Session) -> bool
    ensures { IsFalse result → IsFalse session.transaction × IsFalse session.watch
        × IsFalse session.subscriptions × IsFalse session.monitor }
{
    session.transaction || session.watch || session.subscriptions || session.monitor
}
