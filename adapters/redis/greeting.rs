//! How a session begins. A server that is full or stopped, or a proxy before it, may accept and
//! never answer: so an answer is waited for.

use crate::error::RedisError;
use crate::probe::Probe;
use crate::reset::{Login, Reset};
use crate::settings::Settings;
use crate::standing::Standing;
use redis_codec::{Conversation, Item};
use std::alloc::{AllocError, Global};

/// The requests of it, which go out together, and those of them that are not answered yet.
#[derive(Clone, Copy)]
pub struct Greeting {
    finds_reset: bool,
    logins: usize,
    probe: Option<Probe>,
}

impl Greeting {
    /// Asks them: they are appended to these bytes.
    pub fn ask(
        alloc: Global,
        settings: &Settings,
        talk: &mut Conversation,
        bytes: &mut Vec<u8>,
    ) -> Result<Greeting, AllocError> {
        let finds_reset = settings.reset != Reset::Never;
        if finds_reset {
            let request = talk.ask(&[b"RESET"])?;
            bytes.extend_from_slice(request.as_slice())?;
        }
        let logins = settings.login.ask(alloc, talk, bytes)?;
        let probe = settings.probe;
        let request = talk.ask(&[probe.word()])?;
        bytes.extend_from_slice(request.as_slice())?;
        Ok(Greeting {
            finds_reset,
            logins,
            probe: Some(probe),
        })
    }

    /// Whether all of them are answered.
    pub fn is_over(&self) -> bool {
        self.probe.is_none()
    }

    /// The next answer. With the last one the session has begun.
    pub fn answered(
        &mut self,
        alloc: Global,
        login: &Login,
        standing: &mut Standing,
        items: Vec<Item>,
    ) -> Result<(), RedisError> {
        match self.judged(alloc, login, standing, items) {
            Ok(()) => Ok(()),
            Err(error) => Err(login.told(alloc, error)),
        }
    }

    fn judged(
        &mut self,
        alloc: Global,
        login: &Login,
        standing: &mut Standing,
        items: Vec<Item>,
    ) -> Result<(), RedisError> {
        if self.finds_reset {
            self.finds_reset = false;
            return standing.find_reset(alloc, items);
        }
        if self.logins > 0 {
            self.logins -= 1;
            return login.must_be_taken(alloc, items);
        }
        match self.probe.take() {
            Some(probe) => standing.passes(alloc, probe, items),
            None => Err(RedisError::Unasked),
        }
    }
}
