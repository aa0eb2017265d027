//! How a connection stands, whoever waits for it: whether it is sound, and what is still owed.

ghost use Rattle.std.specs.Prelude.{◌≡◌, ◌<◌, ◌⊎◌, IfOk, IsErr, IsFalse, IsOk, IsTrue, length};
ghost use Rattle.redis_codec.specs.Sessions.{plain};

use crate::error::RedisError;
use crate::probe::Probe;
use crate::reply::{Reply, escaped};
use crate::reset::{Login, Reset, is_lasting, is_left_open};
use redis_codec::{Conversation, Item, Session};
use std::alloc::Global;

#[derive(Clone, Copy)]
pub struct Standing {
    /// Whether a command has not had its reply, and never will.
    pub is_broken: bool,
    /// How many answers to a reset were not read yet.
    pub resetting: usize,
    /// Whether the server has RESET.
    pub has_reset: bool,
}

impl Standing {
    /// That of a connection that was just opened.
    pub fn new() -> Standing
        ensures { IsFalse result.is_broken }
    {
        Standing {
            is_broken: false,
            resetting: 0,
            has_reset: false,
        }
    }

    /// The reply of these items. A server that may not write any more is none to stay at.
    pub fn replied(&mut self, alloc: Global, items: Vec<Item>) -> Result<Reply, RedisError>
        ensures broken { IsTrue self.old.is_broken → IsTrue self.new.is_broken }
        ensures ok { IsOk result → self.new.is_broken ≡ self.old.is_broken }
    {
        if let [Item::Refusal(text), ..] = items.as_slice() {
            if is_of_replica(items.as_slice()) {
                self.is_broken = true;
            }
            return Err(RedisError::Refused(escaped(alloc, text.as_slice())?));
        }
        match Reply::of(alloc, items) {
            Ok(reply) => Ok(reply),
            Err(error) => {
                self.is_broken = true;
                Err(error)
            }
        }
    }

    /// The replies of these answers, in their order: one that was refused is `Reply::Refused`. A
    /// server that may not write any more is none to stay at.
    pub fn replied_all(
        &mut self,
        alloc: Global,
        answers: Vec<Vec<Item>>,
    ) -> Result<Vec<Reply>, RedisError>
        ensures broken { IsTrue self.old.is_broken → IsTrue self.new.is_broken }
        ensures err { IsErr result → IsTrue self.new.is_broken }
        ensures count { IfOk result (λ replies. length replies.items ≡ length answers.items) }
    {
        let was_broken = self.is_broken;
        self.is_broken = true;
        let is_left = answers.iter().any(|items| is_of_replica(items.as_slice()));
        let replies = all_of(alloc, answers)?;
        self.is_broken = was_broken || is_left;
        Ok(replies)
    }

    /// The answer to what was asked. One that is refused is broken, but where it refuses a PING.
    pub fn passes(
        &mut self,
        alloc: Global,
        probe: Probe,
        items: Vec<Item>,
    ) -> Result<(), RedisError>
        ensures ok { IsOk result → self.new.is_broken ≡ self.old.is_broken }
        ensures ok_sound { IsFalse self.old.is_broken → IsOk result → IsFalse self.new.is_broken }
        ensures replica { probe ≡ Probe.Primary → IsErr result → IsTrue self.new.is_broken }
    {
        match probe {
            Probe::Alive => self.is_pong(alloc, items),
            Probe::Primary => self.is_primary(alloc, items),
        }
    }

    // The answer to a PING.
    fn is_pong(&mut self, alloc: Global, items: Vec<Item>) -> Result<(), RedisError>
        ensures ok { IsOk result → self.new.is_broken ≡ self.old.is_broken }
        ensures ok_sound { IsFalse self.old.is_broken → IsOk result → IsFalse self.new.is_broken }
    {
        match self.replied(alloc, items)?.as_text() {
            Some("PONG") => Ok(()),
            _ => {
                self.is_broken = true;
                Err(RedisError::Protocol)
            }
        }
    }

    // The answer to a ROLE.
    fn is_primary(&mut self, alloc: Global, items: Vec<Item>) -> Result<(), RedisError>
        ensures ok { IsOk result → self.new.is_broken ≡ self.old.is_broken }
        ensures err { IsErr result → IsTrue self.new.is_broken }
    {
        match items.as_slice() {
            [Item::List(_), Item::Value(role), ..] if role.as_slice() == b"master".as_slice() => {
                return Ok(());
            }
            _ => self.is_broken = true,
        }
        match items.as_slice() {
            [Item::Refusal(text)] => Err(RedisError::Refused(escaped(alloc, text.as_slice())?)),
            _ => Err(RedisError::Replica),
        }
    }

    /// The answer to a RESET, which shows whether the server has it, as those since 6.2 have.
    pub fn find_reset(&mut self, alloc: Global, items: Vec<Item>) -> Result<(), RedisError> {
        self.has_reset = match items.as_slice() {
            [Item::Word(text)] => text.as_slice() == b"RESET".as_slice(),
            // The user at first may have no leave for it.
            [Item::Refusal(text)] if text.starts_with(b"NOPERM") => false,
            [Item::Refusal(text)] if !text.starts_with(b"ERR unknown command") => {
                return Err(RedisError::Refused(escaped(alloc, text.as_slice())?));
            }
            _ => false,
        };
        Ok(())
    }

    /// Comes back from a caller: the requests that end the session, to be sent at once, which are
    /// none where it is as it began. After an error it can't be lent on. Nothing may have come that
    /// nobody asked for, but for answers to a reset.
    pub fn come_back(
        &mut self,
        alloc: Global,
        talk: &mut Conversation,
        reset: Reset,
        login: &Login,
    ) -> Result<Vec<u8>, RedisError>
        ensures sound { IsTrue self.old.is_broken → IsErr result }
        ensures same { self.new.is_broken ≡ self.old.is_broken }
        ensures never { IsOk result → self.old.resetting ≡ 0 → reset ≡ Reset.Never →
            IsFalse talk.old.session.transaction × IsFalse talk.old.session.watch
            × IsFalse talk.old.session.subscriptions × IsFalse talk.old.session.monitor }
        ensures marked { IsOk result → reset ≡ Reset.IfMarked →
            (talk.new.session ≡ plain) ⊎ (0 < self.new.resetting) }
        ensures always { IsOk result → reset ≡ Reset.Always → 0 < self.new.resetting }
    {
        let none = Vec::new(alloc);
        if self.is_broken {
            return Err(RedisError::Broken);
        }
        // Nothing was said since the last reset was sent.
        if self.resetting > 0 {
            return Ok(none);
        }
        if !talk.is_settled() {
            return Err(RedisError::Unasked);
        }
        let session = talk.session();
        match reset {
            Reset::Never if is_left_open(session) => Err(RedisError::Reset),
            Reset::Never => Ok(none),
            Reset::IfMarked if session == Session::PLAIN => Ok(none),
            Reset::IfMarked | Reset::Always => self.ask_to_reset(alloc, session, talk, login),
        }
    }

    fn ask_to_reset(
        &mut self,
        alloc: Global,
        session: Session,
        talk: &mut Conversation,
        login: &Login,
    ) -> Result<Vec<u8>, RedisError>
        ensures ok { IsOk result → 0 < self.new.resetting }
        ensures same { self.new.is_broken ≡ self.old.is_broken }
    {
        if is_lasting(session) {
            return Err(RedisError::Reset);
        }
        let mut requests = Vec::new(alloc);
        let count = if self.has_reset {
            login.ask_anew(alloc, talk, &mut requests)?
        } else {
            login.ask_in_parts(alloc, session, talk, &mut requests)?
        };
        if count == 0 {
            return Err(RedisError::Reset);
        }
        self.resetting = count;
        Ok(requests)
    }
}

// Whether it is the refusal of a server that may not write any more.
fn is_of_replica(items: &[Item]) -> bool {
    matches!(items, [Item::Refusal(text), ..] if text.starts_with(b"READONLY"))
}

// One for each, in their order.
fn all_of(alloc: Global, answers: Vec<Vec<Item>>) -> Result<Vec<Reply>, RedisError>
    ensures { IfOk result (λ replies. length replies.items ≡ length answers.items) }
{
    answers
        .into_iter()
        .map(|items| Reply::of(alloc, items))
        .try_collect(alloc)
}

/// An answer to a reset.
pub fn must_be_a_word(items: Vec<Item>) -> Result<(), RedisError> {
    match items.as_slice() {
        [Item::Word(_)] => Ok(()),
        _ => Err(RedisError::Reset),
    }
}
