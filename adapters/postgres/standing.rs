//! How a connection stands, whoever waits for it: what the server last said, what was left on it,
//! and what is still owed.

ghost use Rattle.std.specs.Prelude.{◌≡◌, ◌≢◌, ◌<◌, ◌⊎◌, IsErr, IsFalse, IsOk, IsTrue};

use crate::answer::{Answer, Rows, Session};
use crate::error::PostgresError;
use crate::probe::Probe;
use crate::reset::Reset;
use postgres_codec::{Conversation, Mark};
use std::alloc::Global;

#[derive(Clone, Copy)]
pub struct Standing {
    pub session: Session,
    /// What was left since the session began, or was reset last.
    pub mark: Mark,
    /// How many answers to a reset were not read yet.
    pub resetting: usize,
}

impl Standing {
    /// That of a connection that was just opened.
    pub fn new(session: Session) -> Standing
        ensures { result.session ≡ session }
    {
        Standing {
            session,
            mark: Mark::Plain,
            resetting: 0,
        }
    }

    /// The answer to what was asked last. What it leaves is added to what was left.
    pub fn answered(&mut self, answer: &Answer)
        ensures session { self.new.session ≡ answer.now.session }
        ensures resetting { self.new.resetting ≡ self.old.resetting }
        ensures mark { self.new.mark ≡ Mark.Plain → self.old.mark ≡ Mark.Plain }
    {
        self.session = answer.session;
        self.mark = self.mark.and(answer.mark);
    }

    /// The answers to a reset are all read: nothing is left.
    pub fn is_reset(&mut self)
        ensures { self.new ≡ record self.old { mark = Mark.Plain; resetting = 0 } }
    {
        self.resetting = 0;
        self.mark = Mark::Plain;
    }

    /// The answer to a check.
    pub fn passes(&mut self, probe: Probe, rows: Rows) -> Result<(), PostgresError>
        ensures same { IsOk result → self.new.session ≡ self.old.session }
        ensures sound { IsOk result → self.new.session ≢ Session.Broken }
    {
        let is_sound = self.session != Session::Broken;
        match rows?.as_slice() {
            [row] if is_sound && row.get(0) == Some(probe.answer()) => Ok(()),
            _ => {
                self.session = Session::Broken;
                Err(probe.otherwise())
            }
        }
    }

    /// Whether the session is to be reset.
    pub fn is_due(&self, reset: Reset) -> bool
        ensures never { reset ≡ Reset.Never → IsFalse result }
        ensures marked { reset ≡ Reset.IfMarked → IsFalse result → self.now.mark ≡ Mark.Plain }
        ensures always { reset ≡ Reset.Always → IsTrue result }
    {
        match reset {
            Reset::Never => false,
            Reset::IfMarked => self.mark != Mark::Plain,
            Reset::Always => true,
        }
    }

    /// Comes back from a caller: the requests that end the session, to be sent at once, which are
    /// none where it is as it began. After an error it can't be lent on. Nothing may have come that
    /// nobody asked for, but for answers to a reset.
    pub fn come_back(
        &mut self,
        alloc: Global,
        talk: &mut Conversation,
        reset: Reset,
    ) -> Result<Vec<u8>, PostgresError>
        ensures broken { self.old.session ≡ Session.Broken → IsErr result }
        ensures idle { IsOk result → self.new.session ≡ Session.Idle }
        ensures rolled_back { IsOk result → self.old.session ≢ Session.Idle →
            0 < self.new.resetting }
        ensures marked { IsOk result → reset ≡ Reset.IfMarked →
            (self.new.mark ≡ Mark.Plain) ⊎ (0 < self.new.resetting) }
        ensures always { IsOk result → reset ≡ Reset.Always → 0 < self.new.resetting }
    {
        if self.session == Session::Broken {
            return Err(PostgresError::Broken);
        }
        // Nothing was said since the last reset was sent.
        if self.resetting > 0 {
            return if self.session == Session::Idle {
                Ok(Vec::new(alloc))
            } else {
                Err(PostgresError::Reset)
            };
        }
        let is_reset = self.is_due(reset);
        if is_reset && self.mark == Mark::Lasting {
            return Err(PostgresError::Reset);
        }
        self.end(alloc, talk, is_reset)
    }

    fn end(
        &mut self,
        alloc: Global,
        talk: &mut Conversation,
        is_reset: bool,
    ) -> Result<Vec<u8>, PostgresError>
        ensures idle { IsOk result → self.new.session ≡ Session.Idle }
        ensures rolled_back { IsOk result → self.old.session ≢ Session.Idle →
            0 < self.new.resetting }
        ensures reset { IsOk result → IsTrue is_reset → 0 < self.new.resetting }
        ensures mark { self.new.mark ≡ self.old.mark }
    {
        let (mut requests, mut count) = (Vec::new(alloc), 0);
        if self.session != Session::Idle {
            ask(alloc, talk, "ROLLBACK", &mut requests)?;
            count += 1;
        }
        // (DISCARD ALL is refused beside other statements)
        if is_reset {
            ask(alloc, talk, "DISCARD ALL", &mut requests)?;
            count += 1;
        }
        self.resetting = count;
        self.session = Session::Idle;
        Ok(requests)
    }
}

/// An answer to a reset, which is a refusal of nothing.
pub fn must_be_taken(answer: Answer) -> Result<(), PostgresError> {
    answer.rows?;
    if answer.session == Session::Broken {
        return Err(PostgresError::Reset);
    }
    Ok(())
}

// Appends a request, which has an end of its own.
fn ask(
    alloc: Global,
    talk: &mut Conversation,
    query: &str,
    requests: &mut Vec<u8>,
) -> Result<(), PostgresError> {
    let request = postgres_codec::query(alloc, query)?;
    requests.extend_from_slice(request.as_slice())?;
    talk.expect();
    Ok(())
}
