//! A connection to Redis: a command, then its reply.

ghost use Rattle.std.specs.Prelude.{◌≡◌, ◌↔◌, ◌<◌, ◌⊎◌, IfOk, IsErr, IsFalse, IsOk, IsTrue, length};
ghost use Rattle.redis_codec.specs.Sessions.{plain};

use crate::error::RedisError;
use crate::greeting::Greeting;
use crate::pipeline::Pipeline;
use crate::probe::Probe;
use crate::reply::Reply;
use crate::reset::{Login, Reset};
use crate::settings::{Settings, Timeouts};
use crate::standing::Standing;
use crate::wire::Wire;
use deadline::Deadline;
use redis_codec::{Item, Session};

/// A connection to Redis.
#[derive(Drop)]
pub struct RedisConnection {
    rt: HostRuntime,
    // (boxed, as each lending and each return moves a connection)
    wire: Box<Wire>,
    timeouts: Timeouts,
    standing: Standing,
}

impl RedisConnection {
    /// Connects to a server, and logs in.
    pub(crate) fn open(
        rt: HostRuntime,
        settings: &Settings,
    ) -> Result<RedisConnection, RedisError> {
        let deadline = Deadline::new(rt, settings.timeouts.connect);
        let address = settings.address.as_str();
        let wire = Wire::open(rt, address, settings.limits, deadline)?;
        let mut connection = RedisConnection {
            rt,
            wire: Box::new(rt.alloc(), wire)?,
            timeouts: settings.timeouts,
            standing: Standing::new(),
        };
        connection.begin(settings, deadline)?;
        Ok(connection)
    }

    /// Whether a command has not had its reply, and never will.
    pub fn is_broken(&self) -> bool
        ensures { result ≡ self.now.standing.is_broken }
    {
        self.standing.is_broken
    }

    /// How what was sent so far has left the session at the server. A reset that is not over yet
    /// has not changed it.
    pub fn session(&self) -> Session
        ensures { result ≡ self.now.wire.value.talk.session }
    {
        self.wire.talk.session()
    }

    /// Sends a command, as `&["INCR", "visits"]`, and reads its reply.
    pub fn command(&mut self, words: &[&str]) -> Result<Reply, RedisError>
        ensures ok { IsOk result → IsFalse self.new.standing.is_broken }
        ensures stays { IsTrue self.old.standing.is_broken →
            IsErr result × IsTrue self.new.standing.is_broken }
    {
        let mut bytes: Vec<&[u8]> = Vec::new(self.rt.alloc());
        for word in words {
            bytes.push(word.as_bytes())?;
        }
        self.call(bytes.as_slice())
    }

    /// The same with words of any bytes, as `&[b"SET", key, value]`.
    pub fn call(&mut self, words: &[&[u8]]) -> Result<Reply, RedisError>
        ensures ok { IsOk result → IsFalse self.new.standing.is_broken }
        ensures stays { IsTrue self.old.standing.is_broken →
            IsErr result × IsTrue self.new.standing.is_broken }
    {
        let deadline = Deadline::new(self.rt, self.timeouts.command);
        let items = self.quiet_exchange(words, deadline)?;
        self.standing.replied(self.rt.alloc(), items)
    }

    /// Sends the commands of a pipeline in one write, and reads their replies: one for each, in the
    /// same order, and `Reply::Refused` for one that was refused. All together have the time of a
    /// command; the limits are those of each answer. After an error some, or all, may have been
    /// carried out.
    pub fn run_all(&mut self, pipeline: &Pipeline) -> Result<Vec<Reply>, RedisError>
        ensures count { IfOk result (λ replies.
            length replies.items ≡ length pipeline.now.commands.items) }
        ensures err { IsErr result → IsTrue self.new.standing.is_broken }
        ensures stays { IsTrue self.old.standing.is_broken →
            IsErr result × IsTrue self.new.standing.is_broken }
    {
        let deadline = Deadline::new(self.rt, self.timeouts.command);
        self.must_be_quiet(deadline)?;
        self.wire.ask_all(pipeline, deadline)?;
        let answers = self
            .wire
            .receive_all(self.rt.alloc(), pipeline.len(), deadline)?;
        self.standing.is_broken = false;
        self.standing.replied_all(self.rt.alloc(), answers)
    }

    /// Asks for a reply that has no other use.
    pub fn ping(&mut self) -> Result<(), RedisError>
        ensures ok { IsOk result → IsFalse self.new.standing.is_broken }
    {
        self.check(Probe::Alive)
    }

    /// Asks what a check asks.
    pub(crate) fn check(&mut self, probe: Probe) -> Result<(), RedisError>
        ensures ok { IsOk result → IsFalse self.new.standing.is_broken }
    {
        let deadline = Deadline::new(self.rt, self.timeouts.check);
        let items = self.quiet_exchange(&[probe.word()], deadline)?;
        self.standing.passes(self.rt.alloc(), probe, items)
    }

    // An exchange with a server that has said nothing since it answered last.
    fn quiet_exchange(
        &mut self,
        words: &[&[u8]],
        deadline: Deadline,
    ) -> Result<Vec<Item>, RedisError>
        ensures broken { IsErr result ↔ IsTrue self.new.standing.is_broken }
        ensures stays { IsTrue self.old.standing.is_broken → IsErr result }
    {
        self.must_be_quiet(deadline)?;
        self.exchange(words, deadline)
    }

    // The server has said nothing since it answered last. From here on it is broken, until the
    // answer is there to what is asked now.
    fn must_be_quiet(&mut self, deadline: Deadline) -> Result<(), RedisError>
        ensures broken { IsTrue self.new.standing.is_broken }
        ensures stays { IsTrue self.old.standing.is_broken → IsErr result }
    {
        if self.standing.is_broken {
            return Err(RedisError::Broken);
        }
        self.standing.is_broken = true;
        self.wire.end_reset(self.standing.resetting, deadline)?;
        self.standing.resetting = 0;
        self.wire.must_be_quiet(deadline)
    }

    // It is broken from before the command is sent until its answer is there, so each `?` leaves it
    // broken: an answer that comes late would be taken for that of the next command.
    fn exchange(&mut self, words: &[&[u8]], deadline: Deadline) -> Result<Vec<Item>, RedisError>
        ensures broken { IsErr result ↔ IsTrue self.new.standing.is_broken }
        ensures resetting { self.new.standing.resetting ≡ self.old.standing.resetting }
    {
        self.standing.is_broken = true;
        self.wire.ask(words, deadline)?;
        let items = self.wire.receive(deadline)?;
        self.standing.is_broken = false;
        Ok(items)
    }

    fn begin(&mut self, settings: &Settings, deadline: Deadline) -> Result<(), RedisError> {
        let alloc = self.rt.alloc();
        let (talk, mut requests) = (&mut self.wire.talk, Vec::new(alloc));
        let mut greeting = Greeting::ask(alloc, settings, talk, &mut requests)?;
        self.wire.send(requests.as_slice(), deadline)?;
        for _ in 0..u64::MAX {
            if greeting.is_over() {
                break;
            }
            let items = self.wire.receive(deadline)?;
            greeting.answered(alloc, &settings.login, &mut self.standing, items)?;
        }
        // What was said here is how each session begins.
        self.wire.talk.begin();
        Ok(())
    }

    /// Comes back from a caller. Whether it may be lent on: to a caller who finds the session as it
    /// began, or as the mode says. It waits for no answer.
    pub(crate) fn come_back(&mut self, reset: Reset, login: &Login) -> bool
        ensures broken { IsTrue self.old.standing.is_broken → IsFalse result }
        ensures never { IsTrue result → self.old.standing.resetting ≡ 0 → reset ≡ Reset.Never →
            IsFalse self.old.wire.value.talk.session.transaction
            × IsFalse self.old.wire.value.talk.session.watch
            × IsFalse self.old.wire.value.talk.session.subscriptions
            × IsFalse self.old.wire.value.talk.session.monitor }
        ensures marked { IsTrue result → reset ≡ Reset.IfMarked →
            (self.new.wire.value.talk.session ≡ plain) ⊎ (0 < self.new.standing.resetting) }
        ensures always { IsTrue result → reset ≡ Reset.Always → 0 < self.new.standing.resetting }
    {
        let is_kept = self.end_session(reset, login).is_ok();
        self.standing.is_broken = !is_kept;
        is_kept
    }

    fn end_session(&mut self, reset: Reset, login: &Login) -> Result<(), RedisError>
        ensures broken { IsTrue self.old.standing.is_broken → IsErr result }
        ensures never { IsOk result → self.old.standing.resetting ≡ 0 → reset ≡ Reset.Never →
            IsFalse self.old.wire.value.talk.session.transaction
            × IsFalse self.old.wire.value.talk.session.watch
            × IsFalse self.old.wire.value.talk.session.subscriptions
            × IsFalse self.old.wire.value.talk.session.monitor }
        ensures marked { IsOk result → reset ≡ Reset.IfMarked →
            (self.new.wire.value.talk.session ≡ plain) ⊎ (0 < self.new.standing.resetting) }
        ensures always { IsOk result → reset ≡ Reset.Always → 0 < self.new.standing.resetting }
    {
        let deadline = Deadline::new(self.rt, self.timeouts.check);
        // (What comes of a reset is read by the next command.)
        if self.standing.resetting == 0 {
            self.wire.must_be_quiet(deadline)?;
        }
        let (alloc, talk) = (self.rt.alloc(), &mut self.wire.talk);
        let requests = self.standing.come_back(alloc, talk, reset, login)?;
        if requests.is_empty() {
            return Ok(());
        }
        self.wire.send(requests.as_slice(), deadline)
    }
}
