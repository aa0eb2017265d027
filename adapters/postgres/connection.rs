//! A connection to PostgreSQL: a query as text, then its rows.

ghost use Rattle.std.specs.Prelude.{◌≡◌, ◌≢◌, ◌<◌, ◌⊎◌, IfOk, IsErr, IsFalse, IsOk, IsTrue, OnOk};

use crate::answer::{Answer, Limits, Row, Session};
use crate::error::PostgresError;
use crate::greeting::{Begun, Greeting, Next};
use crate::login::Login;
use crate::probe::Probe;
use crate::query::Query;
use crate::reset::Reset;
use crate::settings::{Settings, Timeouts};
use crate::standing::Standing;
use crate::statements::Statements;
use crate::wire::Wire;
use deadline::Deadline;
use postgres_codec::Mark;
use std::time::Duration;

/// A connection to PostgreSQL.
#[derive(Drop)]
pub struct PostgresConnection {
    rt: HostRuntime,
    // (boxed, as each lending and each return moves a connection)
    wire: Box<Wire>,
    timeouts: Timeouts,
    limits: Limits,
    standing: Standing,
    statements: Statements,
    // What a cancel names this connection by.
    key: Option<Vec<u8>>,
}

impl PostgresConnection {
    /// Connects to a server, and logs in.
    pub(crate) fn open(
        rt: HostRuntime,
        settings: &Settings,
    ) -> Result<PostgresConnection, PostgresError>
        ensures { IfOk result (λ connection. connection.standing.session ≢ Session.Broken) }
    {
        let deadline = Deadline::new(rt, settings.timeouts.connect);
        let mut wire = Wire::open(rt, settings.address.as_str(), Greeting::MOST, deadline)?;
        let begun = begin(rt, &mut wire, &settings.login, deadline)?;
        // What the server tells of its settings here is how each session begins.
        wire.talk.take_mark();
        wire.talk.allow(settings.limits.bytes);
        let mut connection = PostgresConnection {
            rt,
            wire: Box::new(rt.alloc(), wire)?,
            timeouts: settings.timeouts,
            limits: settings.limits,
            standing: Standing::new(begun.session),
            statements: Statements::new(rt.alloc(), settings.statements),
            key: begun.key,
        };
        if settings.probe == Probe::ReadWrite {
            connection.must_pass(Probe::ReadWrite, deadline)?;
        }
        Ok(connection)
    }

    pub fn session(&self) -> Session
        ensures { result ≡ self.now.standing.session }
    {
        self.standing.session
    }

    /// Sends a query, or several with `;` between them, and reads the rows of all. It has no
    /// parameters: what is no part of the text belongs into `query_with`.
    pub fn query(&mut self, text: &str) -> Result<Vec<Row>, PostgresError>
        ensures err { self.old.standing.session ≡ Session.Broken → IsErr result }
        ensures stays { self.old.standing.session ≡ Session.Broken
            → self.new.standing.session ≡ Session.Broken }
    {
        let query = Query::of(self.rt.alloc(), text)?;
        self.asked(query)?.rows
    }

    /// Sends one query, with values for `$1`, `$2` and so on: each as text, or None for NULL. The
    /// server takes them as values of the types that it finds for them, so nothing is to be quoted.
    pub fn query_with(
        &mut self,
        text: &str,
        values: &[Option<&str>],
    ) -> Result<Vec<Row>, PostgresError>
        ensures err { self.old.standing.session ≡ Session.Broken → IsErr result }
        ensures stays { self.old.standing.session ≡ Session.Broken
            → self.new.standing.session ≡ Session.Broken }
    {
        let query = self.statements.ask(text, values)?;
        self.asked(query)?.rows
    }

    /// As `query`. How many rows its statements inserted, changed, deleted or returned, together.
    pub fn execute(&mut self, text: &str) -> Result<u64, PostgresError>
        ensures err { self.old.standing.session ≡ Session.Broken → IsErr result }
        ensures stays { self.old.standing.session ≡ Session.Broken
            → self.new.standing.session ≡ Session.Broken }
    {
        let query = Query::of(self.rt.alloc(), text)?;
        self.counted(query)
    }

    /// As `query_with`. How many rows it inserted, changed, deleted or returned.
    pub fn execute_with(
        &mut self,
        text: &str,
        values: &[Option<&str>],
    ) -> Result<u64, PostgresError>
        ensures err { self.old.standing.session ≡ Session.Broken → IsErr result }
        ensures stays { self.old.standing.session ≡ Session.Broken
            → self.new.standing.session ≡ Session.Broken }
    {
        let query = self.statements.ask(text, values)?;
        self.counted(query)
    }

    /// Hands over each row of a query that has no parameters and is a single SELECT or VALUES, in
    /// order, and holds a hundred at most: so the limits are those of a hundred rows, as is the
    /// timeout. It reads by a cursor, in a transaction of its own where none is open. After an
    /// error the transaction is open, and has failed: roll it back, or let the connection go.
    pub fn each_row<F: FnMut(Row)>(&mut self, query: &str, mut each: F) -> Result<(), PostgresError>
        requires { F.IsAlwaysCallable each }
        ensures { self.old.standing.session ≡ Session.Broken → IsErr result }
    {
        let is_within = self.session() == Session::InTransaction;
        self.open_cursor(is_within, query)?;
        let mut rows = Vec::new(self.rt.alloc()).into_iter();
        for _ in 0..u64::MAX {
            if let Some(row) = rows.next() {
                each(row);
                continue;
            }
            let more = self.query("FETCH 100 FROM each_row")?;
            if more.is_empty() {
                break;
            }
            rows = more.into_iter();
        }
        self.execute(if is_within {
            "CLOSE each_row"
        } else {
            "COMMIT"
        })?;
        Ok(())
    }

    // Opens the cursor of `each_row`.
    fn open_cursor(&mut self, is_within: bool, query: &str) -> Result<(), PostgresError>
        ensures { self.old.standing.session ≡ Session.Broken → IsErr result }
    {
        if !is_within {
            self.execute("BEGIN")?;
        }
        let declare = format!(in self.rt.alloc(); "DECLARE each_row NO SCROLL CURSOR FOR {query}")?;
        // (with values it takes no second statement)
        let declare = Query::with(self.rt.alloc(), declare.as_str(), &[])?;
        self.counted(declare)?;
        Ok(())
    }

    fn counted(&mut self, query: Query) -> Result<u64, PostgresError>
        ensures stays { self.old.standing.session ≡ Session.Broken →
            IsErr result × (self.new.standing.session ≡ Session.Broken) }
    {
        let answer = self.asked(query)?;
        answer.rows?;
        Ok(answer.affected)
    }

    fn asked(&mut self, query: Query) -> Result<Answer, PostgresError>
        ensures stays { self.old.standing.session ≡ Session.Broken →
            IsErr result × (self.new.standing.session ≡ Session.Broken) }
    {
        let deadline = Deadline::new(self.rt, self.timeouts.command);
        self.exchange(query, deadline)
    }

    /// Asks for a row that has no other use.
    pub fn check(&mut self) -> Result<(), PostgresError>
        ensures err { self.old.standing.session ≡ Session.Broken → IsErr result }
        ensures ok { IsOk result → self.new.standing.session ≢ Session.Broken }
    {
        self.check_by(Probe::Alive)
    }

    /// Asks for that, or whether transactions may write.
    pub(crate) fn check_by(&mut self, probe: Probe) -> Result<(), PostgresError>
        ensures err { self.old.standing.session ≡ Session.Broken → IsErr result }
        ensures ok { IsOk result → self.new.standing.session ≢ Session.Broken }
    {
        self.must_pass(probe, Deadline::new(self.rt, self.timeouts.check))
    }

    fn must_pass(&mut self, probe: Probe, deadline: Deadline) -> Result<(), PostgresError>
        ensures err { self.old.standing.session ≡ Session.Broken → IsErr result }
        ensures ok { IsOk result → self.new.standing.session ≢ Session.Broken }
    {
        let query = Query::plain(self.rt.alloc(), probe.query())?;
        let answer = self.exchange(query, deadline)?;
        self.standing.passes(probe, answer.rows)
    }

    // It is broken from before the query is sent until the server is ready again, so each `?`
    // leaves it broken: an answer that comes late would be taken for that of the next query.
    fn exchange(&mut self, query: Query, deadline: Deadline) -> Result<Answer, PostgresError>
        ensures broken { IsErr result → self.new.standing.session ≡ Session.Broken }
        ensures stays { self.old.standing.session ≡ Session.Broken → IsErr result }
        ensures session { IfOk result (λ answer. self.new.standing.session ≡ answer.session) }
        ensures mark { IsOk result → self.new.standing.mark ≡ Mark.Plain →
            (self.old.standing.mark ≡ Mark.Plain) ⊎ (0 < self.old.standing.resetting) }
    {
        if self.standing.session == Session::Broken {
            return Err(PostgresError::Broken);
        }
        let mut query = query;
        self.standing.session = Session::Broken;
        match self.talk(&mut query, deadline) {
            Ok(answer) => {
                self.statements.answered(&query, &answer);
                self.standing.answered(&answer);
                Ok(answer)
            }
            Err(error) => {
                if matches!(error, PostgresError::Timeout { .. }) {
                    self.cancel(deadline);
                }
                Err(error)
            }
        }
    }

    fn talk(&mut self, query: &mut Query, deadline: Deadline) -> Result<Answer, PostgresError>
        ensures broken { self.old.standing.session ≡ Session.Broken
            → self.new.standing.session ≡ Session.Broken }
        ensures mark { IsOk result → self.new.standing.mark ≡ Mark.Plain →
            (self.old.standing.mark ≡ Mark.Plain) ⊎ (0 < self.old.standing.resetting) }
    {
        self.end_reset(deadline)?;
        self.wire.must_be_quiet(deadline)?;
        self.standing.mark = self.standing.mark.and(query.mark);
        self.statements.send(query)?;
        self.wire.ask(query.request.as_slice(), deadline)?;
        self.wire.answer(self.limits, deadline)
    }

    // Reads the answers to a reset.
    fn end_reset(&mut self, deadline: Deadline) -> Result<(), PostgresError>
        ensures session { self.new.standing.session ≡ self.old.standing.session }
        ensures ok { OnOk result (self.new.standing.resetting ≡ 0) }
        ensures mark { self.new.standing.mark ≡ Mark.Plain →
            (self.old.standing.mark ≡ Mark.Plain) ⊎ (0 < self.old.standing.resetting) }
    {
        let count = self.standing.resetting;
        if count > 0 {
            self.wire.end_reset(count, self.limits, deadline)?;
            self.standing.is_reset();
        }
        Ok(())
    }

    // The server goes on with a query whose caller has left, so it is told to end it. Where it does
    // not hear that in time nothing more can be done from here.
    fn cancel(&self, deadline: Deadline) {
        if let Some(key) = &self.key {
            // A server that lives takes it at once: so long it takes on a busy machine alone.
            let asking = Deadline::new(self.rt, Duration::from_millis(200));
            let answer = Deadline::new(self.rt, deadline.tenth() / 2);
            self.wire.cancel(key.as_slice(), asking, answer).ok();
        }
    }

    /// Comes back from a caller. Whether it may be lent on: to a caller who finds no transaction,
    /// and the session as it began, or as the mode says. It waits for no answer.
    pub(crate) fn come_back(&mut self, reset: Reset) -> bool
        ensures broken { self.old.standing.session ≡ Session.Broken → IsFalse result }
        ensures idle { IsTrue result → self.new.standing.session ≡ Session.Idle }
        ensures rolled_back { IsTrue result → self.old.standing.session ≢ Session.Idle →
            0 < self.new.standing.resetting }
        ensures marked { IsTrue result → reset ≡ Reset.IfMarked →
            (self.new.standing.mark ≡ Mark.Plain) ⊎ (0 < self.new.standing.resetting) }
        ensures always { IsTrue result → reset ≡ Reset.Always → 0 < self.new.standing.resetting }
    {
        let is_kept = self.end_session(reset).is_ok();
        if !is_kept {
            self.standing.session = Session::Broken;
        }
        is_kept
    }

    fn end_session(&mut self, reset: Reset) -> Result<(), PostgresError>
        ensures broken { self.old.standing.session ≡ Session.Broken → IsErr result }
        ensures idle { IsOk result → self.new.standing.session ≡ Session.Idle }
        ensures rolled_back { IsOk result → self.old.standing.session ≢ Session.Idle →
            0 < self.new.standing.resetting }
        ensures marked { IsOk result → reset ≡ Reset.IfMarked →
            (self.new.standing.mark ≡ Mark.Plain) ⊎ (0 < self.new.standing.resetting) }
        ensures always { IsOk result → reset ≡ Reset.Always → 0 < self.new.standing.resetting }
    {
        let deadline = Deadline::new(self.rt, self.timeouts.check);
        // (What comes of a reset is read by the next query.)
        if self.standing.resetting == 0 {
            self.wire.must_be_quiet(deadline)?;
        }
        if self.standing.is_due(reset) {
            self.statements.forget();
        }
        let (alloc, talk) = (self.rt.alloc(), &mut self.wire.talk);
        let requests = self.standing.come_back(alloc, talk, reset)?;
        if requests.is_empty() {
            return Ok(());
        }
        self.wire.send(requests.as_slice(), deadline)
    }
}

// Logs in.
fn begin(
    rt: HostRuntime,
    wire: &mut Wire,
    login: &Login,
    deadline: Deadline,
) -> Result<Begun, PostgresError>
    ensures { IfOk result (λ begun. begun.session ≢ Session.Broken) }
{
    let (mut greeting, request) = Greeting::ask(rt, login)?;
    wire.ask(request.as_slice(), deadline)?;
    for _ in 0..u64::MAX {
        let message = wire.receive(deadline)?;
        match greeting.answered(login, message)? {
            Next::Receive => {}
            Next::Send(bytes) => wire.send(bytes.as_slice(), deadline)?,
            Next::Prove => {
                let bytes = proven(rt, &mut greeting, deadline)?;
                wire.send(bytes.as_slice(), deadline)?;
            }
            Next::Begun(begun) => return Ok(begun),
        }
    }
    Err(PostgresError::Protocol)
}

// Makes the rounds of a proof: the bytes to send.
fn proven(
    rt: HostRuntime,
    greeting: &mut Greeting,
    deadline: Deadline,
) -> Result<Vec<u8>, PostgresError> {
    for _ in 0..u64::MAX {
        if deadline.left(rt).is_err() {
            return Err(PostgresError::SlowLogin);
        }
        if let Some(bytes) = greeting.go_on()? {
            return Ok(bytes);
        }
    }
    Err(PostgresError::SlowLogin)
}
