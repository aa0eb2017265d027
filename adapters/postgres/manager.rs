//! Opens connections to PostgreSQL, and checks them.

ghost use Rattle.std.specs.Prelude.{◌≡◌, ◌≢◌, ◌<◌, ◌⊎◌, IfOk, IsFalse, IsOk, IsSomeAnd, IsTrue};
ghost use Rattle.std.specs.Prelude.{None, true};
ghost use Rattle.std.specs.Duration.{as_nanos};
ghost use Rattle.std.specs.String.{string_bytes};

use crate::answer::{Limits, Session};
use crate::connection::PostgresConnection;
use crate::error::PostgresError;
use crate::login::Login;
use crate::probe::Probe;
use crate::reset::Reset;
use crate::settings::{Settings, Timeouts};
use postgres_codec::Mark;
use r2d2::ManageConnection;
use std::alloc::AllocError;
use std::time::Duration;

/// Where the server is, who logs in, and how long to wait for it.
#[derive(Drop)]
pub struct PostgresConnectionManager {
    // Not a parameter: the threads of a pool must know that what they call returns.
    rt: HostRuntime,
    settings: Settings,
}

impl PostgresConnectionManager {
    /// `address` is a host and a port, as `127.0.0.1:5432`, or the path of a socket of this
    /// machine, as `/run/postgresql/.s.PGSQL.5432`, or `/run/postgresql:5432` for that. A name is
    /// looked up at each opening, so that a server is found where it has moved to; the look-up has
    /// the system's own timeout. `timeout` is that of an opening with its login, of a check and of
    /// a query, each from its beginning to its end. A query that takes longer fails; the server is
    /// asked to cancel it, and its connection is closed.
    pub fn new(
        rt: HostRuntime,
        address: &str,
        user: &str,
        database: &str,
        timeout: Duration,
    ) -> Result<Self, AllocError>
        requires { 0 < as_nanos timeout }
        ensures address { IfOk result (λ manager.
            string_bytes manager.settings.address ≡ address.now) }
        ensures user { IfOk result (λ manager.
            string_bytes manager.settings.login.user ≡ user.now) }
        ensures database { IfOk result (λ manager.
            string_bytes manager.settings.login.database ≡ database.now) }
        ensures strict { IfOk result (λ manager. (manager.settings.login.password ≡ None)
            × IsFalse manager.settings.login.is_lenient
            × IsFalse manager.settings.login.takes_md5) }
        ensures timeouts { IfOk result (λ manager. manager.settings.timeouts
            ≡ record { connect = timeout; check = timeout; command = timeout }) }
        ensures reset { IfOk result (λ manager. manager.settings.reset ≡ Reset.IfMarked) }
        ensures probe { IfOk result (λ manager. manager.settings.probe ≡ Probe.Alive) }
        ensures statements { IfOk result (λ manager. manager.settings.statements ≡ 0) }
    {
        let settings = Settings {
            address: String::from_str(rt.alloc(), address)?,
            login: Login {
                user: String::from_str(rt.alloc(), user)?,
                database: String::from_str(rt.alloc(), database)?,
                password: None,
                is_lenient: false,
                takes_md5: false,
            },
            reset: Reset::IfMarked,
            probe: Probe::Alive,
            timeouts: Timeouts {
                connect: timeout,
                check: timeout,
                command: timeout,
            },
            limits: Limits {
                bytes: 16 * 1024 * 1024,
                rows: 1024 * 1024,
            },
            statements: 0,
        };
        Ok(PostgresConnectionManager { rt, settings })
    }

    /// Logs in with a password, by SCRAM-SHA-256, by which the server proves that it knows it too.
    /// It is never sent. A server that asks for less is refused.
    pub fn with_password(mut self, password: &str) -> Result<Self, AllocError>
        ensures password { IfOk result (λ manager. IsSomeAnd manager.settings.login.password
            (λ text. string_bytes text ≡ password.now)) }
        ensures rest { IfOk result (λ manager. manager.settings ≡ record self.settings {
          login = record self.settings.login { password = manager.settings.login.password };
        }) }
    {
        self.settings.login.password = Some(String::from_str(self.rt.alloc(), password)?);
        Ok(self)
    }

    /// The same, but that a server is taken too which asks for none: who answers there need not be
    /// the server that knows the password.
    pub fn with_password_if_asked(self, password: &str) -> Result<Self, AllocError>
        ensures password { IfOk result (λ manager. IsSomeAnd manager.settings.login.password
            (λ text. string_bytes text ≡ password.now)) }
        ensures lenient { IfOk result (λ manager. IsTrue manager.settings.login.is_lenient) }
    {
        let mut manager = self.with_password(password)?;
        manager.settings.login.is_lenient = true;
        Ok(manager)
    }

    /// A server is taken too that asks for the password by MD5. It proves nothing itself, and may
    /// find out a weak password by what it is sent.
    pub fn with_md5(mut self) -> Self
        ensures { result.settings ≡ record self.settings {
          login = record self.settings.login { takes_md5 = true };
        } }
    {
        self.settings.login.takes_md5 = true;
        self
    }

    /// An opening and a check fail at a server that takes no writes. So where the primary moves,
    /// the setting `evict_idle_on_failed_check` of the pool closes all that were opened before. Of
    /// connections for tasks a check alone does.
    pub fn with_primary_only(mut self) -> Self
        ensures { result.settings ≡ record self.settings { probe = Probe.ReadWrite } }
    {
        self.settings.probe = Probe::ReadWrite;
        self
    }

    /// When a connection that comes back is reset: where its session may differ from how it began,
    /// until another mode is set.
    pub fn with_reset(mut self, reset: Reset) -> Self
        ensures { result.settings ≡ record self.settings { reset = reset } }
    {
        self.settings.reset = reset;
        self
    }

    /// How long an opening, a check and a query may take. A query is overrun by no more than a
    /// tenth, in which it is cancelled; where the server can't be reached for that, by 200 ms more.
    pub fn with_timeouts(mut self, connect: Duration, check: Duration, command: Duration) -> Self
        ensures { result.settings ≡ record self.settings {
          timeouts = record { connect = connect; check = check; command = command };
        } }
    {
        self.settings.timeouts = Timeouts {
            connect,
            check,
            command,
        };
        self
    }

    /// How much one answer may have: 16 MiB, and 1,048,576 rows, until another limit is set.
    pub fn with_limits(mut self, limits: Limits) -> Self
        ensures { result.settings ≡ record self.settings { limits = limits } }
    {
        self.settings.limits = limits;
        self
    }

    /// The server keeps so many statements for each connection, those of `query_with` and
    /// `execute_with` whose texts were sent last: it takes new values for them, and need not read
    /// the texts again. None until a number is set. A reset ends them; and one that is refused, as
    /// once where its tables were changed, is read again the next time. Where connections share
    /// those of a server by transactions, as behind PgBouncer, leave it.
    pub fn with_statements(mut self, count: usize) -> Self
        ensures { result.settings ≡ record self.settings { statements = count } }
    {
        self.settings.statements = count;
        self
    }

    /// What was set, for a manager of connections that wait in another way, and the runtime.
    pub fn into_settings(self) -> (HostRuntime, Settings)
        ensures { result.1 ≡ self.settings }
    {
        (self.rt, self.settings)
    }
}

impl ManageConnection for PostgresConnectionManager {
    type Connection = PostgresConnection;

    type Error = PostgresError;

    type Extension = ();

    fn connect(&self) -> Result<PostgresConnection, PostgresError> {
        PostgresConnection::open(self.rt, &self.settings)
    }

    fn is_valid(&self, connection: &mut PostgresConnection) -> Result<(), PostgresError>
        ensures { IsOk result → connection.new.standing.session ≢ Session.Broken }
    {
        connection.check_by(self.settings.probe)
    }

    /// A connection is closed, and not lent on, that is broken, that the server said something on
    /// unasked, or whose session can't be brought back as the mode says. A transaction that a
    /// caller left open is rolled back.
    fn has_broken(&self, connection: &mut PostgresConnection) -> bool
        ensures broken { connection.old.standing.session ≡ Session.Broken → IsTrue result }
        ensures idle { IsFalse result → connection.new.standing.session ≡ Session.Idle }
        ensures marked { IsFalse result → self.now.settings.reset ≡ Reset.IfMarked →
            (connection.new.standing.mark ≡ Mark.Plain) ⊎ (0 < connection.new.standing.resetting) }
        ensures always { IsFalse result → self.now.settings.reset ≡ Reset.Always →
            0 < connection.new.standing.resetting }
    {
        !connection.come_back(self.settings.reset)
    }
}
