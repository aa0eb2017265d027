//! Opens connections to Redis, and checks them.

ghost use Rattle.std.specs.Prelude.{◌≡◌, ◌<◌, ◌⊎◌, IfOk, IsFalse, IsOk, IsSomeAnd, IsTrue, None};
ghost use Rattle.std.specs.Duration.{as_nanos};
ghost use Rattle.std.specs.String.{string_bytes};
ghost use Rattle.redis_codec.specs.Sessions.{plain};

use crate::connection::RedisConnection;
use crate::error::RedisError;
use crate::probe::Probe;
use crate::reset::{Login, Reset};
use crate::settings::{Settings, Timeouts};
use r2d2::ManageConnection;
use redis_codec::Limits;
use std::alloc::AllocError;
use std::time::Duration;

/// Where the server is, who logs in, and how long to wait.
#[derive(Drop)]
pub struct RedisConnectionManager {
    // Not a parameter: the threads of a pool must know that what they call returns.
    rt: HostRuntime,
    settings: Settings,
}

impl RedisConnectionManager {
    /// `address` is a host and a port, as `127.0.0.1:6379`, or the path of a socket of this
    /// machine, as `/run/redis/redis.sock`. A name is looked up at each opening, so that a server
    /// is found where it has moved to; the look-up has the system's own timeout. `timeout` is that
    /// of an opening, of a check and of a command, each from its beginning to its end.
    pub fn new(rt: HostRuntime, address: &str, timeout: Duration) -> Result<Self, AllocError>
        requires { 0 < as_nanos timeout }
        ensures address { IfOk result (λ manager.
            string_bytes manager.settings.address ≡ address.now) }
        ensures login { IfOk result (λ manager. manager.settings.login
            ≡ record { user = None; password = None; database = 0 }) }
        ensures timeouts { IfOk result (λ manager. manager.settings.timeouts
            ≡ record { connect = timeout; check = timeout; command = timeout }) }
        ensures reset { IfOk result (λ manager. manager.settings.reset ≡ Reset.IfMarked) }
        ensures probe { IfOk result (λ manager. manager.settings.probe ≡ Probe.Alive) }
    {
        let settings = Settings {
            address: String::from_str(rt.alloc(), address)?,
            login: Login {
                user: None,
                password: None,
                database: 0,
            },
            reset: Reset::IfMarked,
            timeouts: Timeouts {
                connect: timeout,
                check: timeout,
                command: timeout,
            },
            limits: Limits {
                bytes: 16 * 1024 * 1024,
                parts: 1024 * 1024,
                depth: 32,
            },
            probe: Probe::Alive,
        };
        Ok(RedisConnectionManager { rt, settings })
    }

    /// Each connection begins with `AUTH password`.
    pub fn with_password(mut self, password: &str) -> Result<Self, AllocError>
        ensures password { IfOk result (λ manager. IsSomeAnd manager.settings.login.password
            (λ text. string_bytes text ≡ password.now)) }
        ensures rest { IfOk result (λ manager. manager.settings ≡ record self.settings {
          login = record self.settings.login { password = manager.settings.login.password };
        }) }
    {
        self.settings.login.password = Some(String::from_str(self.rt.alloc(), password)?);
        Ok(self)
    }

    /// The user of an access control list, with the password.
    pub fn with_user(mut self, user: &str, password: &str) -> Result<Self, AllocError>
        ensures user { IfOk result (λ manager. IsSomeAnd manager.settings.login.user
            (λ text. string_bytes text ≡ user.now)) }
        ensures password { IfOk result (λ manager. IsSomeAnd manager.settings.login.password
            (λ text. string_bytes text ≡ password.now)) }
        ensures rest { IfOk result (λ manager. manager.settings ≡ record self.settings {
          login = record manager.settings.login { database = self.settings.login.database };
        }) }
    {
        self.settings.login.user = Some(String::from_str(self.rt.alloc(), user)?);
        self.with_password(password)
    }

    /// Each session begins at this database.
    pub fn with_database(mut self, database: u32) -> Self
        ensures { result.settings ≡ record self.settings {
          login = record self.settings.login { database = database };
        } }
    {
        self.settings.login.database = database;
        self
    }

    /// When a connection that comes back is reset: where its session differs from how it began,
    /// until another mode is set.
    pub fn with_reset(mut self, reset: Reset) -> Self
        ensures { result.settings ≡ record self.settings { reset = reset } }
    {
        self.settings.reset = reset;
        self
    }

    /// How long an opening, a check and a command may take.
    pub fn with_timeouts(mut self, connect: Duration, check: Duration, command: Duration) -> Self
        ensures { result.settings ≡ record self.settings {
          timeouts = record { connect = connect; check = check; command = command };
        } }
    {
        self.settings.timeouts = Timeouts {
            connect,
            check,
            command,
        };
        self
    }

    /// How much one answer may take: 16 MiB in texts and values, 1,048,576 parts, and 32 lists
    /// within one another, until another limit is set.
    pub fn with_limits(mut self, limits: Limits) -> Self
        ensures { result.settings ≡ record self.settings { limits = limits } }
    {
        self.settings.limits = limits;
        self
    }

    /// An opening and a check fail at a server that is a replica, by ROLE. So where the primary
    /// moves, the setting `evict_idle_on_failed_check` of the pool closes all that were opened
    /// before.
    pub fn with_primary_only(mut self) -> Self
        ensures { result.settings ≡ record self.settings { probe = Probe.Primary } }
    {
        self.settings.probe = Probe::Primary;
        self
    }

    /// What was set, for a manager of connections that wait in another way, and the runtime.
    pub fn into_settings(self) -> (HostRuntime, Settings)
        ensures { result.1 ≡ self.settings }
    {
        (self.rt, self.settings)
    }
}

impl ManageConnection for RedisConnectionManager {
    type Connection = RedisConnection;

    type Error = RedisError;

    type Extension = ();

    fn connect(&self) -> Result<RedisConnection, RedisError> {
        RedisConnection::open(self.rt, &self.settings)
    }

    fn is_valid(&self, connection: &mut RedisConnection) -> Result<(), RedisError>
        ensures { IsOk result → IsFalse connection.new.standing.is_broken }
    {
        connection.check(self.settings.probe)
    }

    /// A connection is closed, and not lent on, that is broken, that the server said something on
    /// unasked, or whose session can't be brought back as the mode says.
    fn has_broken(&self, connection: &mut RedisConnection) -> bool
        ensures broken { IsTrue connection.old.standing.is_broken → IsTrue result }
        ensures marked { IsFalse result → self.now.settings.reset ≡ Reset.IfMarked →
            (connection.new.wire.value.talk.session ≡ plain)
            ⊎ (0 < connection.new.standing.resetting) }
        ensures always { IsFalse result → self.now.settings.reset ≡ Reset.Always →
            0 < connection.new.standing.resetting }
    {
        !connection.come_back(self.settings.reset, &self.settings.login)
    }
}
