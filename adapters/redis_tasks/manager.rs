//! Opens connections to Redis, and checks them, by futures.

ghost use Rattle.std.specs.Prelude.{◌≡◌, ◌<◌, ◌⊎◌, IsFalse, IsSome, IsTrue};
ghost use Rattle.std.specs.Arc.{arc_value};
ghost use Rattle.redis_codec.specs.Sessions.{plain};

use crate::connection::TaskConnection;
use crate::exchange::Check;
use crate::opening::Connect;
use r2d2_async::ManageConnection;
use redis::{RedisConnectionManager, RedisError, Reset, Settings};
use std::alloc::AllocError;
use std::sync::Arc;
use tokio::runtime::Handle;

/// A manager of connections whose sockets and timers are those of a runtime.
#[derive(Drop)]
pub struct TaskConnectionManager {
    rt: HostRuntime,
    settings: Arc<Settings>,
    handle: Handle,
}

impl TaskConnectionManager {
    /// With the settings of a manager for threads. The runtime that has this handle is the one that
    /// has to poll the pool's futures. The address is best one of numbers: a name is looked up at
    /// each opening, for which the system may block the thread. The error is lack of memory.
    pub fn new(manager: RedisConnectionManager, handle: &Handle) -> Result<Self, AllocError> {
        let (rt, settings) = manager.into_settings();
        Ok(TaskConnectionManager {
            rt,
            settings: Arc::new(rt.alloc(), settings)?,
            handle: handle.clone()?,
        })
    }
}

impl ManageConnection for TaskConnectionManager {
    type Connection = TaskConnection;

    type Error = RedisError;

    type Extension = ();

    type Connect = Connect;

    type Check = Check;

    fn connect(&self) -> Connect {
        Connect::begin(self.rt, &self.settings, &self.handle)
    }

    fn check(&self, connection: TaskConnection) -> Check
        ensures can_poll { IsSome result.connection }
        ensures probe { result.probe ≡ (arc_value self.now.settings).probe }
    {
        Check::of(connection, self.settings.probe)
    }

    /// A connection is closed, and not lent on, that is broken, that the server said something on
    /// unasked, or whose session can't be brought back as the mode says.
    fn has_broken(&self, connection: &mut TaskConnection) -> bool
        ensures broken { IsTrue connection.old.standing.is_broken → IsTrue result }
        ensures marked { IsFalse result → (arc_value self.now.settings).reset ≡ Reset.IfMarked →
            (connection.new.socket.talk.session ≡ plain) ⊎ (0 < connection.new.standing.resetting) }
        ensures always { IsFalse result → (arc_value self.now.settings).reset ≡ Reset.Always →
            0 < connection.new.standing.resetting }
    {
        !connection.come_back(self.settings.reset, &self.settings.login)
    }
}
