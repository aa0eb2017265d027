//! Opens connections to PostgreSQL, and checks them, by futures.

ghost use Rattle.std.specs.Prelude.{◌≡◌, ◌<◌, ◌⊎◌, IsFalse, IsTrue};
ghost use Rattle.std.specs.Arc.{arc_value};

use crate::cancelling::Cancels;
use crate::connection::TaskConnection;
use crate::exchange::Check;
use crate::opening::Connect;
use postgres::{PostgresConnectionManager, PostgresError, Reset, Session, Settings};
use postgres_codec::Mark;
use r2d2_async::ManageConnection;
use std::alloc::AllocError;
use std::sync::Arc;
use tokio::runtime::Handle;

/// A manager of connections whose sockets and timers are those of a runtime.
#[derive(Drop)]
pub struct TaskConnectionManager {
    rt: HostRuntime,
    settings: Arc<Settings>,
    handle: Handle,
    cancels: Arc<Cancels>,
}

impl TaskConnectionManager {
    /// With the settings of a manager for threads. The runtime that has this handle is the one that
    /// has to poll the pool's futures. The address is best one of numbers: a name is looked up at
    /// each opening, for which the system may block the thread. A query that was dropped, or took
    /// too long, is cancelled at the server before the next opening, unless 64 others are to be.
    /// The error is lack of memory.
    pub fn new(manager: PostgresConnectionManager, handle: &Handle) -> Result<Self, AllocError> {
        let (rt, settings) = manager.into_settings();
        Ok(TaskConnectionManager {
            rt,
            settings: Arc::new(rt.alloc(), settings)?,
            handle: handle.clone()?,
            cancels: Arc::new(rt.alloc(), Cancels::new(rt.alloc()))?,
        })
    }
}

impl ManageConnection for TaskConnectionManager {
    type Connection = TaskConnection;

    type Error = PostgresError;

    type Extension = ();

    type Connect = Connect;

    type Check = Check;

    fn connect(&self) -> Connect {
        Connect::begin(self.rt, &self.settings, &self.handle, &self.cancels)
    }

    fn check(&self, connection: TaskConnection) -> Check {
        Check::of(connection)
    }

    /// A connection is closed, and not lent on, that is broken, that the server said something on
    /// unasked, or whose session can't be brought back as the mode says. A transaction that a
    /// caller left open is rolled back. (What the server says within a millisecond of its answer
    /// may show at the next query, which fails.)
    fn has_broken(&self, connection: &mut TaskConnection) -> bool
        ensures broken { connection.old.standing.session ≡ Session.Broken → IsTrue result }
        ensures idle { IsFalse result → connection.new.standing.session ≡ Session.Idle }
        ensures marked { IsFalse result → (arc_value self.now.settings).reset ≡ Reset.IfMarked →
            (connection.new.standing.mark ≡ Mark.Plain)
            ⊎ (0 < connection.new.standing.resetting) }
        ensures always { IsFalse result → (arc_value self.now.settings).reset ≡ Reset.Always →
            0 < connection.new.standing.resetting }
    {
        if connection.come_back(self.settings.reset) {
            return false;
        }
        if let Some(cancel) = connection.cancel() {
            self.cancels.add(cancel);
        }
        true
    }
}
