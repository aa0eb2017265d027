// Who listens to a pool, and writes down the whole of what is told.

use crate::manager::{Sorry, Wire};
use crate::world::World;
use r2d2::event::{
    AcquireEvent, CheckinEvent, CheckoutEvent, HandleEvent, ReleaseEvent, ReleaseReason,
    TimeoutEvent,
};
use r2d2::{CustomizeConnection, HandleError};
use std::fmt;
use std::sync::atomic::Ordering;
use std::time::Duration;

/// What was told, or asked of the customizer. Connections go by their ids, and before and after
/// their pool by how many were opened before. Lengths are in milliseconds.
#[derive(Clone, Copy, PartialEq, Debug)]
pub(crate) enum Told {
    Acquire(u64),
    /// After how long a wait.
    Checkout(u64, u64),
    /// After how long a use.
    Checkin(u64, u64),
    /// At which age.
    Release(u64, u64, ReleaseReason),
    Timeout(u64),
    Failed(Sorry),
    /// The customizer was shown it.
    Shown(u64),
    /// The customizer was given it.
    Ended(u64),
    /// It is told only where the row asked for that.
    Dropped(u64),
}

/// A handler of a pool, or its customizer.
pub(crate) struct Ear {
    world: &'static World,
}

impl Ear {
    pub(crate) fn new(world: &'static World) -> Ear {
        world.ears.fetch_add(1, Ordering::SeqCst);
        Ear { world }
    }
}

impl Drop for Ear {
    fn drop(self) {
        let Ear { world } = self;
        world.ears.fetch_sub(1, Ordering::SeqCst);
    }
}

impl fmt::Debug for Ear {
    fn fmt<W: fmt::Write>(&self, f: &mut fmt::Formatter<W>) -> fmt::Result {
        f.write_str("Ear")
    }
}

/// A length in milliseconds.
pub(crate) fn milliseconds(length: Duration) -> u64 {
    u64::try_from(length.as_millis()).unwrap_or(u64::MAX)
}

/// What an ear is told as a handler of events and of errors.
#[derive(Drop)]
pub(crate) enum Heard {
    Acquire(AcquireEvent),
    Release(ReleaseEvent),
    Checkout(CheckoutEvent),
    Timeout(TimeoutEvent),
    Checkin(CheckinEvent),
    Error(Sorry),
}

/// Who hears all of that too.
pub(crate) trait Hear: Send + Sync {
    fn hear(&self, heard: Heard);
}

impl Ear {
    // Notes what was told, once the other one has heard it.
    fn hear(&self, told: Told, heard: Heard) {
        if let Some(other) = self.world.other() {
            other.hear(heard);
        }
        self.world.note(told);
    }
}

impl HandleEvent for Ear {
    fn handle_acquire(&self, event: AcquireEvent) {
        let told = Told::Acquire(event.connection_id());
        self.hear(told, Heard::Acquire(event));
    }

    fn handle_release(&self, event: ReleaseEvent) {
        let age = milliseconds(event.age());
        let told = Told::Release(event.connection_id(), age, event.reason());
        self.hear(told, Heard::Release(event));
    }

    fn handle_checkout(&self, event: CheckoutEvent) {
        let waited = milliseconds(event.duration());
        let told = Told::Checkout(event.connection_id(), waited);
        self.hear(told, Heard::Checkout(event));
    }

    fn handle_timeout(&self, event: TimeoutEvent) {
        let told = Told::Timeout(milliseconds(event.timeout()));
        self.hear(told, Heard::Timeout(event));
    }

    fn handle_checkin(&self, event: CheckinEvent) {
        let held = milliseconds(event.duration());
        let told = Told::Checkin(event.connection_id(), held);
        self.hear(told, Heard::Checkin(event));
    }
}

impl HandleError<Sorry> for Ear {
    fn handle_error(&self, error: Sorry) {
        self.hear(Told::Failed(error), Heard::Error(error));
    }
}

impl CustomizeConnection<Wire, Sorry> for Ear {
    fn on_acquire(&self, wire: &mut Wire) -> Result<(), Sorry> {
        self.world.note(Told::Shown(wire.number));
        let outcome = self.world.call(&self.world.shows);
        if outcome.goes_well {
            wire.shown += 1;
            return Ok(());
        }
        Err(Sorry::Shown(outcome.number))
    }

    fn on_release(&self, wire: Wire) {
        self.world.note(Told::Ended(wire.number));
    }
}
