// Calls out of a pool that stop, so that somebody can look at it meanwhile.

use crate::world::World;
use std::sync::atomic::{AtomicBool, AtomicU64, Ordering};

/// Calls out of a pool that stop, one after the other, until somebody has looked at the pool.
#[derive(Drop)]
pub(crate) struct Stops {
    do_stop: AtomicBool,
    stopped: AtomicU64,
    gone_on: AtomicU64,
    unseen: AtomicU64,
}

impl Stops {
    pub(crate) fn new() -> Stops {
        Stops {
            do_stop: AtomicBool::new(false),
            stopped: AtomicU64::new(0),
            gone_on: AtomicU64::new(0),
            unseen: AtomicU64::new(0),
        }
    }

    /// Whether calls stop from now on.
    pub(crate) fn set(&self, do_stop: bool) {
        self.do_stop.store(do_stop, Ordering::SeqCst);
    }

    /// One call stops here, if it is to, until it is let go or was not for long.
    pub(crate) fn stop(&self, world: &World) {
        if self.do_stop.load(Ordering::SeqCst) {
            let number = self.stopped.fetch_add(1, Ordering::SeqCst);
            if !world.watch(|| self.gone_on.load(Ordering::SeqCst) > number) {
                self.unseen.fetch_add(1, Ordering::SeqCst);
            }
        }
    }

    /// Lets calls go on, each after a look, until they stop no more.
    pub(crate) fn look<F: Fn()>(&self, world: &World, look: F) {
        world.watch(|| {
            if self.stopped.load(Ordering::SeqCst) > self.gone_on.load(Ordering::SeqCst) {
                look();
                self.gone_on.fetch_add(1, Ordering::SeqCst);
            }
            !self.do_stop.load(Ordering::SeqCst)
        });
    }

    /// How many stopped, and how many of them while nobody could look.
    pub(crate) fn counts(&self) -> (u64, u64) {
        let stopped = self.stopped.load(Ordering::SeqCst);
        (stopped, self.unseen.load(Ordering::SeqCst))
    }
}
