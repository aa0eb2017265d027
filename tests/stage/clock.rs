// The runtime of a pool, and its clock, which is the world's.

use crate::script::Script;
use crate::world::{Host, World};
use std::alloc::Alloc;
use std::io;
use std::rt::Clock;
use std::sync::Wait;
use std::sync::atomic::Ordering;
use std::thread::Threads;
use std::time::Duration;

const NANOSECONDS: u64 = 1_000_000;

/// What the clock shows at the beginning, in nanoseconds.
pub(crate) const BEGIN: u64 = 1_000_003 * NANOSECONDS;

impl World {
    /// Moves the clock on.
    pub(crate) fn pass(&self, milliseconds: u64) {
        self.pass_nanoseconds(milliseconds * NANOSECONDS);
    }

    pub(crate) fn pass_nanoseconds(&self, nanoseconds: u64) {
        self.nanoseconds.fetch_add(nanoseconds, Ordering::SeqCst);
        self.ring_in_time();
    }

    // Who sleeps until then is woken.
    fn ring_in_time(&self) {
        let now = self.now();
        self.ring(|end| end.is_some_and(|end| end <= now));
    }

    /// Moves the clock back.
    pub(crate) fn turn_back(&self, milliseconds: u64) {
        let back = milliseconds * NANOSECONDS;
        self.nanoseconds.fetch_sub(back, Ordering::SeqCst);
    }

    /// The milliseconds of the clock.
    pub(crate) fn now(&self) -> u64 {
        self.nanoseconds.load(Ordering::SeqCst) / NANOSECONDS
    }

    /// How often the clock was read, those readings among them that hang.
    pub(crate) fn readings(&self) -> u64 {
        self.readings.asked()
    }

    fn read(&self, script: &Script) -> io::Result<Duration> {
        let outcome = self.hang(script);
        let moves_by = outcome.seconds * 1_000 * NANOSECONDS;
        let shown = self.nanoseconds.fetch_add(moves_by, Ordering::SeqCst);
        if moves_by > 0 {
            self.ring_in_time();
        }
        if outcome.goes_well {
            Ok(Duration::from_nanos(shown))
        } else {
            Err(io::Error::from(io::ErrorKind::Unsupported))
        }
    }
}

/// The runtime of a pool.
#[derive(Clone, Copy)]
pub(crate) struct Place<R> {
    pub(crate) world: &'static World,
    pub(crate) rt: R,
}

impl<R: Host> Clock for Place<R> {
    fn monotonic(&self) -> io::Result<Duration> {
        self.world.read(&self.world.readings)
    }

    // Since a time of day that is no whole second.
    fn since_1970(&self) -> io::Result<Duration> {
        let shown = self.world.read(&self.world.days)?;
        Ok(shown.saturating_add(Duration::new(1_000_000, 17)))
    }

    fn sleep(&self, duration: Duration) {
        self.rt.sleep(duration)
    }
}

impl<R: Host> Wait for Place<R> {}

impl<R: Host> Threads for Place<R> {}

impl<R: Host> Alloc for Place<R> {
    type A = R::A;

    fn alloc(&self) -> R::A {
        self.world.hang(&self.world.allocs);
        self.rt.alloc()
    }
}
