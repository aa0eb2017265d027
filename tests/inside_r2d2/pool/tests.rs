// What a pool closes for its time, and that no lock is held at a call: looks for expired
// connections come oftener here than a user of the crate can have them. All other tests of the pool
// stand in a crate of their own.

use super::*;
use std::alloc::{Alloc, AllocError, Global};
use std::sync::atomic::{AtomicU64, Ordering};
use std::test::Fail;
use std::{io, thread};

mod expiring;
mod unlocked;

/// How often a test looks, 10 ms apart, for what is to come: for twenty seconds, and for as much
/// longer as others have the processor.
const LOOKS: u32 = 2_000;

/// Looks so often at most until something is so. It answers whether it is, at last.
fn comes_within<R: Clock, F: Fn() -> bool>(rt: &R, looks: u32, is_so: F) -> bool {
    for _ in 0..looks {
        if is_so() {
            return true;
        }
        thread::sleep(rt, Duration::from_millis(10));
    }
    is_so()
}

/// Looks at a count until it has reached what is awaited. It answers what it saw last.
pub(crate) fn watched<R: Clock>(rt: &R, count: &AtomicU64, awaited: u64) -> u64 {
    comes_within(rt, LOOKS, || count.load(Ordering::SeqCst) >= awaited);
    count.load(Ordering::SeqCst)
}

/// What all of a test may hold, as it begins: a count is zero.
pub(crate) fn shared<T: Default + Drop>(alloc: Global) -> Result<&'static T, AllocError> {
    Ok(Box::leak(Box::new(alloc, T::default())?))
}

/// A connection, which counts its drop.
pub(crate) struct Line(&'static AtomicU64);

impl Drop for Line {
    fn drop(self) {
        let Line(dropped) = self;
        dropped.fetch_add(1, Ordering::SeqCst);
    }
}

/// Opens so many lines; each later opening fails.
#[derive(Clone, Copy)]
pub(crate) struct Lines {
    pub(crate) opened: &'static AtomicU64,
    dropped: &'static AtomicU64,
    most: u64,
}

impl Lines {
    pub(crate) fn new(alloc: Global, most: u64) -> Result<Lines, AllocError> {
        let (opened, dropped) = (shared(alloc)?, shared(alloc)?);
        Ok(Lines { opened, dropped, most })
    }
}

impl ManageConnection for Lines {
    type Connection = Line;

    type Error = &'static str;

    type Extension = ();

    fn connect(&self) -> Result<Line, &'static str> {
        if self.opened.fetch_add(1, Ordering::SeqCst) >= self.most {
            return Err("blammo");
        }
        Ok(Line(self.dropped))
    }

    fn is_valid(&self, _line: &mut Line) -> Result<(), &'static str> {
        Ok(())
    }

    fn has_broken(&self, _line: &mut Line) -> bool {
        false
    }
}

/// A clock that shows so many milliseconds. Who waits for a moment of it looks again after as much
/// true time, and waits on where the clock stands.
#[derive(Clone, Copy)]
struct Hand<R> {
    rt: R,
    shows: &'static AtomicU64,
}

impl<R: PoolRuntime> Hand<R> {
    fn new(rt: R) -> Result<Hand<R>, AllocError> {
        let shows = shared(rt.alloc())?;
        Ok(Hand { rt, shows })
    }

    fn set(&self, milliseconds: u64) {
        self.shows.store(milliseconds, Ordering::SeqCst);
    }
}

impl<R: Clock> Clock for Hand<R> {
    fn monotonic(&self) -> io::Result<Duration> {
        Ok(Duration::from_millis(self.shows.load(Ordering::SeqCst)))
    }

    fn since_1970(&self) -> io::Result<Duration> {
        self.rt.since_1970()
    }

    fn sleep(&self, duration: Duration) {
        self.rt.sleep(duration)
    }
}

impl<R: Wait> Wait for Hand<R> {}

impl<R: Threads> Threads for Hand<R> {}

impl<R: Alloc> Alloc for Hand<R> {
    type A = R::A;

    fn alloc(&self) -> R::A {
        self.rt.alloc()
    }
}
