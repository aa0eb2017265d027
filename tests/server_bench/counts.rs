//! What all tasks count. Moments are microseconds since the beginning.

use crate::TIMEOUT_MILLIS;
use std::rt::Clock;
use std::sync::atomic::{AtomicU64, Ordering};
use std::test::Fail;
use std::time::{Instant, SystemTime, UNIX_EPOCH};

#[derive(Drop)]
pub struct Counts<R> {
    rt: R,
    begun: Instant,
    // The beginning by the wall clock, in milliseconds.
    wall: u64,
    served: AtomicU64,
    failed: AtomicU64,
    // Calls that got no connection in time, and by how much the latest of them overran it.
    timeouts: AtomicU64,
    late: AtomicU64,
    longest: AtomicU64,
    last: AtomicU64,
    // The longest time in which nothing was served.
    from: AtomicU64,
    to: AtomicU64,
}

fn read(count: &AtomicU64) -> u64 {
    count.load(Ordering::SeqCst)
}

fn add_one(count: &AtomicU64) {
    count.fetch_add(1, Ordering::SeqCst);
}

impl<R: Clock + Copy> Counts<R> {
    pub fn new(rt: R) -> Result<Counts<R>, Fail> {
        let zero = || AtomicU64::new(0);
        let wall = SystemTime::now(&rt)?.duration_since(UNIX_EPOCH)?;
        Ok(Counts {
            rt,
            begun: Instant::now(&rt)?,
            wall: wall.as_millis() as u64,
            served: zero(),
            failed: zero(),
            timeouts: zero(),
            late: zero(),
            longest: zero(),
            last: zero(),
            from: zero(),
            to: zero(),
        })
    }

    /// The moment now.
    pub fn moment(&self) -> u64 {
        match self.begun.elapsed(&self.rt) {
            Ok(length) => length.as_micros() as u64,
            Err(_) => 0,
        }
    }

    /// A request that began then was served.
    pub fn serve(&self, begun: u64) {
        let now = self.moment();
        add_one(&self.served);
        self.longest.fetch_max(now - begun, Ordering::SeqCst);
        let last = self.last.swap(now, Ordering::SeqCst);
        if now - last > read(&self.to) - read(&self.from) {
            self.from.store(last, Ordering::SeqCst);
            self.to.store(now, Ordering::SeqCst);
        }
    }

    /// One that began then got no connection.
    pub fn time_out(&self, begun: u64) {
        let overrun = (self.moment() - begun).saturating_sub(TIMEOUT_MILLIS * 1000);
        add_one(&self.timeouts);
        self.late.fetch_max(overrun, Ordering::SeqCst);
    }

    pub fn fail(&self) {
        add_one(&self.failed);
    }

    pub fn tell<P: Print>(&self, rt: &P) -> Result<(), Fail> {
        println!(rt;
            "served={} failed={} timeouts={} longest={} late={} from={} to={}",
            read(&self.served),
            read(&self.failed),
            read(&self.timeouts),
            read(&self.longest),
            read(&self.late),
            self.wall + read(&self.from) / 1000,
            self.wall + read(&self.to) / 1000
        )?;
        Ok(())
    }
}
