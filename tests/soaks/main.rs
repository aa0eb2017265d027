//! A pool of connections to Redis under load (tools/try soaks). It writes a report of the pool each
//! second, and at its end what each call met, and the last report. The words are `ADDRESS SIZE
//! TIMEOUT RECORDS WAITING LIFETIME`, of which the last two are 0 for none, and for each stretch of
//! the load `LASTS CALLERS HOLD PAUSE`. All times are in milliseconds, and 16 call at most.
#![tactic(auto)]

mod callers;

use self::callers::{Call, Caller, Load, PoolOf};
use anyhow::Error as Fail;
use pool_metrics::{Metrics, report_of};
use r2d2::{Builder, NopErrorHandler, PoolRuntime};
use redis::RedisConnectionManager;
use std::sync::Arc;
use std::thread::JoinHandle;
use std::time::Duration;
use std::{env, thread};

fn main(rt: HostRuntime) -> Result<(), Fail> {
    let (mut words, mut numbers) = (Vec::new(rt.alloc()), Vec::new(rt.alloc()));
    for word in env::args(&rt)?.skip(1) {
        words.push(word)?;
    }
    for word in words.iter().skip(1) {
        numbers.push(word.parse::<u64>()?)?;
    }
    let ([address, ..], Some((settings, stretches))) = (
        words.as_slice(),
        numbers.as_slice().split_at_checked(5),
    ) else {
        return Err(Fail::msg("more words are wanted"));
    };
    let manager = RedisConnectionManager::new(rt, address.as_str(), Duration::from_secs(5))?;
    let mut soak = Soak::new(rt, manager, settings)?;
    let threads = soak.callers()?;
    println!(rt; "begun")?;
    for stretch in stretches.chunks_exact(4) {
        soak.go_through(stretch)?;
    }
    soak.load.end();
    for thread in threads {
        for call in thread.join(&rt)? {
            println!(rt; "{call}")?;
        }
    }
    soak.report()
}

#[derive(Drop)]
struct Soak<R: PoolRuntime> {
    rt: R,
    pool: PoolOf<R>,
    metrics: Metrics<R>,
    load: Arc<Load>,
    // The moments up to which the load so far lasts, and at which a report is next.
    end: Duration,
    next: Duration,
}

impl<R: PoolRuntime + Print> Soak<R> {
    fn new(rt: R, manager: RedisConnectionManager, settings: &[u64]) -> Result<Soak<R>, Fail> {
        let [size, timeout, records, waiting, lifetime] = settings else {
            return Err(Fail::msg("five settings are wanted"));
        };
        let size = u32::try_from(*size)?;
        let metrics = Metrics::new(rt, size)?;
        let mut builder = Builder::new()
            .max_size(size)
            .connection_timeout(Duration::from_millis(*timeout))
            .journal_room(usize::try_from(*records)?)
            .max_retry_delay(Some(Duration::from_millis(200)));
        if *waiting > 0 {
            builder = builder.max_waiting(Some(u32::try_from(*waiting)?));
        }
        if *lifetime > 0 {
            builder = builder.max_lifetime(Some(Duration::from_millis(*lifetime)));
        }
        let pool = builder
            .error_handler(metrics.around(NopErrorHandler)?)
            .event_handler(metrics.try_clone()?)
            .build_unchecked(rt, manager)?;
        let end = pool.uptime();
        Ok(Soak {
            rt,
            pool,
            metrics,
            load: Arc::new(rt.alloc(), Load::none())?,
            end,
            next: end + Duration::from_secs(1),
        })
    }

    fn callers(&self) -> Result<Vec<JoinHandle<Result<Vec<Call>, Fail>>>, Fail> {
        let mut threads = Vec::new(self.rt.alloc());
        for number in 0..16 {
            let caller = Caller {
                rt: self.rt,
                pool: self.pool.try_clone()?,
                load: Arc::try_clone(&self.load)?,
                number,
            };
            threads.push(thread::spawn(&self.rt, move || caller.calls())?)?;
        }
        Ok(threads)
    }

    fn go_through(&mut self, stretch: &[u64]) -> Result<(), Fail> {
        let rt = self.rt;
        self.load.begin(&stretch[1..]);
        self.end += Duration::from_millis(stretch[0]);
        for _ in rt.forever() {
            let now = self.pool.uptime();
            if self.next <= now {
                self.report()?;
                self.next += Duration::from_secs(1);
            } else if self.end <= now {
                break;
            } else {
                thread::sleep(&rt, self.next.min(self.end) - now);
            }
        }
        Ok(())
    }

    // It tells too when the report was made, in nanoseconds: what came before is in it, and nothing
    // of what came after.
    fn report(&mut self) -> Result<(), Fail> {
        let began = self.pool.uptime().as_nanos();
        let line = report_of(self.rt.alloc(), "soak", &self.pool, &self.metrics)?;
        let done = self.pool.uptime().as_nanos();
        println!(self.rt; "{line}\nreport {began} {done}")?;
        Ok(())
    }
}
