// A service over a pool, with its callers; and what is said of it, held against what they met.

use crate::kinds::{Calls, Get, Kind, Lent, Pool, Settings};
use crate::measured::Measure;
use crate::world::{Host, World};
use pool_metrics::report_of;
use pool_reports as reports;
use pool_reports::{State, Summary, Verdict, audit, from_json_of_pool, summarize};
use r2d2::{ErrorKind, NopErrorHandler};
use std::alloc::{AllocError, Global};
use std::process::Abort;
use std::test::Fail;
use std::time::Duration;

/// How a call goes.
#[derive(Clone, Copy, Default)]
pub(crate) struct Call {
    // For how many milliseconds it waits at most.
    patience: u64,
    // For how many it keeps what it is lent; None: it never gives it back.
    holds: Option<u64>,
    /// How often it calls again, where it failed.
    pub(crate) retries: u32,
}

/// A service, and what was said of its pool so far.
#[derive(Drop)]
pub(crate) struct Service<R: Host> {
    rt: R,
    world: &'static World,
    settings: Settings,
    pool: Pool<R>,
    metrics: Measure<R>,
    /// How calls go that come now.
    pub(crate) call: Call,
    // How many milliseconds there are between two looks, and at how many one call comes.
    pace: (u64, u64),
    callers: Vec<(Call, Get<R>)>,
    // What is lent, and until which moment.
    held: Vec<(Lent<R>, Option<u64>)>,
    // How many were served, and the moments at which one gave up or was refused.
    served: u64,
    failures: Vec<Duration>,
    // What callers had met up to the reports so far, as `pool-audit` keeps it.
    history: Vec<reports::Calls>,
}

impl<R: Host + Abort> Service<R> {
    /// Over a pool of this size, with room for so many records, and with a change of its settings.
    pub(crate) fn new<F: FnOnce(&mut Settings)>(
        rt: R,
        (size, room): (u32, usize),
        change: F,
    ) -> Result<Service<R>, Fail> {
        let world = World::new(rt.host(), Kind::Polled)?;
        let metrics = world.measure(rt, size, NopErrorHandler)?;
        world.connects.goes("5~+*");
        let settings = Settings::small(|own| {
            own.sized(size, size);
            own.workers = 4;
            (own.is_unchecked, own.is_checked) = (true, true);
            (own.max_lifetime, own.idle_timeout) = (Some(1_800_000), Some(600_000));
            own.journal_room = room;
            change(own);
        });
        Ok(Service {
            rt,
            world,
            settings,
            pool: Pool::of(rt, world, settings)?,
            metrics,
            call: Call::default(),
            pace: (1, 1),
            callers: Vec::new(rt.alloc()),
            held: Vec::new(rt.alloc()),
            served: 0,
            failures: Vec::new(rt.alloc()),
            history: Vec::new(rt.alloc()),
        })
    }

    /// Plays a script: after a semicolon its next part, and the steps of one as often as its end
    /// says. They are
    ///
    /// - `each 500 2 50 9`: at each second look, which is made every 500 ms, comes a call from now
    ///   on, which waits for 50 ms and holds what it is lent for 9; `-` stands for as long as the
    ///   pool says, and for ever;
    /// - `go 90` and `rest 10 90`: so many milliseconds with such calls, or none, with a look every
    ///   10 ms;
    /// - `crowd 8`: so many calls at once;
    /// - `says This|That`: one of these is what a report says first that is made now; `only This`:
    ///   it says nothing else; `report` makes one;
    /// - `connects -*`, `checks -*` and `breaks -*`: the server does so from now on;
    /// - `lose`: it loses what it had; `evict`: the pool closes what it has.
    pub(crate) fn plays(&mut self, script: &'static str) -> Result<(), Fail> {
        for part in script.split("; ") {
            let (steps, times) = part.split_once(" x").unwrap_or((part, "1"));
            for _ in 0..times.parse::<u32>()? {
                for step in steps.split(", ") {
                    self.step(step)?;
                }
            }
        }
        Ok(())
    }

    fn step(&mut self, step: &'static str) -> Result<(), Fail> {
        let (verb, words) = step.split_once(' ').unwrap_or((step, ""));
        let mut numbers = words.split(' ').map(|word| word.parse::<u64>().ok());
        let mut next = || numbers.next().flatten();
        let (first, second) = (next().unwrap_or(0), next().unwrap_or(1));
        let (call, pace) = (self.call, self.pace);
        match verb {
            "each" => {
                self.pace = (first, second);
                self.call.patience = next().unwrap_or(self.settings.connection_timeout);
                self.call.holds = next();
            }
            "go" => self.look(first, pace.0, Some(pace.1))?,
            "rest" => self.look(second, first, None)?,
            "crowd" => (0..first).try_for_each(|_| self.ask(call))?,
            "says" => drop(self.says(words)?),
            "only" => {
                let (rt, said) = (self.rt, self.says(words)?);
                assert_eq!(rt; said.concerns().iter().flatten().count(), 1);
            }
            "report" => drop(self.report()?),
            "connects" => self.world.connects.goes(words),
            "checks" => self.world.checks.goes(words),
            "breaks" => self.world.breaks.goes(words),
            "lose" => self.world.lose_all(),
            "evict" => drop(self.pool.evict()?),
            _ => return Err(Fail::from("no step")),
        }
        Ok(())
    }

    fn ask(&mut self, call: Call) -> Result<(), Fail> {
        let get = self.pool.comes(call.patience)?;
        Ok(self.callers.push((call, get))?)
    }

    // What comes of the next milliseconds, at looks so many of them apart, and of a call at each so
    // many of these.
    fn look(&mut self, length: u64, tick: u64, every: Option<u64>) -> Result<(), Fail> {
        let call = self.call;
        for turn in 0..length / tick {
            if every.is_some_and(|every| turn % every == 0) {
                self.ask(call)?;
            }
            self.world.pass(tick);
            let (now, held) = (self.world.now(), &mut self.held);
            held.retain(|(_, until)| until.is_none_or(|until| now < until));
            self.pool.work();
            self.answer()?;
        }
        Ok(())
    }

    /// The moment since the making of the pool.
    pub(crate) fn moment(&self) -> Duration {
        Duration::from_millis(self.pool.uptime())
    }

    // Each call that came to an end, those that came first before others.
    fn answer(&mut self) -> Result<(), Fail> {
        for _ in 0..self.callers.len() {
            let (call, mut get) = self.callers.remove(0);
            if !get.has_ended() {
                self.callers.push((call, get))?;
                continue;
            }
            match self.pool.end(get)? {
                Ok(lent) => {
                    let until = call.holds.map(|holds| self.world.now() + holds);
                    self.served += 1;
                    self.held.push((lent, until))?;
                }
                Err(error) => self.refuse(error.kind(), call)?,
            }
        }
        Ok(())
    }

    fn refuse(&mut self, kind: ErrorKind, call: Call) -> Result<(), Fail> {
        let rt = self.rt;
        assert!(rt; matches!(kind, ErrorKind::Timeout | ErrorKind::QueueFull), "{kind:?}");
        self.failures.push(self.moment())?;
        if call.retries == 0 {
            return Ok(());
        }
        let retries = call.retries - 1;
        self.ask(Call { retries, ..call })
    }

    /// What a report that is made now says, after it was written and read again. It fails where the
    /// report is unsound, or where all is well though a caller failed.
    pub(crate) fn report(&mut self) -> Result<Summary, Fail> {
        let (rt, Calls::Task(pool)) = (self.rt, &self.pool.calls) else {
            return Err(Fail::from("no pool for tasks"));
        };
        let text = report_of(rt.alloc(), "pool", pool, &self.metrics)?;
        let written = from_json_of_pool(rt.alloc(), text.as_str())?;
        let (report, history) = (&written.report, &mut self.history);
        assert_eq!(rt; audit(rt.alloc(), report)?, Verdict::Sound);
        let earlier = reports::Calls::before(history.as_slice(), report.base.at);
        let said = summarize(rt.alloc(), report, &written.origin(), earlier.as_ref())?;
        if let Some(status) = &written.status {
            history.push(reports::Calls::of(report.takes, status, said.until))?;
        }
        assert!(rt; report.takes >= self.served, "fewer takes than were served");
        assert!(rt; !self.failed_in(&said) || said.state() != State::Well, "{said:?}");
        Ok(said)
    }

    // Whether one failed at a moment that a report covers, or that its counts are of.
    fn failed_in(&self, said: &Summary) -> bool {
        let counted = said.calls.map_or(said.from, |calls| calls.since);
        let (since, mut failures) = (counted.min(said.from), self.failures.iter());
        failures.any(|at| since < *at && *at <= said.until)
    }

    // What a report says that is made now, which begins with one of these.
    fn says(&mut self, firsts: &str) -> Result<Summary, Fail> {
        let (rt, said) = (self.rt, self.report()?);
        let (settings, at, told) = (self.settings, self.moment(), first_of(rt.alloc(), &said)?);
        let is_so = firsts.split('|').any(|first| first == told.as_str());
        assert!(rt; is_so, "{told} is not {firsts}: {settings:?} at {at:?}");
        Ok(said)
    }
}

/// The name of the first concern, or else that of the state.
pub(crate) fn first_of(alloc: Global, summary: &Summary) -> Result<String, AllocError> {
    let shown = match summary.concerns().iter().flatten().next() {
        Some(concern) => format!(in alloc; "{concern:?}")?,
        None => format!(in alloc; "{:?}", summary.state())?,
    };
    let name = shown.as_str().split(' ').next();
    String::from_str(alloc, name.unwrap_or(""))
}
