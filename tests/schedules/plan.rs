// What a run does: a scenario of tools/schedules/scenarios.txt, which says what its words mean.

use crate::*;

/// How many seconds a caller waits that has all the time in the world.
pub(crate) const PATIENT: u64 = 1_000;

const IMPATIENT: u64 = 5;

/// How often a thread yields at most, one time after the other, that finds the lock taken.
const TURNS: u64 = 10;

#[derive(Clone, Copy, Default)]
pub(crate) struct Plan {
    pub(crate) is_of_tasks: bool,
    pub(crate) is_counted: bool,
    pub(crate) size: u64,
    pub(crate) wanted: u64,
    pub(crate) workers: u64,
    pub(crate) callers: u64,
    pub(crate) impatient: u64,
    pub(crate) hasty: u64,
    pub(crate) calls: u64,
    pub(crate) most: u64,
    pub(crate) line: u64,
    pub(crate) bad: u64,
    pub(crate) closers: u64,
    pub(crate) drainers: u64,
    pub(crate) evictors: u64,
    pub(crate) drops: u64,
    pub(crate) needless: u64,
    pub(crate) early: u64,
    pub(crate) leaves: u64,
    pub(crate) moves: u64,
    /// How many threads poll the tasks, as a scheduler draws; 0 for all orders on one.
    pub(crate) threads: u64,
    pub(crate) fails: bool,
    pub(crate) checks: bool,
    pub(crate) breaks: bool,
    pub(crate) distrusts: bool,
    pub(crate) after_idle: bool,
    pub(crate) reaps: bool,
    pub(crate) lifetimes: bool,
    pub(crate) jitter: bool,
    pub(crate) oldest: bool,
    pub(crate) evicts: bool,
    pub(crate) detaches: bool,
    pub(crate) tries: bool,
    pub(crate) builds: bool,
    pub(crate) last_drop: bool,
    pub(crate) slow_openings: bool,
    pub(crate) slow_checks: bool,
    pub(crate) slow_returns: bool,
    pub(crate) slow_releases: bool,
    pub(crate) error_stays: bool,
    pub(crate) release_stays: bool,
    pub(crate) busy: bool,
    pub(crate) turns: bool,
    pub(crate) endless: bool,
    /// The callback that calls into its own pool, and the call that was drawn.
    pub(crate) within: Option<&'static str>,
    pub(crate) call: &'static str,
}

// Sets what a word names, and answers true; false follows where there is no such word.
macro_rules! set {
    ($plan:expr, $word:expr, $to:expr; $($name:ident)*) => {
        $(if $word == stringify!($name) {
            $plan.$name = $to;
            return true;
        })*
    };
}

impl Plan {
    /// The first one of this kind of pool: `plain`, `counted`, or one for tasks.
    pub(crate) fn new(kind: &str) -> Plan {
        let is_counted = kind == "counted";
        let is_of_tasks = !is_counted && kind != "plain";
        let (calls, line) = if is_of_tasks { (1, 8) } else { (2, 0) };
        Plan {
            is_of_tasks,
            is_counted,
            size: 1,
            workers: 1,
            callers: 2,
            calls,
            line,
            ..Plan::default()
        }
    }

    /// Takes a word of a scenario in; false where there is no such word.
    pub(crate) fn take(&mut self, word: &str) -> bool {
        let (name, value) = word.split_once('=').unwrap_or((word, ""));
        if name == "within" {
            self.within = within::named(value);
            return self.within.is_some();
        }
        if let Ok(number) = value.parse::<u64>() {
            set!(self, name, number; size wanted workers callers impatient hasty calls most line
                bad closers drainers evictors drops needless early leaves moves threads);
            return false;
        }
        set!(self, word, true; fails checks breaks distrusts after_idle reaps lifetimes jitter
            oldest evicts detaches tries builds last_drop slow_openings slow_checks slow_returns
            slow_releases error_stays release_stays busy turns endless);
        false
    }

    /// Whether a scheduler draws the run, which threads play; else all orders are played on one.
    pub(crate) fn is_drawn(&self) -> bool {
        !self.is_of_tasks || self.threads > 0
    }

    /// How many seconds this caller waits.
    pub(crate) fn patience_of(&self, caller: u64) -> u64 {
        match caller {
            _ if caller < self.impatient => IMPATIENT,
            _ if caller + self.hasty >= self.callers => 0,
            _ => PATIENT,
        }
    }

    /// How many may wait, in line or not; 0 for as many as come.
    pub(crate) fn may_wait(&self) -> u64 {
        self.most.max(self.line)
    }

    /// Whether each call of `get` begins to wait in the moment in which it is made, and those who
    /// wait longer than another have each to be lent a connection first, but for as many as hold
    /// the others. Who takes what is distrusted looks again in a moment that nobody tells.
    pub(crate) fn is_served_in_order(&self) -> bool {
        self.line > 0 && !self.distrusts && self.seconds_of_checks(1).is_some()
    }

    /// Whether is looked at how long a connection is open, and idle. On one thread each step takes
    /// a millisecond then.
    pub(crate) fn is_timed(&self) -> bool {
        let is_told = self.is_of_tasks && (self.distrusts || self.oldest);
        self.after_idle || self.ends_by_age() || is_told
    }

    /// Whether a connection grows too old.
    pub(crate) fn ends_by_age(&self) -> bool {
        self.jitter || self.lifetimes
    }

    /// Whether somebody closes the pool while others have it.
    pub(crate) fn closes(&self) -> bool {
        self.closers + self.drainers > 0
    }

    /// How many seconds a caller's own checks take at most, if it makes no more than so many. None
    /// where no moment can be told, since a handler of its own call is slow.
    pub(crate) fn seconds_of_checks(&self, checks: u64) -> Option<u64> {
        let is_told = !self.error_stays && self.releases_at_once();
        let each = 2 * u64::from(self.checks && self.slow_checks);
        (is_told || !self.checks).then_some(each * checks)
    }

    /// How many seconds a call yields at most that takes the lock.
    pub(crate) fn seconds_of_turns(&self) -> u64 {
        TURNS * u64::from(self.busy)
    }

    /// By how many seconds a call outlasts its time at most that looks again: its time may end as it
    /// yields for one more look, and it takes the lock for that.
    pub(crate) fn seconds_of_a_look(&self) -> u64 {
        self.seconds_of_turns() + u64::from(self.busy)
    }

    /// Whether a return and an eviction take no time.
    pub(crate) fn releases_at_once(&self) -> bool {
        !(self.release_stays || self.slow_releases)
    }
}
