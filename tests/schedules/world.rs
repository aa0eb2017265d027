// What the threads or tasks of a run share: its clock, its choices, and what was seen of it.

use crate::*;

/// The milliseconds of no moment.
pub(crate) const NEVER: u64 = u64::MAX;

/// The milliseconds of a long wait, at the least.
pub(crate) const LONG: u64 = 500_000;

/// The milliseconds after which an opening of tasks that failed is tried again, at the most.
pub(crate) const LONGEST_DELAY: u64 = 1_000;

/// More than there are callers, tasks, or connections at once.
const PLACES: usize = 16;

/// What is counted in a run, or kept.
#[derive(Clone, Copy)]
pub(crate) enum Count {
    Faults,
    Opened,
    Dropped,
    Detached,
    /// Managers that were dropped.
    Ended,
    /// What went wrong, by the manager's choice.
    Bad,
    Lent,
    /// Openings that began and have not ended.
    Opening,
    /// Threads in a callback that takes long, and handlers that stayed for good.
    Busy,
    Stayed,
    /// Calls of `close` and `drain` that returned, by threads.
    Closed,
    /// Whether all but the workers have ended. Of tasks nothing goes wrong then any more.
    Over,
    /// Callers who came to stand in line.
    Joined,
    /// Drains that wait, and workers that have not ended, of tasks.
    Draining,
    Workers,
    /// Futures that threads dropped before their end, or moved.
    GivenUp,
    Moved,
    /// The task that is polled, what it began to check in that poll, and what it closed unchecked.
    Polled,
    Checks,
    Closes,
    /// Calls of a callback into its own pool.
    Called,
    /// The milliseconds of the clock of one thread.
    Now,
    /// The millisecond after the latest check that failed; 0 where none did.
    Unsound,
    /// What has been idle since before this moment is distrusted.
    Distrusted,
    /// Connections that callers were lent.
    Taken,
}

/// A call of `get` that waits, as its caller tells it.
#[derive(Clone, Copy)]
pub(crate) struct Wait {
    /// Since which microsecond it waits, or which one it was of those who came to wait.
    pub(crate) since: u64,
    /// How long its call has lasted, and for how many seconds it may.
    pub(crate) watch: Stopwatch,
    pub(crate) seconds: u64,
    /// It keeps its place during its check.
    pub(crate) checks: bool,
}

impl Wait {
    pub(crate) fn of(since: u64, watch: Stopwatch, seconds: u64) -> Wait {
        let checks = false;
        Wait {
            since,
            watch,
            seconds,
            checks,
        }
    }
}

pub(crate) fn of(it: &AtomicU64) -> u64 {
    it.load(Ordering::SeqCst)
}

fn zeros<const N: usize>() -> [AtomicU64; N] {
    [(); N].map(|()| AtomicU64::new(0))
}

/// One of so many, as the scheduler chooses: it answers the wall clock.
pub(crate) fn drawn<R: Clock>(rt: &R, among: u64) -> u64 {
    rt.since_1970().map_or(0, |time| time.as_secs() % among)
}

#[derive(Drop)]
pub(crate) struct World {
    pub(crate) rt: HostRuntime,
    pub(crate) plan: Plan,
    pub(crate) choices: Mutex<Choices>,
    /// The pool that a callback calls.
    pub(crate) own: Mutex<Option<Arc<Box<dyn Own>>>>,
    /// The tasks that no thread has yet to which they move.
    pub(crate) moving: Mutex<Vec<Task>>,
    /// Whether each step is told, where no scheduler does.
    pub(crate) is_told: bool,
    /// After how many milliseconds a connection is too old, where some are.
    pub(crate) lifetime: u64,
    /// For how many milliseconds a connection is idle that is checked, where not all are.
    pub(crate) after_idle: u64,
    counts: [AtomicU64; 25],
    // By caller.
    waits: Mutex<[Option<Wait>; PLACES]>,
    // The latest return, if somebody waited.
    returned: Mutex<Option<Return>>,
    // By task: when the sleep ends that its latest poll left.
    sleeps: [AtomicU64; PLACES],
    // Since when connections are idle, by their numbers; NEVER where they are not.
    idle: [AtomicU64; PLACES],
}

impl World {
    pub(crate) fn new(rt: HostRuntime, plan: Plan, choices: Choices, is_told: bool) -> World {
        let (lifetime, after_idle) = [(5, 3), (8_000, 4_000)][usize::from(plan.is_drawn())];
        let world = World {
            rt,
            plan,
            choices: Mutex::new(choices),
            own: Mutex::new(None),
            moving: Mutex::new(Vec::new(rt.alloc())),
            is_told,
            lifetime,
            after_idle,
            counts: zeros(),
            waits: Mutex::new([None; PLACES]),
            returned: Mutex::new(None),
            sleeps: zeros(),
            idle: zeros(),
        };
        world.begin();
        world
    }

    /// A run begins.
    pub(crate) fn begin(&self) {
        for count in &self.counts {
            count.store(0, Ordering::SeqCst);
        }
        for moment in self.sleeps.iter().chain(self.idle.iter()) {
            moment.store(NEVER, Ordering::SeqCst);
        }
        self.set(Count::Now, 1_000);
    }

    pub(crate) fn count(&self, what: Count) -> u64 {
        of(&self.counts[what as usize])
    }

    pub(crate) fn set(&self, what: Count, to: u64) {
        self.counts[what as usize].store(to, Ordering::SeqCst);
    }

    pub(crate) fn raise(&self, what: Count, to: u64) {
        self.counts[what as usize].fetch_max(to, Ordering::SeqCst);
    }

    /// One more; it answers how many there were.
    pub(crate) fn add(&self, what: Count) -> u64 {
        self.counts[what as usize].fetch_add(1, Ordering::SeqCst)
    }

    pub(crate) fn take_off(&self, what: Count) {
        self.counts[what as usize].fetch_sub(1, Ordering::SeqCst);
    }

    /// One of so many, as the scheduler chooses, or the way of the run.
    pub(crate) fn choose(&self, among: u64) -> u64 {
        if self.plan.is_drawn() {
            return drawn(&self.rt, among);
        }
        lock(&self.choices).map_or(0, |mut choices| choices.choose(among))
    }

    /// Whether this goes wrong, where it may.
    pub(crate) fn goes_wrong(&self, may: bool) -> bool {
        let is_over = self.plan.is_of_tasks && self.count(Count::Over) > 0;
        if !may || is_over || self.count(Count::Bad) >= self.plan.bad {
            return false;
        }
        let does = self.plan.within.is_some() || self.choose(2) == 1;
        if does {
            self.add(Count::Bad);
        }
        does
    }

    pub(crate) fn fault_if(&self, is_so: bool, what: &str) {
        if is_so {
            self.fault(what);
        }
    }

    /// A fault is told at once; of an order the first, with the way there.
    pub(crate) fn fault(&self, what: &str) {
        self.tell(what);
        let is_first = self.add(Count::Faults) == 0;
        if self.plan.is_drawn() {
            drop(eprintln!(self.rt; "{what}; ").ok());
        } else if let (true, Some(choices)) = (is_first, lock(&self.choices)) {
            drop(println!(self.rt; "fault {}: {what}", *choices).ok());
        }
    }

    pub(crate) fn has_faults(&self) -> bool {
        self.count(Count::Faults) > 0
    }

    /// A scheduler tells who does this.
    pub(crate) fn tell(&self, what: &str) {
        if self.plan.is_drawn() {
            drop(println!(self.rt; "{what}").ok());
        } else {
            self.tell_of(self.count(Count::Polled), what);
        }
    }

    pub(crate) fn tell_number(&self, what: &str, number: u64) {
        if let Ok(said) = format!(in self.rt.alloc(); "{what} {number}") {
            self.tell(said.as_str());
        }
    }

    /// The same, of this task.
    pub(crate) fn tell_of(&self, who: u64, what: &str) {
        let (now, workers, callers) = (self.now(), self.plan.workers, self.plan.callers);
        let (name, before) = match who {
            _ if who < workers => ("worker", 0),
            _ if who < workers + callers => ("caller", workers),
            _ => ("keeper", workers + callers),
        };
        if self.is_told {
            drop(println!(self.rt; "{now:>9}  {name} {}  {what}", who + 1 - before).ok());
        }
    }

    /// The connection with this number is idle since then, or NEVER. It answers since when it was.
    pub(crate) fn set_idle(&self, number: u64, since: u64) -> u64 {
        self.idle[number as usize % PLACES].swap(since, Ordering::SeqCst)
    }

    /// Whether the lending order has what is idle since then come before all else.
    pub(crate) fn comes_first(&self, since: u64) -> bool {
        let mut others = self.idle.iter().map(of).filter(|other| *other < NEVER);
        others.all(|other| other == since || self.plan.oldest == (since < other))
    }
}

/// Who waits.
impl World {
    /// A caller waits, or does no more.
    pub(crate) fn set_wait(&self, who: u64, wait: Option<Wait>) {
        if let Some(mut waits) = lock(&self.waits) {
            waits[who as usize] = wait;
        }
    }

    pub(crate) fn wait_of(&self, who: u64) -> Option<Wait> {
        lock(&self.waits).and_then(|waits| waits[who as usize])
    }

    /// Whether one waits since then, or since before.
    pub(crate) fn waits_since(&self, moment: u64) -> bool {
        lock(&self.waits).is_some_and(|waits| waits.iter().flatten().any(|it| it.since <= moment))
    }

    pub(crate) fn set_return(&self, it: Option<Return>) {
        if let Some(mut returned) = lock(&self.returned) {
            *returned = it;
        }
    }

    pub(crate) fn latest_return(&self) -> Option<Return> {
        lock(&self.returned).and_then(|it| *it)
    }

    /// How many have a place of which this is so, and whose time ends after this moment.
    pub(crate) fn waiting<F: Fn(&Wait) -> bool>(&self, now: u64, is_so: F) -> u64 {
        let has_time = |it: &Wait| now < it.watch.begun + it.seconds * 1_000;
        lock(&self.waits).map_or(0, |waits| {
            let placed = waits.iter().flatten();
            placed.filter(|it| has_time(it) && is_so(it)).count() as u64
        })
    }

    /// How many whose time is not over wait for longer than since then. Where time went on before it
    /// had to, such a one may not have come to its wait.
    pub(crate) fn ahead_of(&self, own: u64) -> u64 {
        let (now, jumps) = (self.now(), self.jumps());
        self.waiting(
            now,
            |it| !it.checks && it.since < own && it.watch.jumps == jumps,
        )
    }
}

/// Time.
impl World {
    /// The milliseconds of its clock.
    pub(crate) fn now(&self) -> u64 {
        if !self.plan.is_drawn() {
            return self.count(Count::Now);
        }
        self.rt.monotonic().map_or(0, |now| now.as_millis() as u64)
    }

    /// Its microseconds.
    pub(crate) fn micros(&self) -> u64 {
        if !self.plan.is_drawn() {
            return self.now() * 1_000;
        }
        self.rt.monotonic().map_or(0, |now| now.as_micros() as u64)
    }

    /// How often time went on before it had to: the scheduler tells it by the wall clock.
    pub(crate) fn jumps(&self) -> u64 {
        if !self.plan.is_drawn() {
            return 0;
        }
        let time = self.rt.since_1970();
        time.map_or(0, |time| u64::from(time.subsec_nanos()))
    }

    /// Time goes on to the next moment at which a sleep ends.
    pub(crate) fn pass(&self) {
        let moment = self.next_end().unwrap_or(0);
        self.raise(Count::Now, moment);
        if self.is_told {
            drop(println!(self.rt; "{moment:>9}  time goes on").ok());
        }
    }

    /// This task is polled, and has no sleep yet that the poll leaves. Where threads poll, a sleep
    /// is one of all workers, since it is not told which task it is of.
    pub(crate) fn poll(&self, who: u64) {
        let is_worker = who < self.plan.workers;
        for (what, to) in [(Count::Polled, who), (Count::Checks, 0), (Count::Closes, 0)] {
            self.set(what, to);
        }
        if !self.plan.is_drawn() || is_worker && self.is_due_in(who, 0) {
            self.set_sleep(who, NEVER);
        }
    }

    pub(crate) fn set_sleep(&self, who: u64, end: u64) {
        self.sleeps[who as usize].store(end, Ordering::SeqCst);
    }

    /// The task that is polled sleeps until then.
    pub(crate) fn sleeps_until(&self, end: u64) {
        if !self.plan.is_drawn() {
            let polled = self.count(Count::Polled) as usize;
            self.sleeps[polled].fetch_min(end, Ordering::SeqCst);
        } else if end.saturating_sub(self.now()) < LONG {
            for sleep in self.sleeps.iter().take(self.plan.workers as usize) {
                sleep.fetch_min(end, Ordering::SeqCst);
            }
        }
    }

    /// Whether this task sleeps until some moment that comes within so many milliseconds.
    pub(crate) fn is_due_in(&self, who: u64, length: u64) -> bool {
        of(&self.sleeps[who as usize]) <= self.now() + length
    }

    /// The next moment at which a sleep ends, if there is one.
    pub(crate) fn next_end(&self) -> Option<u64> {
        self.sleeps.iter().map(of).min().filter(|end| *end < NEVER)
    }
}
