// The connections, their manager, and the handlers of a pool for threads.

use crate::*;
use r2d2::event::{
    AcquireEvent, CheckinEvent, CheckoutEvent, HandleEvent, ReleaseEvent, ReleaseReason,
    TimeoutEvent,
};
use r2d2::{CustomizeConnection, HandleError};

/// How many seconds a handler stays: longer than any caller waits.
pub(crate) const STAY: u64 = 5_000;

/// How many seconds less than others a connection may live.
pub(crate) const JITTER: u64 = 6;

/// A connection.
pub(crate) struct Line {
    world: &'static World,
    pub(crate) seen: Seen,
}

/// What was seen of it.
#[derive(Clone, Copy, Default)]
pub(crate) struct Seen {
    /// How many were opened before it.
    number: u64,
    users: u64,
    is_detached: bool,
    /// Since it was opened, and since it is idle, or was before it was lent; where that is judged.
    opened: Option<Stopwatch>,
    idle: Option<Stopwatch>,
    /// Whether it was checked since then, and what that showed.
    pub(crate) is_checked: bool,
    is_unsound: bool,
    /// Whether it was too old as it came back.
    is_old: bool,
}

impl Line {
    pub(crate) fn open(world: &'static World) -> Result<Line, fmt::Error> {
        if world.goes_wrong(world.plan.fails) {
            world.tell("fails to open a connection");
            return Err(fmt::Error);
        }
        world.tell("opens a connection");
        let mut seen = Seen::default();
        seen.number = world.add(Count::Opened);
        let mut line = Line { world, seen };
        line.rests();
        line.seen.opened = line.seen.idle;
        Ok(line)
    }

    // It is idle from now on.
    fn rests(&mut self) {
        let world = self.world;
        self.seen.idle = world.plan.is_timed().then(|| Stopwatch::begin(world));
        if let Some(watch) = &self.seen.idle {
            world.set_idle(self.seen.number, watch.begun);
        }
    }

    // It comes back; whether it is broken.
    pub(crate) fn comes_back(&mut self) -> bool {
        let (world, plan) = (self.world, &self.world.plan);
        let age = self.seen.opened.and_then(|opened| opened.passed(world));
        self.seen.is_old = plan.ends_by_age() && age.is_some_and(|age| age >= world.lifetime);
        self.rests();
        self.seen.is_checked = false;
        world.takes(plan.slow_returns && world.choose(2) == 1, 3);
        let is_broken = world.goes_wrong(plan.breaks);
        if is_broken {
            world.tell("finds a connection broken");
        }
        is_broken
    }

    // It is idle no more: it was the next one to be lent.
    fn is_taken(&self) {
        let world = self.world;
        let since = world.set_idle(self.seen.number, NEVER);
        let is_judged = since < NEVER && !world.plan.is_drawn();
        let is_other = is_judged && !world.comes_first(since);
        world.fault_if(is_other, "another one is lent than the next");
    }

    // Whether it was idle for so long that it has to be checked, where not all are.
    fn is_due(&self) -> Option<bool> {
        let world = self.world;
        let idle = self.seen.idle?.passed(world)?;
        world.plan.after_idle.then(|| idle >= world.after_idle)
    }

    // It is checked, which has to be due.
    pub(crate) fn begins_check(&mut self) {
        let world = self.world;
        world.tell("checks a connection");
        world.add(Count::Checks);
        self.is_taken();
        self.seen.is_checked = true;
        faults! { world;
            "what was idle for a moment is checked" if self.is_due() == Some(false);
            "what is distrusted is checked" if self.is_distrusted();
        }
    }

    // What a check shows that began in that millisecond.
    pub(crate) fn ends_check(&mut self, began: u64) -> Result<(), fmt::Error> {
        let (world, plan) = (self.world, &self.world.plan);
        self.seen.is_unsound = world.goes_wrong(plan.checks && plan.within.is_none());
        if !self.seen.is_unsound {
            return Ok(());
        }
        world.tell("finds a connection unsound");
        if plan.is_served_in_order() {
            world.set(Count::Unsound, world.now() + 1);
        }
        world.raise(Count::Distrusted, began);
        Err(fmt::Error)
    }

    /// Whether a failed check told of it.
    pub(crate) fn is_distrusted(&self) -> bool {
        let before = self.world.count(Count::Distrusted);
        self.world.plan.distrusts && self.seen.idle.is_some_and(|idle| idle.begun < before)
    }

    /// It is lent now: to nobody else, young enough, and checked where that is due.
    pub(crate) fn is_lent(&mut self) {
        self.seen.users += 1;
        let (world, seen) = (self.world, &self.seen);
        world.tell_number("is lent connection", seen.number);
        self.is_taken();
        faults! { world;
            "a connection is lent that is lent" if seen.users > 1;
            "more are lent than max_size" if world.add(Count::Lent) >= world.plan.size;
            "what is too old is kept" if seen.is_old;
            "what was idle for long is lent unchecked" if !seen.is_checked && self.is_due() == Some(true);
        }
    }

    /// Its caller is done with it; whether it detaches it.
    pub(crate) fn is_let_go(&mut self) -> bool {
        let world = self.world;
        world.take_off(Count::Lent);
        self.seen.users -= 1;
        let ways = if world.plan.is_of_tasks { 2 } else { 3 };
        let detaches = world.plan.detaches && world.choose(ways) == 1;
        let what = if detaches { "detaches" } else { "gives back" };
        world.tell_number(what, self.seen.number);
        detaches
    }

    /// It was detached.
    pub(crate) fn leaves(mut self) {
        self.seen.is_detached = true;
        if !self.world.plan.is_of_tasks {
            thread::yield_now();
        }
    }
}

impl Drop for Line {
    fn drop(self) {
        let Line { world, seen } = self;
        world.set_idle(seen.number, NEVER);
        if !seen.is_unsound {
            world.add(Count::Closes);
        }
        world.add([Count::Dropped, Count::Detached][usize::from(seen.is_detached)]);
    }
}

impl World {
    // This takes so long, if it does. A handler that stays is the first one.
    fn takes(&self, does: bool, seconds: u64) {
        if does && (seconds < STAY || self.add(Count::Stayed) == 0) {
            self.add(Count::Busy);
            sleep(self, seconds);
            self.take_off(Count::Busy);
        }
    }
}

/// Opens lines and checks them. What goes wrong is a choice of the run.
pub(crate) struct Manager(pub(crate) &'static World);

impl Drop for Manager {
    fn drop(self) {
        let Manager(world) = self;
        world.add(Count::Ended);
    }
}

impl r2d2::ManageConnection for Manager {
    type Connection = Line;

    type Error = fmt::Error;

    type Extension = ();

    fn connect(&self) -> Result<Line, fmt::Error> {
        let (world, plan) = (self.0, &self.0.plan);
        world.calls("connect");
        world.add(Count::Opening);
        world.takes(plan.slow_openings && world.choose(2) == 1, 3);
        thread::yield_now();
        let opened = Line::open(world);
        world.take_off(Count::Opening);
        opened
    }

    fn is_valid(&self, line: &mut Line) -> Result<(), fmt::Error> {
        let (world, plan) = (self.0, &self.0.plan);
        world.calls("is_valid");
        line.begins_check();
        world.takes(plan.slow_checks && world.choose(2) == 1, 2);
        line.ends_check(0)
    }

    fn has_broken(&self, line: &mut Line) -> bool {
        self.0.calls("has_broken");
        line.comes_back()
    }
}

/// The handlers, each of which may call into its own pool.
impl HandleError<fmt::Error> for Place {
    fn handle_error(&self, _error: fmt::Error) {
        self.0.calls("handle_error");
        self.0.takes(self.0.plan.error_stays, STAY);
    }
}

impl HandleEvent for Place {
    fn handle_acquire(&self, _event: AcquireEvent) {
        self.0.calls("handle_acquire");
    }

    fn handle_release(&self, event: ReleaseEvent) {
        let (world, plan) = (self.0, &self.0.plan);
        world.calls("handle_release");
        let is_young = event.age().as_secs() < world.lifetime / 1_000 - JITTER;
        let is_early = event.reason() == ReleaseReason::Lifetime && is_young;
        world.fault_if(is_early, "what is young is closed for its age");
        world.takes(plan.release_stays, STAY);
        world.takes(plan.slow_releases && world.choose(2) == 1, 3);
    }

    fn handle_checkout(&self, _event: CheckoutEvent) {
        self.0.calls("handle_checkout");
    }

    fn handle_timeout(&self, _event: TimeoutEvent) {
        self.0.calls("handle_timeout");
    }

    fn handle_checkin(&self, _event: CheckinEvent) {
        self.0.calls("handle_checkin");
    }
}

impl CustomizeConnection<Line, fmt::Error> for Place {
    fn on_acquire(&self, _line: &mut Line) -> Result<(), fmt::Error> {
        self.0.calls("on_acquire");
        Ok(())
    }

    fn on_release(&self, line: Line) {
        drop(line);
        self.0.calls("on_release");
    }
}
