// What is judged of pools of both crates.

use crate::*;

/// How long a call took. It tells nothing where time went on meanwhile before it had to, since then
/// the caller itself was slow.
#[derive(Clone, Copy)]
pub(crate) struct Stopwatch {
    pub(crate) jumps: u64,
    pub(crate) begun: u64,
    /// The same in microseconds.
    pub(crate) since: u64,
}

impl Stopwatch {
    pub(crate) fn begin(world: &World) -> Stopwatch {
        let (jumps, since) = (world.jumps(), world.micros());
        let begun = since / 1_000;
        Stopwatch { jumps, begun, since }
    }

    /// How many milliseconds passed.
    pub(crate) fn passed(&self, world: &World) -> Option<u64> {
        let passed = world.now() - self.begun;
        (world.jumps() == self.jumps).then_some(passed)
    }

    /// How many seconds it took: each deadline is a whole one.
    pub(crate) fn seconds(&self, world: &World) -> Option<u64> {
        self.passed(world).map(|passed| passed / 1_000)
    }

    /// The call took so long at least, and at most; where that is None it cannot be told.
    pub(crate) fn check(&self, world: &World, what: &str, least: u64, most: Option<u64>) {
        match self.seconds(world) {
            Some(taken) if taken < least || most.is_some_and(|most| taken > most) => {
                world.tell_number("it ends after seconds:", taken);
                world.fault(what);
            }
            _ => {}
        }
    }
}

/// The sums of a status.
pub(crate) fn sums(world: &World, status: &Status) {
    let held = status.connections + status.opening;
    let is_short = status.idle + status.opening < status.wanted && held < status.max_size;
    faults! { world;
        "idle and lent are not the connections" if status.idle + status.lent != status.connections;
        "more are held than max_size" if held > status.max_size;
        "too few are idle or pending" if !status.closed && is_short;
    }
}

/// Nobody can go on: so nobody may wait for what is there. So many callers wait, and drains; for
/// some, who are left alone, what is idle may be kept.
pub(crate) fn at_rest(world: &World, status: &Status, callers: u64, drains: u64, left: u64) {
    let waits = callers > 0 && !status.closed;
    let has_room = status.opening == 0 && status.connections < status.max_size;
    faults! { world;
        "a caller waits at a closed pool" if callers > 0 && status.closed;
        "somebody waits beside an idle connection" if waits && u64::from(status.idle) > left;
        "somebody waits, and nothing is ordered" if waits && has_room;
        "a drain waits, and nothing is lent" if drains > 0 && status.lent == 0;
    }
}

/// A `get` for so many seconds is told of an error.
pub(crate) fn refused(world: &World, error: &Error, watch: &Stopwatch, seconds: u64) {
    let plan = &world.plan;
    match error.kind() {
        ErrorKind::Timeout => {
            world.tell("is told of a timeout");
            watch.check(world, "a get is told of a timeout before it", seconds, None);
        }
        ErrorKind::Closed if plan.closes() => world.tell("is told that the pool is closed"),
        ErrorKind::QueueFull if plan.may_wait() > 0 => {
            world.tell("is told that as many wait as may")
        }
        ErrorKind::Closed => world.fault("a get is told of a close that was not"),
        ErrorKind::QueueFull => world.fault("a get is refused where as many may wait as come"),
        _ => world.fault("a get is told of what cannot be"),
    }
}

/// Everything is to be gone.
pub(crate) fn ends(world: &World) {
    let gone = world.count(Count::Dropped) + world.count(Count::Detached);
    faults! { world;
        "a worker or a pool is left" if world.count(Count::Ended) != 1;
        "more is opened than dropped or detached" if world.count(Count::Opened) != gone;
        "an opening is left" if world.count(Count::Opening) != 0;
    }
}
