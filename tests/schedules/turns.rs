// One that waits where a connection comes back is lent it before those who come later. That is so of
// a pool of one connection that was held for longer than turns are apart, where time did not go on
// before it had to: then one that was woken comes within the first yield of those who give way.

use crate::*;

/// The microseconds for which one is held that gives a turn at its return: turns are no further
/// apart. Who has waited for as long sleeps.
const APART: u64 = 1_000;

/// Who came fewer microseconds ago does not sleep yet.
const LOOKS: u64 = 10;

/// A call that finds one idle, and gives way to nobody, takes fewer microseconds than this: those of
/// the lock.
const AT_ONCE: u64 = 100;

/// A return to which somebody waited.
#[derive(Clone, Copy)]
pub(crate) struct Return {
    /// How many were lent by then.
    lent: u64,
    moment: u64,
}

/// A call of `get` that is about to begin, where nobody holds the connection, nor waits for it.
#[derive(Clone, Copy)]
pub(crate) struct Free {
    lent: u64,
    begun: u64,
}

/// Notes that one is about to come back that was lent at this moment.
pub(crate) fn comes_back(world: &World, since: u64) {
    let (lent, moment) = (world.count(Count::Taken), world.micros());
    let is_for_somebody = moment >= since + APART && world.waits_since(moment - APART);
    world.set_return(is_for_somebody.then_some(Return { lent, moment }));
}

/// Whether a call that begins now is to find one at once, if nobody takes it before.
pub(crate) fn begins<R: PoolRuntime>(world: &World, pool: &Pool<R>) -> Option<Free> {
    let status = pool.status();
    let (lent, begun) = (world.count(Count::Taken), world.micros());
    (status.idle > 0 && status.waiting == 0).then_some(Free { lent, begun })
}

/// One is lent to a call of `get` of this caller.
pub(crate) fn takes(world: &World, who: u64, free: Option<Free>) {
    let (lent, now) = (world.count(Count::Taken), world.micros());
    // (where the clock is read time may go on)
    if world.jumps() > 0 {
        return;
    }
    let is_late = free.is_some_and(|it| it.lent == lent && now >= it.begun + AT_ONCE);
    let came = world.wait_of(who).map_or(0, |it| it.since);
    let passes = |it: Return| it.lent == lent && came + LOOKS > it.moment;
    faults! { world;
        "a get takes time where one is idle, and nobody waits" if is_late;
        "who comes later is lent what one that waits was woken for"
            if world.latest_return().is_some_and(passes);
    }
}
