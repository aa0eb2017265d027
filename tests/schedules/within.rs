// A callback that calls into its own pool: docs/GUIDE.md, "Handlers", says what may be called from
// where, and this judges each of it.

use crate::*;

/// The callbacks: of an opening, of what is lent, and others.
const OF_OPENINGS: &str = "connect on_acquire handle_acquire handle_error";

const OF_LOANS: &str = "is_valid handle_checkout has_broken handle_checkin";

const OTHERS: &str = "handle_release on_release handle_timeout";

/// The calls, of which the schedule draws one.
const CALLS: &str = "try_get get get-and-detach evict close drain drop";

/// Openings without an end are this many at least.
const ENOUGH: u64 = 50;

/// The callback with this name.
pub(crate) fn named(name: &str) -> Option<&'static str> {
    let all = [OF_OPENINGS, OF_LOANS, OTHERS];
    all.iter()
        .find_map(|some| some.split(' ').find(|it| *it == name))
}

/// What the schedule draws of such a run: the call, and whether there is one connection and one
/// worker, or two. Without end it is an eviction.
pub(crate) fn draw<R: Clock>(rt: &R, plan: &mut Plan) {
    plan.checks = true;
    if plan.endless {
        plan.size = 2;
        plan.wanted = 2;
        plan.call = "evict";
    } else {
        plan.size = 1 + drawn(rt, 2);
        plan.workers = plan.size;
        plan.call = CALLS
            .split(' ')
            .nth(drawn(rt, 12) as usize % 7)
            .unwrap_or("");
    }
}

/// The pool that a callback calls.
pub(crate) trait Own: Drop + Send + Sync {
    /// Whether the call, for a second, is met as it is to be.
    fn is_met(&self, world: &World, call: &str, waits_out: bool) -> bool;
}

impl<R: PoolRuntime> Own for Pool<R> {
    fn is_met(&self, world: &World, call: &str, waits_out: bool) -> bool {
        match call {
            "get" => self.get(1).is_ok() != waits_out,
            "get-and-detach" => self.get(1).map(Lent::detach).is_ok() != waits_out,
            "drain" => self.drain(1).is_ok() != waits_out,
            "try_get" => self.try_get().is_ok(),
            "evict" if world.count(Count::Opened) <= ENOUGH => self.evict().is_ok(),
            // Nothing else ends evictions without an end.
            _ => {
                self.close();
                true
            }
        }
    }
}

impl World {
    /// This callback is called, which calls into its own pool where the run is about it, and it has
    /// not often enough.
    pub(crate) fn calls(&self, callback: &str) {
        let (plan, call) = (&self.plan, self.plan.call);
        if plan.within != Some(callback) || self.add(Count::Called) > 0 && !plan.endless {
            return;
        }
        let (Some(pool), true) = (self.own_pool(call == "drop"), call != "drop") else {
            return;
        };
        self.tell(call);
        let watch = Stopwatch::begin(self);
        let waits_out = self.waits_out(callback, call);
        let is_met = pool.is_met(self, call, waits_out);
        // Nothing is said where time went on meanwhile before it had to.
        if let Some(taken) = watch.seconds(self) {
            faults! { self;
                "a call within a callback takes another time" if taken != u64::from(waits_out);
                "a call within a callback answers otherwise" if !is_met;
            }
        }
    }

    // The pool itself, or another one.
    fn own_pool(&self, takes_it: bool) -> Option<Arc<Box<dyn Own>>> {
        let mut held = lock(&self.own)?;
        if takes_it {
            held.take()
        } else {
            Arc::try_clone(held.as_ref()?).ok()
        }
    }

    // The table: whether such a call waits for what its own callback keeps.
    fn waits_out(&self, within: &str, call: &str) -> bool {
        let is_among = |words: &str| words.split(' ').any(|it| it == within);
        let (is_lent, is_opening) = (is_among(OF_LOANS), is_among(OF_OPENINGS));
        // Where a caller gives up, all is lent, as this program has it.
        let gives_up = within == "handle_timeout";
        match call {
            "get" | "get-and-detach" => gives_up || self.plan.size == 1 && (is_lent || is_opening),
            "drain" => gives_up || is_lent,
            _ => false,
        }
    }
}

/// Plays the callback with the call that was drawn; without end, if the plan says so.
pub(crate) fn play<R: PoolRuntime>(rt: R, world: &'static World) -> Result<(), Fail> {
    let pool = thread_pool(rt, world)?;
    if let Some(mut held) = lock(&world.own) {
        let own: Box<dyn Own> = Box::new(rt.alloc(), pool.try_clone()?)?;
        *held = Some(Arc::new(rt.alloc(), own)?);
    }
    if world.plan.endless {
        opens_for_ever(world, &pool);
    } else {
        uses(world, pool.try_clone()?);
    }
    drop(pool);
    drop(world.own_pool(true));
    let is_never = world.count(Count::Called) == 0;
    world.fault_if(is_never, "the callback is never called");
    Ok(())
}

// A get and a return, and as many as there are with one more that waits in vain, so that each
// callback is called. The pool that is handed in may be the last one.
fn uses<R: PoolRuntime>(world: &World, pool: Pool<R>) {
    let gives_up = world.plan.within == Some("handle_timeout");
    let first = pool.get(PATIENT).ok();
    let second = (gives_up && world.plan.size > 1).then(|| pool.get(PATIENT).ok());
    if gives_up {
        drop(pool.get(1).ok());
    }
    let is_last = world.plan.call == "drop" && world.choose(2) == 0;
    let kept = (!is_last).then_some(pool);
    drop(first);
    drop(second);
    // Time for a worker's callback.
    sleep(world, 10);
    drop(kept);
}

// Each opening evicts what the last one opened, so there are never as many as are wanted.
fn opens_for_ever<R: PoolRuntime>(world: &World, pool: &Pool<R>) {
    // The first ones may have been opened before the manager had its pool.
    drop(pool.evict().ok());
    for _ in 0..1_000 {
        if pool.status().closed {
            break;
        }
        sleep(world, 1);
    }
    let is_over = world.count(Count::Opened) <= ENOUGH;
    world.fault_if(is_over, "an eviction in `connect` comes to an end");
}
