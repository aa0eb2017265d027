// What the threads of a run do with their pool, and what is judged.

use crate::*;

/// A sleep of so many seconds ends where nobody else can go on.
const WATCH: u64 = 77_777;

pub(crate) fn sleep(world: &World, seconds: u64) {
    thread::sleep(&world.rt, Duration::from_secs(seconds));
}

pub(crate) fn join_all<R: PoolRuntime>(rt: &R, threads: Vec<JoinHandle<()>>) {
    for thread in threads {
        thread.join(rt);
    }
}

pub(crate) fn play<R: PoolRuntime>(rt: R, world: &'static World) -> Result<(), Fail> {
    if !world.plan.builds {
        return shared(rt, world, thread_pool(rt, world)?);
    }
    let wait = if world.choose(2) == 0 { 2 } else { PATIENT };
    let builder = builder_of(world).connection_timeout(Duration::from_secs(wait));
    let watch = Stopwatch::begin(world);
    let made = builder.build(rt, Manager(world));
    watch.check(world, "build ends later than its timeout", 0, Some(wait));
    let Ok(pool) = made else {
        watch.check(world, "build gives up before its timeout", wait, None);
        world.fault_if(wait == PATIENT, "a build with all the time gives up");
        return Ok(());
    };
    let is_short = u64::from(pool.status().connections) < world.plan.wanted;
    world.fault_if(is_short, "build ends, and fewer are open than are wanted");
    shared(rt, world, Pool::Plain(pool))
}

// The pool in the hands of all, until they have ended.
fn shared<R: PoolRuntime>(rt: R, world: &'static World, pool: Pool<R>) -> Result<(), Fail> {
    let mut threads = Vec::new(rt.alloc());
    for who in 0..world.plan.callers {
        let theirs = pool.try_clone()?;
        threads.push(thread::spawn(&rt, move || calls(world, theirs, who))?)?;
    }
    if world.plan.last_drop {
        drop(pool);
        join_all(&rt, threads);
        return Ok(());
    }
    let theirs = pool.try_clone()?;
    let watcher = thread::spawn(&rt, move || watches(world, theirs))?;
    join_all(&rt, threads);
    let is_left = pool.status().waiting != 0;
    world.fault_if(is_left, "somebody waits, and all have ended");
    // Time for what failed to be tried again.
    sleep(world, 100);
    rests(world, &pool);
    world.add(Count::Over);
    watcher.join(&rt);
    Ok(())
}

// What is to be where nobody calls any more.
fn rests<R: PoolRuntime>(world: &World, pool: &Pool<R>) {
    let (plan, status) = (&world.plan, pool.status());
    judge::sums(world, &status);
    let is_busy = plan.reaps || plan.jitter || plan.error_stays || plan.release_stays;
    let is_undone = !is_busy && !status.closed && status.opening != 0;
    faults! { world;
        "an opening is left at the end" if is_undone;
        "a closed pool keeps a connection" if status.closed && status.connections != 0;
        "it is not as its callers left it: open, or closed" if status.closed != plan.closes();
    }
}

// Looks where nobody else can go on. At a closed pool only drains wait.
fn watches<R: PoolRuntime>(world: &World, pool: Pool<R>) {
    for _ in 0..400 {
        sleep(world, WATCH);
        let status = pool.status();
        judge::sums(world, &status);
        let opening = world.count(Count::Opening);
        let is_undone = u64::from(status.opening) > opening + world.count(Count::Bad);
        let is_idle = opening + world.count(Count::Busy) < world.plan.workers;
        world.fault_if(is_undone && is_idle, "a worker rests beside an opening");
        let drains = if status.closed { status.waiting } else { 0 };
        judge::at_rest(world, &status, status.waiting - drains, drains, 0);
        if world.count(Count::Over) > 0 {
            return;
        }
    }
}

fn calls<R: PoolRuntime>(world: &World, pool: Pool<R>, who: u64) {
    let plan = &world.plan;
    for _ in 0..plan.calls {
        if plan.is_timed() || plan.turns {
            sleep(world, [0, 3, 5][world.choose(3) as usize]);
        }
        if plan.evicts && world.choose(4) == 0 {
            evicts(world, &pool);
        }
        if plan.tries && world.choose(4) == 0 {
            tries(world, &pool);
        } else {
            gets(world, &pool, who);
        }
    }
    if who < plan.closers {
        let watch = Stopwatch::begin(world);
        pool.close();
        watch.check(world, "a close takes time", 0, Some(0));
        world.add(Count::Closed);
        world.tell("has closed the pool");
    } else if who < plan.closers + plan.drainers {
        drains(world, &pool);
    }
}

fn gets<R: PoolRuntime>(world: &World, pool: &Pool<R>, who: u64) {
    let (plan, wait) = (&world.plan, world.plan.patience_of(who));
    world.tell_number("calls get, for seconds:", wait);
    let was_closed = world.count(Count::Closed) > 0;
    let watch = Stopwatch::begin(world);
    let free = if plan.turns { turns::begins(world, pool) } else { None };
    world.set_wait(who, Some(Wait::of(watch.since, watch, wait)));
    let found = pool.get(wait);
    if plan.is_served_in_order() && found.is_ok() {
        is_in_order(world, who);
    }
    if plan.turns && found.is_ok() {
        turns::takes(world, who, free);
    }
    world.set_wait(who, None);
    // It may be at its check as its time ends, or look again, and does so no other time then.
    let most = wait + plan.seconds_of_a_look();
    let most = plan.seconds_of_checks(1).map(|own| own + most);
    watch.check(world, "a get ends later than its timeout", 0, most);
    let status = pool.status();
    // Drains wait at a closed pool.
    let is_above = plan.may_wait() > 0 && status.waiting > plan.may_wait();
    world.fault_if(is_above && !status.closed, "more wait than may");
    match found {
        Ok(lent) => holds(world, lent, was_closed),
        Err(error) => {
            judge::refused(world, &error, &watch, wait);
            let has_time = wait == PATIENT || was_closed;
            is_refused_in_time(world, &error, &watch, has_time);
        }
    }
}

fn is_refused_in_time(world: &World, error: &Error, watch: &Stopwatch, has_time: bool) {
    let plan = &world.plan;
    let seconds = plan.seconds_of_checks(1);
    if error.kind() == ErrorKind::QueueFull {
        // One that waited, and whose check failed then, may be one too many.
        let most = (!plan.checks).then_some(plan.seconds_of_a_look());
        watch.check(world, "a get takes time to be refused", 0, most);
    } else if error.kind() == ErrorKind::Timeout {
        if plan.busy {
            // It is told of all that passed, where it takes no lock after its last reading.
            let took = watch.seconds(world).unwrap_or(0);
            let is_less = error.waited().is_some_and(|it| it.as_secs() < took);
            world.fault_if(is_less, "a timeout tells of less time than passed");
        }
        // Its own handler may have stayed, so that its time was over after a failed check. Who only
        // waits is told of a timeout long before.
        let has_stayed = || watch.seconds(world).is_none_or(|took| took >= STAY);
        let is_early = has_time && !(seconds.is_none() && has_stayed());
        world.fault_if(is_early, "a caller with all the time gives up");
    }
}

// Of those who wait longer than one that is served, each holds another connection. Who finds its own
// unsound holds none, and may be passed until it looks again.
fn is_in_order(world: &World, who: u64) {
    let plan = &world.plan;
    let seconds = plan.seconds_of_checks(1).unwrap_or(0);
    let mut most = plan.size - 1;
    if plan.checks && world.now() < world.count(Count::Unsound) + seconds * 1_000 {
        most += world.count(Count::Bad);
    }
    let is_passing = world
        .wait_of(who)
        .is_some_and(|it| world.ahead_of(it.since) > most);
    world.fault_if(is_passing, "a caller is served out of turn");
}

fn tries<R: PoolRuntime>(world: &World, pool: &Pool<R>) {
    world.tell("calls try_get");
    let was_closed = world.count(Count::Closed) > 0;
    let watch = Stopwatch::begin(world);
    let found = pool.try_get();
    // It checks no more than may have been idle.
    let most = world.plan.seconds_of_checks(world.plan.size);
    watch.check(world, "a try_get takes time", 0, most);
    match found {
        Ok(Some(lent)) => holds(world, lent, was_closed),
        Ok(None) => {}
        Err(_) => world.fault("a try_get is told of what cannot be"),
    }
}

fn holds<R: PoolRuntime>(world: &World, mut lent: Lent<R>, was_closed: bool) {
    let plan = &world.plan;
    lent.line().is_lent();
    world.add(Count::Taken);
    let since = plan.turns.then(|| world.micros());
    world.fault_if(was_closed, "a closed pool lends");
    match world.choose(4) {
        0 => thread::yield_now(),
        1 => sleep(world, 1),
        2 => sleep(world, if plan.busy { 30 } else { 5 }),
        _ => {}
    }
    let detaches = lent.line().is_let_go();
    if let Some(since) = since {
        turns::comes_back(world, since);
    }
    let watch = Stopwatch::begin(world);
    if detaches {
        lent.detach().leaves();
    } else {
        drop(lent);
    }
    let slowest = plan.seconds_of_turns() + 3 * u64::from(plan.slow_returns);
    let most = plan.releases_at_once().then_some(slowest);
    watch.check(world, "a return takes time", 0, most);
}

fn evicts<R: PoolRuntime>(world: &World, pool: &Pool<R>) {
    world.tell("calls evict");
    let watch = Stopwatch::begin(world);
    world.fault_if(pool.evict().is_err(), "an evict is told of what cannot be");
    let most = world.plan.releases_at_once().then_some(0);
    watch.check(world, "an evict takes time", 0, most);
}

fn drains<R: PoolRuntime>(world: &World, pool: &Pool<R>) {
    let wait = if world.choose(3) == 0 { 2 } else { PATIENT };
    world.tell_number("drains the pool, for seconds:", wait);
    let watch = Stopwatch::begin(world);
    let drained = pool.drain(wait);
    watch.check(world, "a drain ends later than its timeout", 0, Some(wait));
    match drained {
        Ok(()) => {
            let is_lent = world.count(Count::Lent) > 0 || pool.status().lent > 0;
            world.fault_if(is_lent, "a drain ends, and something is lent");
        }
        Err(status) => {
            world.tell("is told that something is lent");
            watch.check(world, "a drain gives up before its timeout", wait, None);
            judge::sums(world, &status);
            world.fault_if(status.lent == 0, "a drain gives up, and nothing is lent");
        }
    }
    world.add(Count::Closed);
}
