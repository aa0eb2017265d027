// A throng: many tasks over a pool whose connections fail at random, the same in each run of one
// thread, and what is counted of them.

use futures::future::{Pending, pending};
use futures::task::{Context, Poll};
use futures::{Future, ready};
use r2d2::ErrorKind;
use r2d2_async::{
    Builder, Drain, Get, ManageConnection, NoHandlers, PlainPool, PooledConnection, Timer, Worker,
};
use std::alloc::{Alloc, AllocError, Global};
use std::rt::Clock;
use std::sync::atomic::{AtomicU64, Ordering};
use std::test::Fail;
use std::time::Duration;
use std::{fmt, io};

/// A call with so many ticks has all the time there is. A sleep of half as many, or of more, never
/// ends: it is what is left of a call's time, which the polls of other threads shorten.
const NEVER: u64 = 3_600_000;

/// The milliseconds of a tick: so a reap is due each 200 ticks.
const TICK: u64 = 150;

/// So many ticks.
pub(crate) fn ticks(count: u64) -> Duration {
    Duration::from_millis(TICK * count)
}

/// What is counted, and kept.
#[derive(Clone, Copy, PartialEq, Debug)]
pub(crate) enum Count {
    /// The ticks of the clock: one for each poll of a task.
    Ticks,
    Rolls,
    /// Connections that are open, and how many were at once at most.
    Open,
    Most,
    /// Callers who came to stand in line, and the latest of them that was served.
    Joined,
    Latest,
    Opened,
    Dropped,
    Detached,
    /// Connections that were lent while they were lent.
    Twice,
    /// Callers who were served after one who came later.
    Passed,
    Served,
    Cancelled,
    TimedOut,
    Closed,
    /// Anything else that a call answered.
    Odd,
    /// Drains that ended with nothing lent.
    Drained,
}

/// After each so many callers who were served something is evicted, and after so many the pool is
/// drained, if it is to be.
const EVERY: u64 = 20;

const LAST: u64 = 400;

/// The runtime, the timer and the manager of a pool: connections, openings and checks fail now and
/// then, and take some polls.
#[derive(Clone, Copy)]
pub(crate) struct World {
    rt: HostRuntime,
    counts: &'static [AtomicU64; 17],
}

impl World {
    /// Its counts stay for as long as the program: so its tasks borrow nothing that ends.
    pub(crate) fn new(rt: HostRuntime, seed: u64) -> Result<World, AllocError> {
        let counts = [(); 17].map(|()| AtomicU64::new(0));
        let counts = Box::leak(Box::new(rt.alloc(), counts)?);
        let world = World { rt, counts };
        world.add_all(Count::Rolls, seed.wrapping_mul(0x5851_f42d_4c95_7f2d));
        Ok(world)
    }

    pub(crate) fn count(&self, what: Count) -> u64 {
        self.counts[what as usize].load(Ordering::SeqCst)
    }

    // How many there were before.
    fn add_all(&self, what: Count, count: u64) -> u64 {
        self.counts[what as usize].fetch_add(count, Ordering::SeqCst)
    }

    fn add(&self, what: Count) -> u64 {
        self.add_all(what, 1)
    }

    fn add_if(&self, is_so: bool, what: Count) {
        self.add_all(what, u64::from(is_so));
    }

    // The greatest one before.
    fn raise(&self, what: Count, to: u64) -> u64 {
        self.counts[what as usize].fetch_max(to, Ordering::SeqCst)
    }

    // The next number of a fixed row that looks random.
    fn roll(&self) -> u64 {
        let roll = self.add_all(Count::Rolls, 0x9e37_79b9_7f4a_7c15);
        let mixed = (roll ^ (roll >> 30)).wrapping_mul(0xbf58_476d_1ce4_e5b9);
        let mixed = (mixed ^ (mixed >> 27)).wrapping_mul(0x94d0_49bb_1331_11eb);
        mixed ^ (mixed >> 31)
    }

    // Once in so many times on average.
    fn is_one_in(&self, times: u64) -> bool {
        self.roll() % times == 0
    }

    // That it fails, once in so many times.
    fn fails_in(&self, times: u64) -> Result<(), fmt::Error> {
        let is_well = !self.is_one_in(times);
        is_well.then_some(()).ok_or(fmt::Error)
    }
}

impl Clock for World {
    fn monotonic(&self) -> io::Result<Duration> {
        Ok(ticks(self.count(Count::Ticks)))
    }

    fn since_1970(&self) -> io::Result<Duration> {
        self.monotonic()
    }

    fn sleep(&self, duration: Duration) {
        self.rt.sleep(duration)
    }
}

impl Alloc for World {
    type A = Global;

    fn alloc(&self) -> Global {
        self.rt.alloc()
    }
}

#[derive(Drop)]
pub(crate) enum Nap {
    Until(World, u64),
    Never(Pending<()>),
}

impl Future for Nap {
    type Output = ();

    fn poll(&mut self, cx: &mut Context<'_>) -> Poll<()> {
        match self {
            Nap::Until(world, end) if world.add(Count::Ticks) >= *end => Poll::Ready(()),
            Nap::Until(..) => cx.yield_now(),
            Nap::Never(never) => never.poll(cx),
        }
    }
}

impl Timer for World {
    type Sleep = Nap;

    fn sleep(&self, length: Duration) -> Nap {
        if length >= ticks(NEVER / 2) {
            return Nap::Never(pending());
        }
        let now = self.count(Count::Ticks);
        Nap::Until(*self, now.saturating_add(length.as_millis() as u64 / TICK))
    }
}

/// A connection, and how many have it.
pub(crate) struct Wire(World, u64);

impl Drop for Wire {
    fn drop(self) {
        let Wire(world, _) = self;
        world.add_all(Count::Open, u64::MAX);
        world.add(Count::Dropped);
    }
}

// So many polls.
#[derive(Drop)]
struct Polls(u64);

impl Polls {
    fn poll(&mut self, cx: &mut Context<'_>) -> Poll<()> {
        if self.0 == 0 {
            return Poll::Ready(());
        }
        self.0 -= 1;
        cx.yield_now()
    }
}

/// An answer after so many polls.
#[derive(Drop)]
pub(crate) struct Later<T>(Option<T>, Polls);

impl<T: Drop> Future for Later<T> {
    type Output = T;

    fn poll(&mut self, cx: &mut Context<'_>) -> Poll<T> {
        ready!(self.1.poll(cx));
        self.0.take().map_or_else(|| cx.yield_now(), Poll::Ready)
    }
}

impl ManageConnection for World {
    type Connection = Wire;

    type Error = fmt::Error;

    type Extension = ();

    type Connect = Later<Result<Wire, fmt::Error>>;

    type Check = Later<(Wire, Result<(), fmt::Error>)>;

    fn connect(&self) -> Later<Result<Wire, fmt::Error>> {
        let opened = self.fails_in(8).map(|()| {
            self.add(Count::Opened);
            self.raise(Count::Most, self.add(Count::Open) + 1);
            Wire(*self, 0)
        });
        Later(Some(opened), Polls(self.roll() % 5))
    }

    fn check(&self, wire: Wire) -> Later<(Wire, Result<(), fmt::Error>)> {
        Later(Some((wire, self.fails_in(32))), Polls(self.roll() % 4))
    }

    fn has_broken(&self, _wire: &mut Wire) -> bool {
        self.is_one_in(64)
    }
}

type Lent = PooledConnection<World, World, NoHandlers, World>;

/// A task that gets connections, and drops some of its calls before their end. It may evict or drain.
#[derive(Drop)]
pub(crate) struct Caller {
    world: World,
    pool: PlainPool<World, World, World>,
    rounds: u64,
    get: Option<Get<World, World, NoHandlers, World>>,
    lent: Option<Lent>,
    // The number among those who came to stand in line.
    place: Option<u64>,
    // After how many polls it gives its call up, if it does.
    patience: Option<Polls>,
    hold: Polls,
    drains: bool,
    drain: Option<Drain<World, World, NoHandlers, World>>,
}

impl Caller {
    fn begin(&mut self) {
        let world = self.world;
        self.rounds -= 1;
        self.place = None;
        self.hold = Polls(world.roll() % 4);
        self.patience = world.is_one_in(4).then(|| Polls(world.roll() % 7));
        let is_short = world.is_one_in(16);
        let length = is_short.then(|| ticks(world.roll() % 500));
        let begun = length.map_or_else(|| self.pool.get(), |length| self.pool.get_timeout(length));
        self.get = begun.ok();
        world.add_if(self.get.is_none(), Count::Odd);
    }

    fn take(&mut self, mut lent: Lent) {
        let world = self.world;
        let is_late = |place| world.raise(Count::Latest, place) > place;
        world.add_if(self.place.is_some_and(is_late), Count::Passed);
        lent.1 += 1;
        world.add_if(lent.1 > 1, Count::Twice);
        self.lent = Some(lent);
        let served = world.add(Count::Served) + 1;
        let evicts = served <= LAST && served % EVERY == 0;
        world.add_if(evicts && self.pool.evict().is_err(), Count::Odd);
        if served == LAST && self.drains {
            self.drain = self.pool.drain(ticks(NEVER)).ok();
        }
    }

    // A poll of its call, unless it gives it up.
    fn wait(&mut self, cx: &mut Context<'_>) -> Poll<()> {
        let (world, gives_up) = (self.world, matches!(self.patience, Some(Polls(0))));
        world.add_if(self.get.is_some() && gives_up, Count::Cancelled);
        let Some(mut get) = self.get.take().filter(|_| !gives_up) else {
            return Poll::Ready(());
        };
        match get.poll(cx) {
            Poll::Pending => {
                self.get = Some(get);
                self.place = self.place.or_else(|| Some(world.add(Count::Joined)));
                let patience = self.patience.as_mut();
                return patience.map_or(Poll::Pending, |polls| polls.poll(cx));
            }
            Poll::Ready(Ok(lent)) => self.take(lent),
            Poll::Ready(Err(error)) => {
                self.rounds = 0;
                world.add(match error.kind() {
                    ErrorKind::Closed => Count::Closed,
                    ErrorKind::Timeout => Count::TimedOut,
                    _ => Count::Odd,
                });
            }
        }
        Poll::Ready(())
    }

    fn step(&mut self, cx: &mut Context<'_>) -> Poll<()> {
        let world = self.world;
        world.add(Count::Ticks);
        if self.get.is_none() && self.lent.is_none() {
            if let Some(drain) = &mut self.drain {
                let is_drained = ready!(drain.poll(cx)).is_ok();
                world.add([Count::Odd, Count::Drained][usize::from(is_drained)]);
                return Poll::Ready(());
            }
            if self.rounds == 0 {
                return Poll::Ready(());
            }
            self.begin();
        }
        ready!(self.wait(cx));
        if self.lent.is_some() {
            ready!(self.hold.poll(cx));
        }
        if let Some(mut lent) = self.lent.take() {
            lent.1 -= 1;
            if world.is_one_in(16) {
                drop(PooledConnection::detach(lent));
                world.add(Count::Detached);
            }
        }
        cx.yield_now()
    }
}

/// Who is spawned.
#[derive(Drop)]
pub(crate) enum Task {
    Worker(Worker<World, World, NoHandlers, World>),
    Caller(Caller),
}

impl Future for Task {
    type Output = ();

    fn poll(&mut self, cx: &mut Context<'_>) -> Poll<()> {
        match self {
            Task::Worker(worker) => worker.poll(cx),
            Task::Caller(caller) => caller.step(cx),
        }
    }
}

/// Three workers, and so many callers, each for two rounds.
pub(crate) fn throng(
    world: World,
    settings: Builder<World>,
    callers: u64,
    drains: bool,
) -> Result<Vec<Task>, Fail> {
    let settings = settings
        .connection_timeout(ticks(NEVER))
        .max_retry_delay(Some(ticks(40)));
    let pool = PlainPool::build(settings, world, world, world)?;
    let mut tasks = Vec::new(world.rt.alloc());
    for _ in 0..3 {
        tasks.push(Task::Worker(pool.worker()?))?;
    }
    for _ in 0..callers {
        tasks.push(Task::Caller(Caller {
            world,
            pool: pool.try_clone()?,
            rounds: 2,
            get: None,
            lent: None,
            place: None,
            patience: None,
            hold: Polls(0),
            drains,
            drain: None,
        }))?;
    }
    Ok(tasks)
}
