// What the rows have in common: what they name, how they are played, and what they ask of a pool.

pub(crate) use crate::clock::Place;
pub(crate) use crate::ear::Told::{
    self, Acquire, Checkin, Checkout, Dropped, Ended, Failed, Release, Shown, Timeout,
};
pub(crate) use crate::ear::milliseconds;
pub(crate) use crate::kinds::{
    ALL, BESIDE, BOUNDED, BUILT, BY_HAND, Building, Calls, Drain, Get, Kind, Lent, ORDERED,
    OUT_OF_LINE, Pool, QUIET, SMALL, Settings, TASKS, THREADS, builder, first_ended, length, made,
};
pub(crate) use crate::manager::Sorry::{self, Check, Connect};
pub(crate) use crate::manager::{Kept, KeptKind, Manager, Wire};
pub(crate) use crate::play::{on_play, on_text, on_texts};
pub(crate) use crate::script::Script;
pub(crate) use crate::world::{Host, World, on_each};
pub(crate) use r2d2::LendingOrder::{self, NewestFirst, OldestFirst};
pub(crate) use r2d2::event::ReleaseReason::{
    Broken, CheckFailed, Detached, Distrusted, Evicted, Idle, Lifetime, PoolClosed,
};
pub(crate) use r2d2::{Error, ErrorKind, Status};
pub(crate) use r2d2_core::Record;
pub(crate) use std::alloc::AllocError;
use std::fmt;
use std::fmt::{Debug, Display};
pub(crate) use std::test::Fail;
pub(crate) use std::thread;
pub(crate) use std::time::Duration;

/// More milliseconds than pass in most rows.
pub(crate) const LONG: u64 = 600_000;

/// Plays each of these rows on each of these kinds.
pub(crate) fn on_rows<R, T, F, const N: usize>(
    rt: R,
    kinds: &[Kind],
    rows: [T; N],
    play: F,
) -> Result<(), Fail>
where
    R: Host,
    T: Copy + Debug,
    F: Fn(&'static World, T) -> Result<(), Fail>,
{
    for row in rows {
        println!(rt; "{row:?}").ok();
        on_each(rt, kinds, |world| play(world, row))?;
    }
    Ok(())
}

/// Plays a row on each of these kinds, on a pool with these settings.
pub(crate) fn on_pools<R: Host, F: Fn(&'static World, Pool<R>) -> Result<(), Fail>>(
    rt: R,
    kinds: &[Kind],
    settings: Settings,
    row: F,
) -> Result<(), Fail> {
    on_each(
        rt,
        kinds,
        |world| row(world, Pool::of(rt, world, settings)?),
    )
}

/// The same, where the pool has lent a connection.
pub(crate) fn on_lent<R: Host, F>(
    rt: R,
    kinds: &[Kind],
    settings: Settings,
    row: F,
) -> Result<(), Fail>
where
    F: Fn(&'static World, Pool<R>, Lent<R>) -> Result<(), Fail>,
{
    on_pools(rt, kinds, settings, |world, pool| {
        let lent = pool.get()?;
        row(world, pool, lent)
    })
}

/// What a row saw in place of what it wanted.
#[derive(Drop)]
struct Other<T>(T, T);

impl<T: Debug> Display for Other<T> {
    fn fmt<W: fmt::Write>(&self, f: &mut fmt::Formatter<W>) -> fmt::Result {
        write!(f, "{:?} is not {:?}", self.0, self.1)
    }
}

/// The last look of a row: fails unless these are the same.
pub(crate) fn equal<T: Debug + PartialEq + Drop>(seen: T, wanted: T) -> Result<(), Fail> {
    if seen == wanted {
        return Ok(());
    }
    Err(Fail::new(Other(seen, wanted)))
}

/// The same: fails unless this is so.
pub(crate) fn holds(is_so: bool) -> Result<(), Fail> {
    if is_so {
        return Ok(());
    }
    Err(Fail::from("the last look shows something else"))
}

/// At most so many connections, all of which are kept idle.
pub(crate) fn full(size: u32) -> Settings {
    SMALL.most(size).idle(size)
}

impl Settings {
    /// At most so many connections.
    pub(crate) fn most(mut self, max_size: u32) -> Settings {
        self.max_size = max_size;
        self
    }

    /// So many are kept idle.
    pub(crate) fn idle(mut self, min_idle: u32) -> Settings {
        self.min_idle = min_idle;
        self
    }

    pub(crate) fn workers(mut self, workers: usize) -> Settings {
        self.workers = workers;
        self
    }

    /// They are checked as they are lent.
    pub(crate) fn checked(mut self) -> Settings {
        self.is_checked = true;
        self
    }

    /// They are checked as they are lent after so many milliseconds.
    pub(crate) fn checked_after(mut self, idle: u64) -> Settings {
        self.test_if_idle_for = Some(idle);
        self.checked()
    }

    pub(crate) fn distrusting(mut self, does_distrust: bool) -> Settings {
        self.evict_idle_on_failed_check = does_distrust;
        self.checked()
    }

    pub(crate) fn ordered(mut self, order: LendingOrder) -> Settings {
        self.order = order;
        self
    }

    /// Failed openings are tried again after 50 ms.
    pub(crate) fn retried(mut self) -> Settings {
        self.max_retry_delay = Some(50);
        self
    }

    /// For so many milliseconds.
    pub(crate) fn living(mut self, lifetime: u64) -> Settings {
        self.max_lifetime = Some(lifetime);
        self
    }

    /// Closed after so many milliseconds.
    pub(crate) fn expiring(mut self, idle: u64) -> Settings {
        self.idle_timeout = Some(idle);
        self
    }

    /// Its callers have so many milliseconds.
    pub(crate) fn waiting(mut self, timeout: u64) -> Settings {
        self.connection_timeout = timeout;
        self
    }

    /// So many callers may wait.
    pub(crate) fn room(mut self, room: u32) -> Settings {
        self.room = room;
        self
    }

    /// Its journal keeps so many records.
    pub(crate) fn recorded(mut self, journal_room: usize) -> Settings {
        self.journal_room = journal_room;
        self
    }

    /// Nobody waits for the connections that are wanted idle.
    pub(crate) fn unawaited(mut self) -> Settings {
        self.is_unchecked = true;
        self
    }
}

impl<R: Host> Pool<R> {
    /// Waits until so many openings came to hang, those included that go on.
    pub(crate) fn until_opening(&self, count: u64) -> Result<(), Fail> {
        self.until(|_| self.world.connects.hung() == count)
    }

    /// A caller begins to wait in a thread, and has read the clock for it: at its start, five times
    /// as it looks again if all are lent, at its take, and for the wait.
    pub(crate) fn begun(&self, timeout: u64) -> Result<Get<R>, Fail> {
        let (world, before) = (self.world, self.world.readings());
        let looks_again = world.kind != Kind::InLine && self.status().lent > 0;
        let get = self.begin(timeout)?;
        let readings = if looks_again { 8 } else { 3 };
        world.watch(|| world.readings() >= before + readings);
        Ok(get)
    }

    /// Fails unless a call is lent a connection, and gives that back.
    pub(crate) fn serves(&self, call: Get<R>) -> Result<(), Fail> {
        drop(self.end(call)??);
        Ok(())
    }

    /// Why a call ends that is lent none.
    pub(crate) fn vain(&self, call: Get<R>, kind: ErrorKind) -> Result<Error, Fail> {
        let error = self.end(call)?.err().ok_or("a connection")?;
        if error.kind() != kind {
            return Err(Fail::new(error));
        }
        Ok(error)
    }

    /// What a call is told that gives up.
    pub(crate) fn late(&self, call: Get<R>) -> Result<Error, Fail> {
        self.vain(call, ErrorKind::Timeout)
    }

    /// The same of a call that has so many milliseconds, which pass.
    pub(crate) fn gives_up(&self, timeout: u64) -> Result<Error, Fail> {
        let call = self.begin(timeout)?;
        self.world.pass(timeout);
        self.late(call)
    }

    /// The same of one that is told of a close.
    pub(crate) fn closed(&self, call: Get<R>) -> Result<Error, Fail> {
        self.vain(call, ErrorKind::Closed)
    }

    /// The same of one that is made now, and would be one more than may wait.
    pub(crate) fn refused(&self) -> Result<Error, Fail> {
        self.vain(self.begin(LONG)?, ErrorKind::QueueFull)
    }
}
