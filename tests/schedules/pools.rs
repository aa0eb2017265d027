// The pools of a run, and their settings.

use crate::*;
use r2d2::{Builder, CountedConnection, LendingOrder, PooledConnection};
use r2d2_async::NoHandlers;
use std::marker::Brand;
use std::sync::ledger::{Blank, Share};

/// More than there are calls at once.
const PARTS: u64 = 1_000_000;

pub(crate) type TaskPool = r2d2_async::Pool<Manager, Place, NoHandlers, Place>;

pub(crate) type TaskGet = r2d2_async::Get<Manager, Place, NoHandlers, Place>;

pub(crate) type TaskLent = r2d2_async::PooledConnection<Manager, Place, NoHandlers, Place>;

pub(crate) type TaskWorker = r2d2_async::Worker<Manager, Place, NoHandlers, Place>;

pub(crate) type TaskDrain = r2d2_async::Drain<Manager, Place, NoHandlers, Place>;

type CountedPool<R> = r2d2::CountedPool<Manager, Place, Place, Place, R, Brand>;

/// A pool for threads. A counted one lends each call a part of its ledger.
#[derive(Drop)]
pub(crate) enum Pool<R: PoolRuntime> {
    Plain(r2d2::Pool<Manager, Place, Place, Place, R>),
    Counted(CountedPool<R>, Arc<Mutex<Share<Brand>>>, R),
}

#[derive(Drop)]
pub(crate) enum Lent<R: PoolRuntime> {
    Plain(PooledConnection<Manager, Place, Place, Place, R>),
    Counted(CountedConnection<Manager, Place, Place, Place, R, Brand>),
}

impl<R: PoolRuntime> Lent<R> {
    pub(crate) fn line(&mut self) -> &mut Line {
        match self {
            Lent::Plain(lent) => lent,
            Lent::Counted(lent) => lent,
        }
    }

    pub(crate) fn detach(self) -> Line {
        match self {
            Lent::Plain(lent) => PooledConnection::detach(lent),
            Lent::Counted(lent) => CountedConnection::detach(lent),
        }
    }
}

// A call of a pool of any kind; where it is counted, with a part of the ledger behind what is given.
macro_rules! call {
    ($pool:expr, $call:ident($($given:expr)?)) => {
        match $pool {
            Pool::Plain(pool) => pool.$call($($given)?),
            Pool::Counted(pool, ..) => pool.$call($($given)?),
        }
    };
    (counted $pool:expr, $call:ident($($given:expr)?), $plain:expr, $counted:expr) => {
        match $pool {
            Pool::Plain(pool) => pool.$call($($given)?).map($plain),
            Pool::Counted(pool, parts, rt) => {
                let mut part = parts.lock(rt).split_off(1, 0);
                let answer = pool.$call($($given,)? &mut part);
                parts.lock(rt).merge(part);
                answer.map($counted)
            }
        }
    };
}

impl<R: PoolRuntime> Pool<R> {
    pub(crate) fn try_clone(&self) -> Result<Pool<R>, Error> {
        Ok(match self {
            Pool::Plain(pool) => Pool::Plain(pool.try_clone()?),
            Pool::Counted(pool, parts, rt) => {
                let theirs = Arc::try_clone(parts).map_err(|_| Error::memory())?;
                Pool::Counted(pool.try_clone()?, theirs, *rt)
            }
        })
    }

    pub(crate) fn status(&self) -> Status {
        call!(self, status())
    }

    /// A `get` for so many seconds.
    pub(crate) fn get(&self, seconds: u64) -> Result<Lent<R>, Error> {
        let length = Duration::from_secs(seconds);
        call!(counted self, get_timeout(length), Lent::Plain, Lent::Counted)
    }

    pub(crate) fn try_get(&self) -> Result<Option<Lent<R>>, Error> {
        call!(counted self, try_get(), |it| it.map(Lent::Plain), |it| it.map(Lent::Counted))
    }

    pub(crate) fn evict(&self) -> Result<usize, Error> {
        call!(counted self, evict(), |count| count, |count| count)
    }

    /// A drain for so many seconds.
    pub(crate) fn drain(&self, seconds: u64) -> Result<(), Status> {
        call!(self, drain(Duration::from_secs(seconds)))
    }

    pub(crate) fn close(&self) {
        call!(self, close())
    }
}

// The settings that are those of both pools.
fn common(world: &World) -> Builder<Manager> {
    let plan = &world.plan;
    let length = |is_set: bool, length| is_set.then(|| Duration::from_millis(length));
    let order = if plan.oldest { LendingOrder::OldestFirst } else { LendingOrder::NewestFirst };
    Builder::new()
        .max_size(plan.size as u32)
        .min_idle(Some(plan.wanted as u32))
        .test_on_check_out(plan.checks)
        .evict_idle_on_failed_check(plan.distrusts)
        .lending_order(order)
        .max_lifetime(length(plan.ends_by_age(), world.lifetime))
        .idle_timeout(length(plan.reaps, 4_000))
        .test_if_idle_for(length(plan.after_idle, world.after_idle))
}

/// The settings of a pool for threads.
pub(crate) fn builder_of(world: &'static World) -> Builder<Manager, Place, Place, Place> {
    let plan = &world.plan;
    let mut builder = common(world)
        .thread_pool(plan.workers as usize)
        .error_handler(Place(world))
        .event_handler(Place(world))
        .connection_customizer(Place(world));
    if plan.jitter {
        builder = builder.lifetime_jitter(Some(Duration::from_secs(JITTER)));
    }
    if plan.most > 0 {
        builder = builder.max_waiting(Some(plan.most as u32));
    }
    if plan.line > 0 {
        builder = builder.fair_queue(Some(plan.line as u32));
    }
    builder
}

/// A pool for threads, with no connection yet.
pub(crate) fn thread_pool<R: PoolRuntime>(rt: R, world: &'static World) -> Result<Pool<R>, Fail> {
    let builder = builder_of(world);
    if !world.plan.is_counted {
        return Ok(Pool::Plain(builder.build_unchecked(rt, Manager(world))?));
    }
    let (total, all) = Blank::new(PARTS).open::<Brand>();
    let pool = builder.build_counted(rt, Manager(world), total)?;
    Ok(Pool::Counted(pool, Arc::new(rt.alloc(), Mutex::new(all))?, rt))
}

/// A pool for tasks.
pub(crate) fn task_pool(world: &'static World) -> Result<TaskPool, Fail> {
    let builder = common(world)
        .max_waiting(Some(world.plan.line as u32))
        .connection_timeout(Duration::from_secs(PATIENT))
        .max_retry_delay(Some(Duration::from_millis(LONGEST_DELAY)));
    Ok(r2d2_async::Pool::build(builder, Place(world), Manager(world), Place(world))?)
}
