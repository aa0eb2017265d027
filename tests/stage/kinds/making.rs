// How pools are made, and how they end.

use crate::clock::Place;
use crate::ear::Ear;
use crate::kinds::{
    BUILT, Beside, Calls, Hand, Kind, PARTS, Pool, ROOM, Settings, TaskWorker, ThreadPool,
};
use crate::manager::{Hours, Manager};
use crate::world::{Host, World};
use futures::Future;
use futures::executor::block_on;
use r2d2::{Builder, Error};
use std::marker::Brand;
use std::sync::ledger::Blank;
use std::sync::{Arc, Mutex};
use std::test::Fail;
use std::{mem, thread};

// The settings that are those of each kind of pool.
fn common(settings: Settings) -> Builder<Manager> {
    Builder::new()
        .max_size(settings.max_size)
        .min_idle(Some(settings.min_idle))
        .test_on_check_out(settings.is_checked)
        .max_lifetime(settings.length_if(settings.max_lifetime))
        .idle_timeout(settings.length_if(settings.idle_timeout))
        .connection_timeout(settings.length(settings.connection_timeout))
        .lending_order(settings.order)
        .test_if_idle_for(settings.length_if(settings.test_if_idle_for))
        .evict_idle_on_failed_check(settings.evict_idle_on_failed_check)
        .journal_room(settings.journal_room)
        // (A pool for tasks may have none.)
        .thread_pool(settings.workers.max(1))
        .max_retry_delay(settings.length_if(settings.max_retry_delay))
        .lifetime_jitter(settings.length_if(settings.lifetime_jitter))
}

// With what makes it a pool of this kind.
fn of_kind(builder: Builder<Manager>, kind: Kind, settings: Settings) -> Builder<Manager> {
    match kind {
        Kind::Limited | Kind::Counted => builder.max_waiting(Some(settings.room)),
        Kind::InLine => builder.fair_queue(Some(settings.room)),
        _ if kind.is_of_tasks() || settings.room != ROOM => {
            builder.max_waiting(Some(settings.room))
        }
        _ => builder,
    }
}

// Has an ear listen to the pool.
fn heard(builder: Builder<Manager>, world: &'static World, is_backwards: bool) -> Heard {
    if is_backwards {
        builder
            .connection_customizer(Ear::new(world))
            .event_handler(Ear::new(world))
            .error_handler(Ear::new(world))
    } else {
        builder
            .error_handler(Ear::new(world))
            .event_handler(Ear::new(world))
            .connection_customizer(Ear::new(world))
    }
}

type Heard = Builder<Manager, Ear, Ear, Ear>;

/// A builder of a pool that an ear listens to.
pub(crate) fn builder(world: &'static World, settings: Settings) -> Heard {
    let builder = of_kind(common(settings), world.kind, settings);
    heard(builder, world, settings.is_backwards)
}

/// The calls of a pool that an ear listens to.
pub(crate) fn made<R: Host>(
    rt: R,
    world: &'static World,
    settings: Settings,
) -> Result<Calls<R>, Error> {
    let (place, manager) = (Place { world, rt }, Manager { world });
    let builder = builder(world, settings);
    if world.kind.is_of_tasks() {
        let pool = r2d2_async::Pool::build(builder, place, manager, Hours { world })?;
        return Ok(Calls::Task(pool));
    }
    if world.kind != Kind::Counted {
        return Ok(Calls::Thread(builder.build_unchecked(place, manager)?));
    }
    let (total, all) = Blank::new(PARTS).open::<Brand>();
    let pool = builder.build_counted(place, manager, total)?;
    let parts = Arc::new(rt.alloc(), Mutex::new(all)).map_err(|_| Error::memory())?;
    Ok(Calls::Counted(pool, parts))
}

// A task begins in a thread of its own.
fn spawned<R: Host, F: Future<Output: Drop> + Send + Drop + 'static>(
    rt: R,
    task: F,
) -> Result<(), Fail> {
    thread::spawn(&rt, move || {
        block_on(&rt, task).ok();
    })?;
    Ok(())
}

/// A `build` that waits, in a thread of its own.
#[derive(Drop)]
pub(crate) struct Building<R: Host> {
    pub(crate) world: &'static World,
    rt: R,
    build: Beside<Result<ThreadPool<R>, Error>>,
}

impl<R: Host> Building<R> {
    pub(crate) fn is_over(&self) -> bool {
        self.build.is_over()
    }

    /// What it ends with.
    pub(crate) fn end(self) -> Result<Result<Pool<R>, Error>, Fail> {
        let Building { world, rt, build } = self;
        let made = build.end(rt, world)?;
        Ok(made.map(|pool| Pool::bare(rt, world, Calls::Thread(pool))))
    }
}

impl<R: Host> Pool<R> {
    /// One that an ear listens to.
    pub(crate) fn new<F: FnOnce(&mut Settings)>(
        rt: R,
        world: &'static World,
        change: F,
    ) -> Result<Pool<R>, Fail> {
        Pool::of(rt, world, Settings::small(change))
    }

    /// The same, with all settings given.
    pub(crate) fn of(rt: R, world: &'static World, settings: Settings) -> Result<Pool<R>, Fail> {
        Pool::over(rt, world, settings, made(rt, world, settings)?)
    }

    /// One whose events nobody is told of, and whose tasks are in threads of their own.
    pub(crate) fn quiet<F: FnOnce(&mut Settings)>(
        rt: R,
        world: &'static World,
        change: F,
    ) -> Result<Pool<R>, Fail> {
        let settings = Settings::small(change);
        let (place, manager) = (Place { world, rt }, Manager { world });
        let builder = of_kind(common(settings), world.kind, settings)
            .error_handler(Ear::new(world))
            .connection_customizer(Ear::new(world));
        let calls = if world.kind.is_of_tasks() {
            let pool = r2d2_async::Pool::build(builder, place, manager, Hours { world })?;
            Calls::QuietTask(pool)
        } else {
            Calls::QuietThread(builder.build_unchecked(place, manager)?)
        };
        Pool::over(rt, world, settings, calls)
    }

    /// A `build` begins, of a pool of threads.
    pub(crate) fn building(
        rt: R,
        world: &'static World,
        settings: Settings,
    ) -> Result<Building<R>, Fail> {
        let builder = builder(world, settings);
        let build = move || builder.build(Place { world, rt }, Manager { world });
        let build = Beside::start(rt, build)?;
        Ok(Building { world, rt, build })
    }

    /// One that is made by `build`, where its kind is.
    pub(crate) fn built(rt: R, world: &'static World, settings: Settings) -> Result<Pool<R>, Fail> {
        if BUILT.contains(&world.kind) {
            return Ok(Pool::building(rt, world, settings)?.end()??);
        }
        Pool::of(rt, world, settings)
    }

    // Over the calls, with the connections that are wanted idle.
    fn over(
        rt: R,
        world: &'static World,
        settings: Settings,
        calls: Calls<R>,
    ) -> Result<Pool<R>, Fail> {
        let pool = Pool::bare(rt, world, calls);
        for _ in 0..settings.workers {
            match &pool.calls {
                Calls::Task(tasks) => pool.employ(tasks.worker()?)?,
                Calls::QuietTask(tasks) => spawned(rt, tasks.worker()?)?,
                _ => break,
            }
        }
        if world.kind == Kind::Spawned {
            // Else a call without time may end before a worker's thread has begun.
            pool.until(|status| status.workers == Some(settings.workers as u32))?;
        }
        if !settings.is_unchecked {
            pool.until(|status| status.idle >= status.wanted)?;
        }
        Ok(pool)
    }

    // One over these calls, without workers that are polled by hand.
    fn bare(rt: R, world: &'static World, calls: Calls<R>) -> Pool<R> {
        Pool {
            world,
            rt,
            calls,
            hands: Mutex::new(Vec::new(rt.alloc())),
        }
    }

    /// The same pool. Its workers stay with this one.
    pub(crate) fn try_clone(&self) -> Result<Pool<R>, Fail> {
        Ok(Pool::bare(self.rt, self.world, self.calls.try_clone()?))
    }

    /// The pool is gone once these are dropped. Its workers stay, and so do calls that wait.
    pub(crate) fn go(&mut self) -> Calls<R> {
        mem::replace(&mut self.calls, Calls::Gone)
    }

    /// Drops it, and waits until its workers ended, and its manager and handlers with them.
    pub(crate) fn ended(mut self) -> Result<(), Fail> {
        drop(self.go());
        self.at_end()
    }

    /// The same of a pool that is gone.
    pub(crate) fn at_end(&mut self) -> Result<(), Fail> {
        self.work();
        let mut hands = self.hands.lock(&self.rt);
        if !hands.iter().all(|hand| hand.output.is_some()) {
            return Err(Fail::from("a worker goes on"));
        }
        hands.clear();
        drop(hands);
        if !self.world.once_ended() {
            return Err(Fail::from("something is left of the pool"));
        }
        Ok(())
    }

    // A worker begins.
    fn employ(&self, work: TaskWorker<R>) -> Result<(), Fail> {
        let rt = self.rt;
        if self.world.kind == Kind::Polled {
            self.hands.lock(&rt).push(Hand::new(rt, work)?)?;
            return Ok(());
        }
        spawned(rt, work)
    }
}
