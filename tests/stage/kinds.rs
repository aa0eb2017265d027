// The kinds of pools, and what all of them can do.

mod hand;
mod lent;
mod making;
mod turns;

use crate::clock::Place;
use crate::ear::{Ear, milliseconds};
use crate::kinds::Kind::{Counted, InLine, Limited, Plain, Polled, Spawned};
use crate::manager::{Hours, Manager};
use crate::world::{Host, World};
use futures::Future;
use futures::executor::block_on;
pub(crate) use hand::{Beside, Call, Hand};
pub(crate) use lent::Lent;
pub(crate) use making::{Building, builder, made};
use r2d2::event::NopEventHandler;
use r2d2::{Error, LendingOrder, Status};
use r2d2_async::Handlers;
use r2d2_core::Report;
use std::marker::Brand;
use std::sync::ledger::Share;
use std::sync::{Arc, Mutex};
use std::test::Fail;
use std::thread;
use std::thread::JoinHandle;
use std::time::{Duration, SystemTime};

/// A kind of pool: those of threads, and that for tasks.
#[derive(Clone, Copy, PartialEq, Debug)]
pub(crate) enum Kind {
    Plain,
    /// So many callers may wait.
    Limited,
    /// Callers wait in line.
    InLine,
    /// The takes are counted, and so many callers may wait.
    Counted,
    /// Tasks, which the row polls by hand.
    Polled,
    /// Tasks, each in a thread of its own.
    Spawned,
}

pub(crate) const ALL: [Kind; 6] = [Plain, Limited, InLine, Counted, Polled, Spawned];

pub(crate) const THREADS: [Kind; 4] = [Plain, Limited, InLine, Counted];

pub(crate) const TASKS: [Kind; 2] = [Polled, Spawned];

/// Their workers are in threads of their own.
pub(crate) const BESIDE: [Kind; 5] = [Plain, Limited, InLine, Counted, Spawned];

/// Tasks whose polls a row makes one by one.
pub(crate) const BY_HAND: [Kind; 1] = [Polled];

/// For a pool whose events nobody is told of.
pub(crate) const QUIET: [Kind; 4] = [Plain, Limited, InLine, Spawned];

/// Those that are made by `build`, which waits for the connections that are wanted idle.
pub(crate) const BUILT: [Kind; 3] = [Plain, Limited, InLine];

/// Those who came first are served first.
pub(crate) const ORDERED: [Kind; 3] = [InLine, Polled, Spawned];

/// Whose callers do not stand in line.
pub(crate) const OUT_OF_LINE: [Kind; 3] = [Plain, Limited, Counted];

/// That have a limit to how many wait.
pub(crate) const BOUNDED: [Kind; 5] = [Limited, InLine, Counted, Polled, Spawned];

impl Kind {
    pub(crate) fn is_of_tasks(self) -> bool {
        matches!(self, Kind::Polled | Kind::Spawned)
    }
}

/// More than wait in most rows.
const ROOM: u32 = 100;

/// More than there are calls at once.
const PARTS: u64 = 1_000_000;

/// The settings of a pool of any kind. Lengths are in milliseconds, or in another unit.
#[derive(Clone, Copy, Debug)]
pub(crate) struct Settings {
    /// So many nanoseconds.
    pub(crate) unit: u64,
    pub(crate) max_size: u32,
    pub(crate) min_idle: u32,
    pub(crate) workers: usize,
    pub(crate) is_checked: bool,
    pub(crate) max_lifetime: Option<u64>,
    pub(crate) idle_timeout: Option<u64>,
    pub(crate) connection_timeout: u64,
    pub(crate) order: LendingOrder,
    pub(crate) test_if_idle_for: Option<u64>,
    pub(crate) evict_idle_on_failed_check: bool,
    pub(crate) max_retry_delay: Option<u64>,
    pub(crate) lifetime_jitter: Option<u64>,
    /// How many callers may wait, where that is limited by the kind or in the row.
    pub(crate) room: u32,
    /// How many records its journal keeps.
    pub(crate) journal_room: usize,
    /// Whether the customizer is set first, and the handler of errors last.
    pub(crate) is_backwards: bool,
    /// Whether nobody waits for the connections that are wanted idle.
    pub(crate) is_unchecked: bool,
}

impl Settings {
    /// Those of a small pool, with a change.
    pub(crate) fn small<F: FnOnce(&mut Settings)>(change: F) -> Settings {
        let mut settings = SMALL;
        change(&mut settings);
        settings
    }

    /// At most so many, and so many of them kept idle.
    pub(crate) fn sized(&mut self, max_size: u32, min_idle: u32) {
        self.max_size = max_size;
        self.min_idle = min_idle;
    }

    // The greatest stands for the longest length.
    fn length(&self, count: u64) -> Duration {
        if count == u64::MAX {
            return Duration::MAX;
        }
        Duration::from_nanos(count.saturating_mul(self.unit))
    }

    fn length_if(&self, count: Option<u64>) -> Option<Duration> {
        count.map(|count| self.length(count))
    }
}

/// One connection, opened for its first caller, which stays as it is.
pub(crate) const SMALL: Settings = Settings {
    unit: 1_000_000,
    max_size: 1,
    min_idle: 0,
    workers: 1,
    is_checked: false,
    max_lifetime: None,
    idle_timeout: None,
    connection_timeout: 30_000,
    order: LendingOrder::NewestFirst,
    test_if_idle_for: None,
    evict_idle_on_failed_check: false,
    max_retry_delay: None,
    lifetime_jitter: None,
    room: ROOM,
    journal_room: 0,
    is_backwards: false,
    is_unchecked: false,
};

/// A length in milliseconds; the greatest stands for the longest length.
pub(crate) fn length(milliseconds: u64) -> Duration {
    if milliseconds == u64::MAX {
        return Duration::MAX;
    }
    Duration::from_millis(milliseconds)
}

type ThreadPool<R> = r2d2::Pool<Manager, Ear, Ear, Ear, Place<R>>;

type CountedPool<R> = r2d2::CountedPool<Manager, Ear, Ear, Ear, Place<R>, Brand>;

type TaskPool<R> = r2d2_async::Pool<Manager, Hours, Handlers<Ear, Ear, Ear>, Place<R>>;

// Of those whose events nobody is told of.
type QuietThreadPool<R> = r2d2::Pool<Manager, Ear, NopEventHandler, Ear, Place<R>>;

type QuietTaskPool<R> = r2d2_async::Pool<Manager, Hours, Quiet, Place<R>>;

type Quiet = Handlers<Ear, NopEventHandler, Ear>;

type TaskGet<R> = r2d2_async::Get<Manager, Hours, Handlers<Ear, Ear, Ear>, Place<R>>;

type TaskDrain<R> = r2d2_async::Drain<Manager, Hours, Handlers<Ear, Ear, Ear>, Place<R>>;

type TaskWorker<R> = r2d2_async::Worker<Manager, Hours, Handlers<Ear, Ear, Ear>, Place<R>>;

/// What the first of these calls ends with that does, as this is done meanwhile.
pub(crate) fn first_ended<R: Host, F: Fn()>(
    world: &World,
    rt: R,
    calls: &mut Vec<Get<R>>,
    meanwhile: F,
) -> Result<Result<Lent<R>, Error>, Fail> {
    let mut ended = None;
    world.watch(|| {
        meanwhile();
        ended = calls.iter_mut().position(|call| call.has_ended());
        ended.is_some()
    });
    match calls.remove(ended.ok_or("none of them ends")?) {
        Call::Thread(beside) => beside.end(rt, world),
        Call::Hand(hand) => Ok(hand.output.ok_or("it is pending")?.map(Lent::Task)),
    }
}

/// A `get` that waits.
pub(crate) type Get<R> = Call<Result<Lent<R>, Error>, TaskGet<R>>;

/// A drain that waits.
pub(crate) type Drain<R> = Call<Result<(), Status>, TaskDrain<R>>;

/// The calls of a pool. A counted one lends each call a part of its ledger.
#[derive(Drop)]
pub(crate) enum Calls<R: Host> {
    Thread(ThreadPool<R>),
    Counted(CountedPool<R>, Arc<Mutex<Share<Brand>>>),
    Task(TaskPool<R>),
    QuietThread(QuietThreadPool<R>),
    QuietTask(QuietTaskPool<R>),
    /// The pool is gone.
    Gone,
}

// The same of a pool of any kind, but for these.
macro_rules! of_others {
    ($calls:expr, $it:ident, $what:expr, $($other:pat => $answer:expr),*) => {
        match $calls {
            $($other => $answer,)*
            Calls::Thread($it) => $what,
            Calls::Task($it) => $what,
            Calls::QuietThread($it) => $what,
            Calls::QuietTask($it) => $what,
        }
    };
}

// The same of a pool of any kind.
macro_rules! of_pool {
    ($calls:expr, $it:ident, $what:expr) => {
        of_others!(
            $calls, $it, $what, Calls::Counted($it, _) => $what, Calls::Gone => unreachable!()
        )
    };
}

// A call that is counted.
macro_rules! counted {
    ($parts:expr, $rt:expr, $part:ident, $call:expr) => {{
        let mut part = $parts.lock(&$rt).split_off(1, 0);
        let $part = &mut part;
        let answer = $call;
        $parts.lock(&$rt).merge(part);
        answer
    }};
}

// A `get` with a timeout of its own, or with the pool's.
macro_rules! ask {
    ($pool:expr, $timeout:expr $(, $part:expr)?) => {
        match $timeout {
            Some(length) => $pool.get_timeout(length $(, $part)?),
            None => $pool.get($($part)?),
        }
    };
}

// What a call of a task ends with, in a thread.
fn blocked<R: Host, T, F: Future<Output = Result<T, Error>>>(rt: R, call: F) -> Result<T, Error> {
    match block_on(&rt, call) {
        Ok(answer) => answer,
        Err(_) => Err(Error::memory()),
    }
}

impl<R: Host> Calls<R> {
    pub(crate) fn try_clone(&self) -> Result<Calls<R>, Error> {
        Ok(match self {
            Calls::Thread(pool) => Calls::Thread(pool.try_clone()?),
            Calls::Counted(pool, parts) => {
                let parts = Arc::try_clone(parts).map_err(|_| Error::memory())?;
                Calls::Counted(pool.try_clone()?, parts)
            }
            Calls::Task(pool) => Calls::Task(pool.try_clone()?),
            Calls::QuietThread(pool) => Calls::QuietThread(pool.try_clone()?),
            Calls::QuietTask(pool) => Calls::QuietTask(pool.try_clone()?),
            Calls::Gone => Calls::Gone,
        })
    }

    pub(crate) fn status(&self) -> Status {
        of_pool!(self, pool, pool.status())
    }

    pub(crate) fn close(&self) {
        of_pool!(self, pool, pool.close())
    }

    pub(crate) fn journal(&self) -> Result<Report, Error> {
        of_pool!(self, pool, pool.journal())
    }

    // In a thread: for so long, or as long as the pool's own timeout says.
    fn ask(&self, rt: R, timeout: Option<Duration>) -> Result<Lent<R>, Error> {
        Ok(match self {
            Calls::Thread(pool) => Lent::Thread(ask!(pool, timeout)?),
            Calls::Counted(pool, parts) => {
                Lent::Counted(counted!(parts, rt, part, ask!(pool, timeout, part))?)
            }
            Calls::QuietThread(pool) => Lent::QuietThread(ask!(pool, timeout)?),
            Calls::Task(pool) => Lent::Task(blocked(rt, ask!(pool, timeout)?)?),
            Calls::QuietTask(pool) => Lent::QuietTask(blocked(rt, ask!(pool, timeout)?)?),
            Calls::Gone => return Err(Error::closed()),
        })
    }

    /// In a thread.
    pub(crate) fn get(&self, rt: R) -> Result<Lent<R>, Error> {
        self.ask(rt, None)
    }

    fn try_get(&self, rt: R) -> Result<Option<Lent<R>>, Error> {
        Ok(match self {
            Calls::Thread(pool) => pool.try_get()?.map(Lent::Thread),
            Calls::Counted(pool, parts) => {
                counted!(parts, rt, part, pool.try_get(part))?.map(Lent::Counted)
            }
            Calls::Task(pool) => pool.try_get()?.map(Lent::Task),
            Calls::QuietThread(pool) => pool.try_get()?.map(Lent::QuietThread),
            Calls::QuietTask(pool) => pool.try_get()?.map(Lent::QuietTask),
            Calls::Gone => None,
        })
    }

    pub(crate) fn evict(&self, rt: R) -> Result<usize, Error> {
        of_others!(
            self, pool, pool.evict(),
            Calls::Counted(pool, parts) => counted!(parts, rt, part, pool.evict(part)),
            Calls::Gone => Ok(0)
        )
    }

    // In a thread.
    fn drain(&self, rt: R, timeout: Duration) -> Result<(), Status> {
        match self {
            Calls::Thread(pool) => pool.drain(timeout),
            Calls::Counted(pool, _) => pool.drain(timeout),
            Calls::Task(pool) => match pool.drain(timeout) {
                Ok(drain) => block_on(&rt, drain).unwrap_or(Ok(())),
                Err(_) => Ok(()),
            },
            _ => Ok(()),
        }
    }
}

/// A pool of one of the kinds.
#[derive(Drop)]
pub(crate) struct Pool<R: Host> {
    pub(crate) world: &'static World,
    pub(crate) rt: R,
    pub(crate) calls: Calls<R>,
    // The workers that are polled by hand.
    hands: Mutex<Vec<Hand<TaskWorker<R>>>>,
}

impl<R: Host> Pool<R> {
    /// The workers that are polled by hand do what they were woken for.
    pub(crate) fn work(&self) {
        for hand in self.hands.lock(&self.rt).iter_mut() {
            hand.run();
        }
    }

    pub(crate) fn status(&self) -> Status {
        self.calls.status()
    }

    /// For how long a `get` waits.
    pub(crate) fn connection_timeout(&self) -> Duration {
        of_pool!(&self.calls, pool, pool.connection_timeout())
    }

    pub(crate) fn journal(&self) -> Result<Report, Fail> {
        Ok(self.calls.journal()?)
    }

    /// The journal, beside all parts of the ledger where takes are counted.
    pub(crate) fn audit(&self) -> Result<Report, Fail> {
        match &self.calls {
            Calls::Counted(pool, parts) => Ok(pool.audit(&mut *parts.lock(&self.rt))?),
            _ => self.journal(),
        }
    }

    /// When it was made.
    pub(crate) fn created_at(&self) -> Option<SystemTime> {
        of_pool!(&self.calls, pool, pool.created_at())
    }

    /// How many milliseconds old it is.
    pub(crate) fn uptime(&self) -> u64 {
        milliseconds(of_pool!(&self.calls, pool, pool.uptime()))
    }

    /// Waits until the status is so.
    pub(crate) fn until<F: Fn(&Status) -> bool>(&self, is_so: F) -> Result<(), Fail> {
        let came = if self.world.kind == Kind::Polled {
            self.work();
            is_so(&self.status())
        } else {
            self.world.watch(|| is_so(&self.status()))
        };
        if came {
            return Ok(());
        }
        let status = self.status();
        println!(self.rt; "{status:?}").ok();
        Err(Fail::from("the status did not come to that"))
    }

    /// The same beside a call, which goes on where it is polled by hand.
    pub(crate) fn until_beside<T: Drop, F: Future<Output: Drop>, G: Fn(&Status) -> bool>(
        &self,
        call: &mut Call<T, F>,
        is_so: G,
    ) -> Result<(), Fail> {
        for _ in 0..10 {
            if self.world.kind != Kind::Polled || is_so(&self.status()) {
                break;
            }
            call.has_ended();
            self.work();
        }
        self.until(is_so)
    }

    /// Lends a connection that comes with no move of the clock.
    pub(crate) fn get(&self) -> Result<Lent<R>, Fail> {
        self.end(self.begin_plainly()?)?.map_err(Fail::from)
    }

    pub(crate) fn try_get(&self) -> Result<Option<Lent<R>>, Fail> {
        Ok(self.calls.try_get(self.rt)?)
    }

    /// Whether a `try_get` finds none.
    pub(crate) fn finds_none(&self) -> bool {
        matches!(self.calls.try_get(self.rt), Ok(None))
    }

    /// A `get` begins that waits for so many milliseconds: it came to wait, or hangs in its check,
    /// or has ended.
    pub(crate) fn begin(&self, timeout: u64) -> Result<Get<R>, Fail> {
        self.ask(Some(length(timeout)))
    }

    /// The same, for as long as the pool's own timeout says.
    pub(crate) fn begin_plainly(&self) -> Result<Get<R>, Fail> {
        self.ask(None)
    }

    fn ask(&self, timeout: Option<Duration>) -> Result<Get<R>, Fail> {
        let rt = self.rt;
        if self.world.kind == Kind::Polled {
            if let Calls::Task(tasks) = &self.calls {
                let mut hand = Hand::new(rt, ask!(tasks, timeout)?)?;
                hand.run();
                return Ok(Call::Hand(hand));
            }
        }
        let calls = self.calls.try_clone()?;
        self.beside(move || calls.ask(rt, timeout))
    }

    // Begins it in a thread of its own, and waits until it came to rest.
    fn beside<T: Send + Drop + 'static, F, C>(&self, call: C) -> Result<Call<T, F>, Fail>
    where
        F: Future<Output: Drop>,
        C: FnOnce() -> T + Send + Drop + 'static,
    {
        let hung = || self.world.checks.hung() + self.world.hears.hung();
        let (waiting, before) = (self.status().waiting, hung());
        let mut call: Call<T, F> = Call::Thread(Beside::start(self.rt, call)?);
        let came = self.world.watch(|| {
            call.has_ended() || self.has_come_or_sent_away(waiting) || hung() > before
        });
        if !came {
            return Err(Fail::from("it did not come to rest"));
        }
        Ok(call)
    }

    // Whether one more waits than these; or fewer, since a drain sends them away.
    fn has_come_or_sent_away(&self, waiting: u64) -> bool {
        let status = self.status();
        status.waiting > waiting || status.closed && status.waiting < waiting
    }

    /// What a `get` ends with.
    pub(crate) fn end(&self, call: Get<R>) -> Result<Result<Lent<R>, Error>, Fail> {
        match call {
            Call::Thread(beside) => beside.end(self.rt, self.world),
            Call::Hand(hand) => Ok(self.led(hand)?.map(Lent::Task)),
        }
    }

    // What a task that is polled by hand ends with, as the workers go on.
    fn led<F: Future<Output: Drop>>(&self, mut hand: Hand<F>) -> Result<F::Output, Fail> {
        for _ in 0..10 {
            if hand.run() {
                break;
            }
            self.work();
        }
        let Hand { output, .. } = hand;
        Ok(output.ok_or("it is pending")?)
    }

    pub(crate) fn evict(&self) -> Result<usize, Fail> {
        Ok(self.calls.evict(self.rt)?)
    }

    pub(crate) fn close(&self) {
        self.calls.close()
    }

    /// A drain begins.
    pub(crate) fn drain(&self, timeout: u64) -> Result<Drain<R>, Fail> {
        let rt = self.rt;
        if self.world.kind == Kind::Polled {
            if let Calls::Task(tasks) = &self.calls {
                let mut hand = Hand::new(rt, tasks.drain(length(timeout))?)?;
                hand.run();
                return Ok(Call::Hand(hand));
            }
        }
        let calls = self.calls.try_clone()?;
        self.beside(move || calls.drain(rt, length(timeout)))
    }

    /// What it ends with.
    pub(crate) fn drained(&self, call: Drain<R>) -> Result<Result<(), Status>, Fail> {
        match call {
            Call::Thread(beside) => beside.end(self.rt, self.world),
            Call::Hand(hand) => self.led(hand),
        }
    }

    /// A call in a thread of its own, which is not waited for.
    pub(crate) fn aside<T: Send + Drop + 'static, F>(&self, call: F) -> Result<JoinHandle<T>, Fail>
    where
        F: FnOnce(&Calls<R>) -> T + Send + Drop + 'static,
    {
        let calls = self.calls.try_clone()?;
        Ok(thread::spawn(&self.rt, move || call(&calls))?)
    }

    /// How many calls out of the pool there are in this act, and during how many of them it could
    /// not be asked for its status. So many are to come: a worker may make the last ones after it.
    pub(crate) fn calls_in<A: FnOnce() -> Result<(), Fail>>(
        &self,
        wanted: u64,
        act: A,
    ) -> Result<(u64, u64), Fail> {
        let (world, eyes) = (self.world, self.calls.try_clone()?);
        world.stops.set(true);
        let look = move || {
            world.stops.look(world, || {
                eyes.status();
            })
        };
        let looks = thread::spawn(&self.rt, look)?;
        let done = act();
        world.watch(|| done.is_err() || world.stops.counts().0 >= wanted);
        world.stops.set(false);
        looks.join(&self.rt);
        done?;
        Ok(world.stops.counts())
    }
}
