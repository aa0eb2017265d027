// The world of a row: its scripts, its clock, and what was told in it.

use crate::clock::BEGIN;
use crate::ear::{Hear, Told};
use crate::kinds::Kind;
use crate::script::{Outcome, Script};
use crate::stops::Stops;
use futures::spin::lock;
use futures::task::{Context, Poll, Source, Waker};
use r2d2::PoolRuntime;
use r2d2_async::AsyncRuntime;
use std::alloc::AllocError;
use std::io::Print;
use std::random::RandomSource;
use std::sync::Mutex;
use std::sync::atomic::{AtomicBool, AtomicU64, Ordering};
use std::test::Fail;
use std::time::Duration;
use std::{mem, thread};

/// How long a thread looks for what is to come, in milliseconds.
const PATIENCE: u64 = 10_000;

/// The same for what is not to come.
const GLANCES: u64 = 200;

/// What a row sets, and what it can count and read.
#[derive(Drop)]
pub(crate) struct World {
    pub(crate) rt: HostRuntime,
    pub(crate) kind: Kind,
    // What the clock shows.
    pub(crate) nanoseconds: AtomicU64,
    /// Of the clock: one that fails is an error, and after one that takes its time it has moved on.
    pub(crate) readings: Script,
    /// The same of the time of day.
    pub(crate) days: Script,
    pub(crate) connects: Script,
    pub(crate) checks: Script,
    pub(crate) breaks: Script,
    /// Of the customizer, as it is shown a connection.
    pub(crate) shows: Script,
    /// Of the handlers and the customizer, as each thing is told.
    pub(crate) hears: Script,
    /// Of requests for memory: each is granted.
    pub(crate) allocs: Script,
    pub(crate) opened: AtomicU64,
    pub(crate) dropped: AtomicU64,
    pub(crate) given_up: AtomicU64,
    /// Managers that were dropped.
    pub(crate) ended: AtomicU64,
    /// Handlers and customizers that there are.
    pub(crate) ears: AtomicU64,
    // Whether drops of connections are told too.
    tells_drops: AtomicBool,
    // How many of those that were opened first are lost.
    lost: AtomicU64,
    // How many connections are open and were not found broken or unsound, and how many were at
    // most.
    sound: AtomicU64,
    most_sound: AtomicU64,
    told: Mutex<Vec<Told>>,
    // What hangs as it is told, and the script by which it does.
    held: Mutex<Option<Told>>,
    pub(crate) tells: Script,
    // The milliseconds of each sleep that was begun.
    slept: Mutex<Vec<u64>>,
    // What wakes the tasks that sleep, at which moment, or hang.
    source: Source,
    wakers: Mutex<Vec<(Option<u64>, Option<Waker>)>>,
    /// The calls out of a pool that wait for a look at it.
    pub(crate) stops: Stops,
    // Who else hears all that an ear does.
    other: Mutex<Option<&'static dyn Hear>>,
}

impl World {
    /// It stays for as long as the program: so its futures borrow nothing that ends.
    pub(crate) fn new(rt: HostRuntime, kind: Kind) -> Result<&'static World, AllocError> {
        let world = World {
            rt,
            kind,
            nanoseconds: AtomicU64::new(BEGIN),
            readings: Script::good(),
            days: Script::good(),
            connects: Script::good(),
            checks: Script::good(),
            breaks: Script::good(),
            shows: Script::good(),
            hears: Script::good(),
            allocs: Script::good(),
            opened: AtomicU64::new(0),
            dropped: AtomicU64::new(0),
            given_up: AtomicU64::new(0),
            ended: AtomicU64::new(0),
            ears: AtomicU64::new(0),
            tells_drops: AtomicBool::new(false),
            lost: AtomicU64::new(0),
            sound: AtomicU64::new(0),
            most_sound: AtomicU64::new(0),
            told: Mutex::new(Vec::new(rt.alloc())),
            held: Mutex::new(None),
            tells: Script::good(),
            slept: Mutex::new(Vec::new(rt.alloc())),
            source: Source::new(),
            wakers: Mutex::new(Vec::new(rt.alloc())),
            stops: Stops::new(),
            other: Mutex::new(None),
        };
        Ok(Box::leak(Box::new(rt.alloc(), world)?))
    }

    /// What hangs by this script goes on.
    pub(crate) fn let_go(&self, script: &Script) {
        script.let_go();
        self.ring(|end| end.is_none());
    }

    // All that hangs goes on, and what comes later does not hang.
    fn let_all_go(&self) {
        for script in [
            &self.connects,
            &self.checks,
            &self.shows,
            &self.hears,
            &self.tells,
            &self.readings,
        ] {
            script.goes("");
            self.let_go(script);
        }
    }

    /// How many connections were opened.
    pub(crate) fn opened(&self) -> u64 {
        self.opened.load(Ordering::SeqCst)
    }

    /// How many of them were dropped.
    pub(crate) fn dropped(&self) -> u64 {
        self.dropped.load(Ordering::SeqCst)
    }

    /// How many openings of tasks were dropped before their end.
    pub(crate) fn given_up(&self) -> u64 {
        self.given_up.load(Ordering::SeqCst)
    }

    /// How many managers were dropped.
    pub(crate) fn ended(&self) -> u64 {
        self.ended.load(Ordering::SeqCst)
    }

    /// Whether nothing is left that a pool was made of, at last.
    pub(crate) fn once_ended(&self) -> bool {
        self.watch(|| self.ended() == 1 && self.ears.load(Ordering::SeqCst) == 0)
    }

    /// All that were opened so far are lost: checks of them fail, and they come back broken.
    pub(crate) fn lose_all(&self) {
        self.lost.store(self.opened(), Ordering::SeqCst);
    }

    /// Whether this one is lost.
    pub(crate) fn has_lost(&self, number: u64) -> bool {
        number < self.lost.load(Ordering::SeqCst)
    }

    /// One more is sound.
    pub(crate) fn is_sound(&self) {
        let before = self.sound.fetch_add(1, Ordering::SeqCst);
        self.most_sound.fetch_max(before + 1, Ordering::SeqCst);
    }

    /// One less is.
    pub(crate) fn is_unsound(&self) {
        self.sound.fetch_sub(1, Ordering::SeqCst);
    }

    /// How many were sound at once, at most.
    pub(crate) fn most_sound(&self) -> u64 {
        self.most_sound.load(Ordering::SeqCst)
    }

    // Of those who sleep until this moment, or hang. A waker wakes its task as it is dropped,
    // outside of the lock.
    pub(crate) fn ring<F: Fn(Option<u64>) -> bool>(&self, is_due: F) {
        let (mut all, mut rung) = (Vec::new(self.rt.alloc()), Vec::new(self.rt.alloc()));
        if let Some(mut wakers) = lock(&self.wakers) {
            mem::swap(&mut *wakers, &mut all);
            for (end, waker) in all {
                let to = if is_due(end) { &mut rung } else { &mut *wakers };
                to.push((end, waker)).ok();
            }
        }
        drop(rung);
    }

    /// One poll of a task that waits until something is so: from this moment on, or once it is let
    /// go.
    pub(crate) fn poll_until<F: Fn() -> bool>(
        &self,
        cx: &mut Context<'_>,
        end: Option<u64>,
        is_so: F,
    ) -> Poll<()> {
        let Some(mut wakers) = lock(&self.wakers) else {
            return cx.yield_now();
        };
        if is_so() {
            return Poll::Ready(());
        }
        let place = wakers.len();
        if wakers.push((end, None)).is_err() {
            return cx.yield_now();
        }
        cx.register(&self.source, &mut wakers[place].1)
    }

    /// Waits, in a thread, until something is so; whether it came to be so.
    pub(crate) fn watch<F: FnMut() -> bool>(&self, is_so: F) -> bool {
        self.look(PATIENCE, is_so)
    }

    /// Looks, for a while, for what is not to come; whether it came. A busy machine can only hide
    /// it.
    pub(crate) fn glimpse<F: FnMut() -> bool>(&self, is_so: F) -> bool {
        self.look(GLANCES, is_so)
    }

    fn look<F: FnMut() -> bool>(&self, times: u64, mut is_so: F) -> bool {
        for _ in 0..times {
            if is_so() {
                return true;
            }
            thread::sleep(&self.rt, Duration::from_millis(1));
        }
        is_so()
    }

    /// The next call of a script, in a thread: it hangs, and takes its time.
    pub(crate) fn call(&self, script: &Script) -> Outcome {
        self.stops.stop(self);
        let outcome = self.hang(script);
        self.take(outcome);
        outcome
    }

    /// The same, of what is no call out of a pool, and takes no time. It hangs for longer than
    /// anybody looks.
    pub(crate) fn hang(&self, script: &Script) -> Outcome {
        let outcome = script.next();
        if outcome.lasts > 0 {
            let end = self.now() + outcome.lasts;
            (0..3).any(|_| self.watch(|| self.now() >= end));
        }
        if let Some(hung) = outcome.hangs {
            (0..3).any(|_| self.watch(|| script.goes_on(hung)));
        }
        outcome
    }

    /// A call takes its time.
    pub(crate) fn take(&self, outcome: Outcome) {
        if outcome.seconds > 0 {
            self.pass(outcome.seconds * 1_000);
        }
    }

    /// A sleep of a task begins.
    pub(crate) fn sleeps(&self, milliseconds: u64) {
        if let Some(mut slept) = lock(&self.slept) {
            slept.push(milliseconds).ok();
        }
    }

    /// The milliseconds of the sleep that was begun last.
    pub(crate) fn slept(&self) -> Option<u64> {
        lock(&self.slept)?.last().copied()
    }

    /// How many sleeps were begun.
    pub(crate) fn sleeps_begun(&self) -> usize {
        lock(&self.slept).map_or(0, |slept| slept.len())
    }

    /// Where memory is refused it is missing in the list, and the row that reads it fails.
    pub(crate) fn note(&self, told: Told) {
        if let Some(mut notes) = lock(&self.told) {
            notes.push(told).ok();
        }
        if lock(&self.held).is_some_and(|held| *held == Some(told)) {
            self.hang(&self.tells);
        }
        self.call(&self.hears);
    }

    /// From now on this one hears all that an ear does, and before it.
    pub(crate) fn let_hear(&self, other: &'static dyn Hear) {
        if let Some(mut told) = lock(&self.other) {
            *told = Some(other);
        }
    }

    /// Who else hears it.
    pub(crate) fn other(&self) -> Option<&'static dyn Hear> {
        *lock(&self.other)?
    }

    /// From now on drops of connections are told too.
    pub(crate) fn tell_drops(&self) {
        self.tells_drops.store(true, Ordering::SeqCst);
    }

    /// A connection is dropped.
    pub(crate) fn drop_one(&self, number: u64) {
        self.dropped.fetch_add(1, Ordering::SeqCst);
        if self.tells_drops.load(Ordering::SeqCst) {
            self.note(Told::Dropped(number));
        }
    }

    /// From now on a thread that tells this hangs, until `tells` is let go.
    pub(crate) fn hang_at(&self, told: Told) {
        if let Some(mut held) = lock(&self.held) {
            *held = Some(told);
        }
        self.tells.goes("~+*");
    }

    /// Whether one hangs there, at last.
    pub(crate) fn once_hung(&self) -> bool {
        self.watch(|| self.tells.hangs())
    }

    /// Whether this is what was told since the last such question.
    pub(crate) fn went(&self, wanted: &[Told]) -> bool {
        // A thread of the pool may tell the last of it later.
        self.once_told(wanted.len());
        let Some(mut told) = lock(&self.told) else {
            return false;
        };
        let is_so = told.as_slice() == wanted;
        if !is_so {
            println!(self.rt; "{:?}: {:?}", self.kind, told.as_slice()).ok();
        }
        told.clear();
        is_so
    }

    /// Fails unless it is.
    pub(crate) fn heard(&self, wanted: &[Told]) -> Result<(), Fail> {
        if self.went(wanted) {
            return Ok(());
        }
        Err(Fail::from("something else was told"))
    }

    /// Whether so many things were told since then, at last.
    pub(crate) fn once_told(&self, count: usize) -> bool {
        self.watch(|| match lock(&self.told) {
            Some(told) => told.len() >= count,
            None => false,
        })
    }

    /// Whether all of this was told since then, at last, in whichever order.
    pub(crate) fn once_heard(&self, wanted: &[Told]) -> bool {
        let heard = self.watch(|| match lock(&self.told) {
            Some(told) => wanted.iter().all(|it| told.contains(it)),
            None => false,
        });
        if !heard {
            self.went(&[]);
        }
        heard
    }

    /// What comes of all that was told since then.
    pub(crate) fn of_told<T, F: FnOnce(&[Told]) -> T>(&self, make: F) -> Option<T> {
        let told = lock(&self.told)?;
        Some(make(told.as_slice()))
    }

    /// What was told so far is asked for no more.
    pub(crate) fn forget(&self) {
        if let Some(mut told) = lock(&self.told) {
            told.clear();
        }
    }
}

/// The runtime of a test, which may do all.
pub(crate) trait Anchor {
    fn host(&self) -> HostRuntime;
}

impl Anchor for HostRuntime {
    fn host(&self) -> HostRuntime {
        *self
    }
}

/// What the rows need of the runtime.
pub(crate) trait Host: PoolRuntime + AsyncRuntime + RandomSource + Print + Anchor {}

impl<R: PoolRuntime + AsyncRuntime + RandomSource + Print + Anchor> Host for R {}

/// Plays a row in a world of its own for each of these kinds. What hangs at its end goes on.
pub(crate) fn on_each<R: Host, F: Fn(&'static World) -> Result<(), Fail>>(
    rt: R,
    kinds: &[Kind],
    row: F,
) -> Result<(), Fail> {
    for kind in kinds {
        println!(rt; "{kind:?}").ok();
        let world = World::new(rt.host(), *kind)?;
        let played = row(world);
        world.let_all_go();
        played?;
    }
    Ok(())
}
