// What opens wires and checks them, for pools of both crates; and what tasks wait for.

use crate::ear::milliseconds;
use crate::script::{Outcome, Script};
use crate::world::World;
use futures::task::{Context, Poll};
use futures::{Future, ready};
use r2d2::Extension;
use r2d2_async::Timer;
use std::fmt;
use std::sync::atomic::Ordering;
use std::time::Duration;

/// What is kept beside a connection.
#[derive(Clone, Copy, Debug, PartialEq)]
pub(crate) struct Kept {
    kind: KeptKind,
    value: u32,
}

impl Kept {
    pub(crate) fn number(value: u32) -> Kept {
        Kept {
            kind: KeptKind::OfNumber,
            value,
        }
    }

    pub(crate) fn word(letter: char) -> Kept {
        Kept {
            kind: KeptKind::OfWord,
            value: u32::from(letter),
        }
    }
}

#[derive(Clone, Copy, Debug, PartialEq, Eq)]
pub(crate) enum KeptKind {
    OfNumber,
    OfWord,
}

impl Extension for Kept {
    type Kind = KeptKind;

    ghost kind_of = { λ v. v.kind };

    fn kind(&self) -> KeptKind {
        self.kind
    }
}

/// Which call failed, counted from 0.
#[derive(Clone, Copy, Debug, PartialEq, Eq)]
pub(crate) enum Sorry {
    Connect(u64),
    Check(u64),
    Shown(u64),
}

impl fmt::Display for Sorry {
    fn fmt<W: fmt::Write>(&self, f: &mut fmt::Formatter<W>) -> fmt::Result {
        match self {
            Sorry::Connect(number) => write!(f, "connect {number}"),
            Sorry::Check(number) => write!(f, "check {number}"),
            Sorry::Shown(number) => write!(f, "shown {number}"),
        }
    }
}

/// A connection, which counts its life.
pub(crate) struct Wire {
    /// How many were opened before it.
    pub(crate) number: u64,
    /// How often the customizer found it well.
    pub(crate) shown: u64,
    /// What its callers wrote on it.
    pub(crate) mark: u64,
    world: &'static World,
}

impl Drop for Wire {
    fn drop(self) {
        let Wire {
            number,
            shown: _,
            mark: _,
            world,
        } = self;
        world.drop_one(number);
    }
}

impl fmt::Debug for Wire {
    fn fmt<W: fmt::Write>(&self, f: &mut fmt::Formatter<W>) -> fmt::Result {
        write!(f, "wire {} shown {}", self.number, self.shown)
    }
}

fn opened(world: &'static World, outcome: Outcome) -> Result<Wire, Sorry> {
    if !outcome.goes_well {
        return Err(Sorry::Connect(outcome.number));
    }
    world.is_sound();
    Ok(Wire {
        number: world.opened.fetch_add(1, Ordering::SeqCst),
        shown: 0,
        mark: 0,
        world,
    })
}

/// Opens wires and checks them, by the scripts. It counts its drop.
pub(crate) struct Manager {
    pub(crate) world: &'static World,
}

impl Drop for Manager {
    fn drop(self) {
        let Manager { world } = self;
        world.ended.fetch_add(1, Ordering::SeqCst);
    }
}

impl fmt::Debug for Manager {
    fn fmt<W: fmt::Write>(&self, f: &mut fmt::Formatter<W>) -> fmt::Result {
        f.write_str("Manager")
    }
}

impl Manager {
    fn breaks(&self, wire: &Wire) -> bool {
        let goes_well = self.world.call(&self.world.breaks).goes_well;
        let goes_well = goes_well && !self.world.has_lost(wire.number);
        if !goes_well {
            self.world.is_unsound();
        }
        !goes_well
    }
}

fn checked(wire: &Wire, outcome: Outcome) -> Result<(), Sorry> {
    let world = wire.world;
    if outcome.goes_well && !world.has_lost(wire.number) {
        return Ok(());
    }
    world.is_unsound();
    Err(Sorry::Check(outcome.number))
}

impl r2d2::ManageConnection for Manager {
    type Connection = Wire;

    type Error = Sorry;

    type Extension = Kept;

    fn connect(&self) -> Result<Wire, Sorry> {
        opened(self.world, self.world.call(&self.world.connects))
    }

    fn is_valid(&self, wire: &mut Wire) -> Result<(), Sorry> {
        checked(wire, self.world.call(&self.world.checks))
    }

    fn has_broken(&self, wire: &mut Wire) -> bool {
        self.breaks(wire)
    }
}

/// A call of a script, in a task: it hangs, and takes its time.
#[derive(Clone, Copy)]
struct Scripted {
    world: &'static World,
    outcome: Outcome,
    // What the clock shows at its end at the earliest, in milliseconds.
    end: u64,
    is_over: bool,
}

impl Scripted {
    fn poll(&mut self, script: &Script, cx: &mut Context<'_>) -> Poll<Outcome> {
        if self.outcome.lasts > 0 {
            let is_due = || self.world.now() >= self.end;
            ready!(self.world.poll_until(cx, Some(self.end), is_due));
        }
        if let Some(hung) = self.outcome.hangs {
            ready!(self.world.poll_until(cx, None, || script.goes_on(hung)));
        }
        if !self.is_over {
            self.is_over = true;
            self.world.take(self.outcome);
        }
        Poll::Ready(self.outcome)
    }
}

/// An opening.
pub(crate) struct Opening {
    scripted: Scripted,
}

impl Drop for Opening {
    fn drop(self) {
        let Opening { scripted } = self;
        if !scripted.is_over {
            scripted.world.given_up.fetch_add(1, Ordering::SeqCst);
        }
    }
}

impl Future for Opening {
    type Output = Result<Wire, Sorry>;

    fn poll(&mut self, cx: &mut Context<'_>) -> Poll<Result<Wire, Sorry>> {
        let world = self.scripted.world;
        let outcome = ready!(self.scripted.poll(&world.connects, cx));
        Poll::Ready(opened(world, outcome))
    }
}

/// A check.
#[derive(Drop)]
pub(crate) struct Checking {
    wire: Option<Wire>,
    scripted: Scripted,
}

impl Future for Checking {
    type Output = (Wire, Result<(), Sorry>);

    fn poll(&mut self, cx: &mut Context<'_>) -> Poll<(Wire, Result<(), Sorry>)> {
        let script = &self.scripted.world.checks;
        let outcome = ready!(self.scripted.poll(script, cx));
        match self.wire.take() {
            Some(wire) => {
                let checked = checked(&wire, outcome);
                Poll::Ready((wire, checked))
            }
            None => cx.yield_now(),
        }
    }
}

impl r2d2_async::ManageConnection for Manager {
    type Connection = Wire;

    type Error = Sorry;

    type Extension = Kept;

    type Connect = Opening;

    type Check = Checking;

    fn connect(&self) -> Opening {
        Opening {
            scripted: self.scripted(&self.world.connects),
        }
    }

    fn check(&self, wire: Wire) -> Checking {
        Checking {
            wire: Some(wire),
            scripted: self.scripted(&self.world.checks),
        }
    }

    fn has_broken(&self, wire: &mut Wire) -> bool {
        self.breaks(wire)
    }
}

impl Manager {
    fn scripted(&self, script: &Script) -> Scripted {
        self.world.stops.stop(self.world);
        let outcome = script.next();
        Scripted {
            world: self.world,
            outcome,
            end: self.world.now() + outcome.lasts,
            is_over: false,
        }
    }
}

/// A timer by the world's clock: a task is woken as it moves.
#[derive(Clone, Copy)]
pub(crate) struct Hours {
    pub(crate) world: &'static World,
}

#[derive(Drop)]
pub(crate) struct Hour {
    world: &'static World,
    end: u64,
}

impl Future for Hour {
    type Output = ();

    fn poll(&mut self, cx: &mut Context<'_>) -> Poll<()> {
        let end = self.end;
        self.world
            .poll_until(cx, Some(end), || self.world.now() >= end)
    }
}

impl Timer for Hours {
    type Sleep = Hour;

    fn sleep(&self, length: Duration) -> Hour {
        let whole = milliseconds(length);
        self.world.sleeps(whole);
        let begun = u64::from(Duration::from_millis(whole) < length);
        Hour {
            world: self.world,
            end: self.world.now().saturating_add(whole).saturating_add(begun),
        }
    }
}
