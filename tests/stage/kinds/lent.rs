// What pools lend.

use crate::clock::Place;
use crate::ear::{Ear, milliseconds};
use crate::kinds::Quiet;
use crate::manager::{Hours, Kept, KeptKind, Manager, Wire};
use crate::world::Host;
use r2d2::Extensions;
use r2d2::event::NopEventHandler;
use r2d2_async::Handlers;
use std::marker::Brand;

/// What a pool of any kind lent.
#[derive(Drop)]
pub(crate) enum Lent<R: Host> {
    Thread(r2d2::PooledConnection<Manager, Ear, Ear, Ear, Place<R>>),
    Counted(r2d2::CountedConnection<Manager, Ear, Ear, Ear, Place<R>, Brand>),
    Task(r2d2_async::PooledConnection<Manager, Hours, Handlers<Ear, Ear, Ear>, Place<R>>),
    QuietThread(r2d2::PooledConnection<Manager, Ear, NopEventHandler, Ear, Place<R>>),
    QuietTask(r2d2_async::PooledConnection<Manager, Hours, Quiet, Place<R>>),
}

// The same of what a pool of any kind lent.
macro_rules! of_lent {
    ($lent:expr, $it:ident, $what:expr) => {
        match $lent {
            Lent::Thread($it) => $what,
            Lent::Counted($it) => $what,
            Lent::Task($it) => $what,
            Lent::QuietThread($it) => $what,
            Lent::QuietTask($it) => $what,
        }
    };
}

// The same call of what a pool of any kind lent.
macro_rules! call_lent {
    ($lent:expr, $call:ident) => {
        match $lent {
            Lent::Thread(it) => r2d2::PooledConnection::$call(it),
            Lent::Counted(it) => r2d2::CountedConnection::$call(it),
            Lent::Task(it) => r2d2_async::PooledConnection::$call(it),
            Lent::QuietThread(it) => r2d2::PooledConnection::$call(it),
            Lent::QuietTask(it) => r2d2_async::PooledConnection::$call(it),
        }
    };
}

impl<R: Host> Lent<R> {
    /// The number that its pool gave it.
    pub(crate) fn id(&self) -> u64 {
        call_lent!(self, id)
    }

    /// How many were opened before it.
    pub(crate) fn number(&self) -> u64 {
        of_lent!(self, it, it.number)
    }

    /// How often the customizer found it well.
    pub(crate) fn shown(&self) -> u64 {
        of_lent!(self, it, it.shown)
    }

    /// What was written on it.
    pub(crate) fn mark(&self) -> u64 {
        of_lent!(self, it, it.mark)
    }

    pub(crate) fn write(&mut self, mark: u64) {
        of_lent!(self, it, it.mark = mark)
    }

    /// When it was lent, in milliseconds since the pool was made.
    pub(crate) fn lent_at(&self) -> u64 {
        milliseconds(call_lent!(self, lent_at))
    }

    fn extensions(&self) -> &Extensions<Kept> {
        call_lent!(self, extensions)
    }

    /// What is kept beside it of this kind.
    pub(crate) fn kept(&self, kind: KeptKind) -> Option<Kept> {
        self.extensions().get(&kind).copied()
    }

    /// Keeps it beside the connection.
    pub(crate) fn keep(&mut self, kept: Kept) {
        call_lent!(self, extensions_mut).insert(kept).ok();
    }

    /// Takes it out of the pool for good.
    pub(crate) fn detach(self) -> Wire {
        call_lent!(self, detach)
    }
}
