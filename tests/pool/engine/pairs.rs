// Two books of one story: each call of the engine on the one, and the book's own step on the other.

use super::limits_of;
use r2d2::engine::{Outcome, Settled, Wakes, give_back, lend, settle, sweep};
use r2d2_core::journal::Report;
use r2d2_core::{Book, Record};
use std::alloc::{AllocError, Global};
use std::fmt::Debug;
use std::test::Fail;
use std::time::Duration;

/// How far the first connection of a book is, whose id is 0.
#[derive(Clone, Copy, PartialEq, Debug)]
pub(super) enum Stage {
    Opening,
    Numbered,
    Idle,
    Lent,
}

/// A call of the engine, for that connection.
#[derive(Clone, Copy, PartialEq, Debug)]
pub(super) enum Call {
    Lend,
    LendOrOrder,
    GiveBack,
    GiveBackBroken,
    Opened,
    Failed,
    Unsound,
    /// At a moment at which what was idle at the making is expired.
    Sweep,
}

// Room for three connections, one of them wanted idle. One that is idle for a second is expired.
fn book_at(alloc: Global, stage: Stage) -> Result<Book<u32>, Fail> {
    let mut book = Book::new(alloc, limits_of(3, Some(1))?, Duration::ZERO, 8)?;
    let _ = book.begin(Duration::ZERO);
    if stage != Stage::Opening {
        let _ = book.number(0);
    }
    if matches!(stage, Stage::Idle | Stage::Lent) {
        let _ = book.admit(Duration::ZERO, 0, 7);
    }
    if stage == Stage::Lent {
        let _ = book.take(Duration::ZERO, false);
    }
    Ok(book)
}

/// Whom the engine wakes, what it answers, and what the book's own step does.
type Answers = (Wakes, String, String);

fn answers<T: Debug>(
    alloc: Global,
    woken: Wakes,
    answer: &T,
    own: &T,
) -> Result<Answers, AllocError> {
    Ok((woken, format!(in alloc; "{answer:?}")?, format!(in alloc; "{own:?}")?))
}

/// Two books that were made alike.
#[derive(Drop)]
pub(super) struct Pair {
    pub(super) by_engine: Book<u32>,
    pub(super) by_itself: Book<u32>,
}

impl Pair {
    pub(super) fn at(alloc: Global, stage: Stage) -> Result<Pair, Fail> {
        Ok(Pair {
            by_engine: book_at(alloc, stage)?,
            by_itself: book_at(alloc, stage)?,
        })
    }

    pub(super) fn call(&mut self, alloc: Global, call: Call) -> Result<Answers, AllocError> {
        match call {
            Call::Lend => self.lend(alloc, false),
            Call::LendOrOrder => self.lend(alloc, true),
            Call::GiveBack => self.give_back(alloc, false),
            Call::GiveBackBroken => self.give_back(alloc, true),
            Call::Opened => self.opened(alloc),
            Call::Failed => self.failed(alloc),
            Call::Unsound => self.unsound(alloc),
            Call::Sweep => self.sweep(alloc),
        }
    }

    fn lend(&mut self, alloc: Global, or_order: bool) -> Result<Answers, AllocError> {
        let (taken, woken) = lend(&mut self.by_engine, moment(), or_order);
        answers(alloc, woken, &taken, &self.by_itself.take(moment(), or_order))
    }

    fn give_back(&mut self, alloc: Global, broken: bool) -> Result<Answers, AllocError> {
        let (returned, woken) = give_back(&mut self.by_engine, moment(), 0, 7, broken);
        answers(alloc, woken, &returned, &self.by_itself.put_back(moment(), 0, 7, broken))
    }

    fn opened(&mut self, alloc: Global) -> Result<Answers, AllocError> {
        let own = match self.by_itself.admit(moment(), 0, 7) {
            Ok(()) => Settled::Admitted,
            Err((why, value)) => Settled::Refused(why, Some(value)),
        };
        self.settle(alloc, Outcome::Opened { id: 0, value: 7 }, own)
    }

    fn failed(&mut self, alloc: Global) -> Result<Answers, AllocError> {
        let own = match self.by_itself.fail(moment(), 0, None) {
            Ok(due) => Settled::Retry(due),
            Err(why) => Settled::Refused(why, None),
        };
        let (tries, text) = (0, None);
        self.settle(alloc, Outcome::Failed { tries, text }, own)
    }

    fn unsound(&mut self, alloc: Global) -> Result<Answers, AllocError> {
        let own = match self.by_itself.fail_check(moment(), 0, None) {
            Ok(gone) => Settled::Gone(gone),
            Err(why) => Settled::Refused(why, None),
        };
        self.settle(alloc, Outcome::Unsound { id: 0, text: None }, own)
    }

    fn settle(
        &mut self,
        alloc: Global,
        outcome: Outcome<u32>,
        own: Settled<u32>,
    ) -> Result<Answers, AllocError> {
        let (settled, woken) = settle(&mut self.by_engine, moment(), outcome);
        answers(alloc, woken, &settled, &own)
    }

    fn sweep(&mut self, alloc: Global) -> Result<Answers, AllocError> {
        let now = Duration::from_secs(2);
        let mut released = Vec::with_capacity(alloc, self.by_engine.limits().max_size() as usize)?;
        let mut closed = Vec::with_capacity(alloc, self.by_itself.limits().max_size() as usize)?;
        let (ordered, woken) = sweep(&mut self.by_engine, now, &mut released);
        let own = self.by_itself.reap(now, &mut closed);
        answers(alloc, woken, &(ordered, released), &(own, closed))
    }
}

fn moment() -> Duration {
    Duration::from_millis(5)
}

/// What a report shows beside its limits and its base.
pub(super) fn shown(it: &Report) -> (&[Record], [&[u64]; 2], u64, u64, (u32, u32, bool)) {
    let lists = [it.idle.as_slice(), it.lent.as_slice()];
    let counts = (it.connections, it.pending, it.closed);
    (it.records.as_slice(), lists, it.lost, it.takes, counts)
}
