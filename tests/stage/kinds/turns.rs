// Callers who wait, and how they end.

use crate::ear::milliseconds;
use crate::kinds::{Beside, Call, Get, Kind, Lent, Pool, first_ended, length};
use crate::world::Host;
use futures::Future;
use r2d2::Error;
use std::test::Fail;

/// More milliseconds than pass in any row.
const LONG: u64 = 1_000_000_000;

impl<R: Host> Pool<R> {
    /// How many wait, and since when.
    pub(crate) fn waits(&self) -> (u64, Option<u64>) {
        let status = self.status();
        (status.waiting, status.waiting_since.map(milliseconds))
    }

    /// So many callers come to wait for so many milliseconds, one after the other.
    pub(crate) fn callers(&self, count: u64, timeout: u64) -> Result<Vec<Get<R>>, Fail> {
        let mut callers = Vec::new(self.rt.alloc());
        for _ in 0..count {
            callers.push(self.begin(timeout)?)?;
        }
        Ok(callers)
    }

    /// The same with all the time that they need.
    pub(crate) fn line(&self, count: u64) -> Result<Vec<Get<R>>, Fail> {
        self.callers(count, LONG)
    }

    /// A `get` in this thread, for so many milliseconds.
    pub(crate) fn get_within(&self, timeout: u64) -> Result<Lent<R>, Error> {
        self.calls.ask(self.rt, Some(length(timeout)))
    }

    /// Gives it back, and begins to ask for one again at once.
    pub(crate) fn again(&self, lent: Lent<R>) -> Result<Get<R>, Fail> {
        let rt = self.rt;
        if self.world.kind == Kind::Polled {
            drop(lent);
            return self.begin(LONG);
        }
        let calls = self.calls.try_clone()?;
        let again = Beside::start(rt, move || {
            drop(lent);
            calls.ask(rt, Some(length(LONG)))
        })?;
        Ok(Call::Thread(again))
    }

    /// Whether the report of this moment replays.
    pub(crate) fn replays(&self) -> bool {
        let report = self.calls.journal();
        report.is_ok_and(|report| report.replays() == Ok(true))
    }

    /// Whether a call ends, at last.
    pub(crate) fn ends<T: Drop, F: Future<Output: Drop>>(&self, call: &mut Call<T, F>) -> bool {
        self.world.watch(|| {
            self.work();
            call.has_ended()
        })
    }

    /// The same, as the clock moves on.
    pub(crate) fn ends_in_time<T: Drop, F: Future<Output: Drop>>(
        &self,
        call: &mut Call<T, F>,
    ) -> bool {
        self.world.watch(|| {
            self.world.pass(50);
            self.work();
            call.has_ended()
        })
    }

    /// Each of these is served in its turn, once the one before it gave its connection back.
    pub(crate) fn in_turn(&self, mut line: Vec<Get<R>>) -> Result<(), Fail> {
        while !line.is_empty() {
            let mut first = line.remove(0);
            if !self.ends(&mut first) {
                return Err(Fail::from("the first in line is not served"));
            }
            if line.iter_mut().any(|other| other.has_ended()) {
                return Err(Fail::from("another one is served too"));
            }
            drop(self.end(first)??);
        }
        Ok(())
    }

    /// Each of these ends, in whichever order, and gives back at once what it is lent: how many are
    /// lent one.
    pub(crate) fn all_end(&self, mut calls: Vec<Get<R>>) -> Result<u64, Fail> {
        let mut served = 0;
        while !calls.is_empty() {
            let ended = first_ended(self.world, self.rt, &mut calls, || self.work())?;
            served += u64::from(ended.is_ok());
        }
        Ok(served)
    }
}
