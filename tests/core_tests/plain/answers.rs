// What the plain reading says of the answers and the reports of a core.

use super::{Idle, Plain};
use r2d2_core::{Answer, Base, Gone, Leftover, Refusal, Released, Report, Returned, Step, Take};
use std::alloc::{AllocError, Allocator};
use std::time::Duration;

impl Plain {
    /// Takes the step, and says whether its answer is the right one.
    pub(crate) fn answers<A: Allocator>(
        &mut self,
        step: &Step<u64>,
        answer: Answer<u64, A>,
    ) -> Result<bool, AllocError> {
        match (step, answer) {
            (Step::Take { now, or_order }, Answer::Take(take)) => {
                Ok(is_taken(take, self.take(*now, *or_order)?))
            }
            (Step::Begin { now }, Answer::Begin(job)) => Ok(self.begin(*now)? == job),
            (Step::Number { tries }, Answer::Number(id)) => Ok(self.number(*tries)? == id),
            (Step::Admit { now, id, value }, Answer::Admit(admission)) => {
                let admitted = self.admit(*now, *id, *value)?;
                Ok(admission == admitted.map_err(|why| (why, *value)))
            }
            (Step::Fail { now, tries, text }, Answer::Fail(due)) => {
                Ok(self.fail(*now, *tries, text)? == due)
            }
            (Step::FailCheck { now, id, text }, Answer::FailCheck(gone)) => {
                let gone = gone.map(|Gone { age, ordered }| (age, ordered));
                Ok(self.fail_check(*now, *id, text)? == gone)
            }
            (
                Step::PutBack {
                    now,
                    id,
                    value,
                    broken,
                },
                Answer::PutBack(returned),
            ) => {
                let due = self.put_back(*now, *id, *value, *broken)?;
                Ok(is_put_back(*value, returned, due))
            }
            (Step::Reap { now }, Answer::Reap { released, ordered }) => {
                self.does_reap(*now, released, ordered)
            }
            (Step::TakeError, Answer::TakeError(text)) => Ok(self.last_error.take() == text),
            (Step::Close, Answer::Close(left)) => self.does_close(left),
            _ => Ok(false),
        }
    }

    fn does_reap(
        &mut self,
        now: Duration,
        released: Vec<Released<u64>>,
        ordered: u32,
    ) -> Result<bool, AllocError> {
        let (expired, due) = self.reap(now)?;
        let at = self.latest();
        let are_as_many = released.len() == expired.len();
        let are_alike = released.iter().zip(expired.iter()).all(|(closed, one)| {
            let age = at.saturating_sub(one.birth);
            (closed.id, closed.age, closed.value) == (one.id, age, one.value)
        });
        Ok(are_as_many && are_alike && ordered == due)
    }

    fn does_close<A: Allocator>(&mut self, left: Leftover<u64, A>) -> Result<bool, AllocError> {
        let due = self.close()?;
        let due = due.iter().map(|one| (one.id, one.value));
        let due: Vec<(u64, u64)> = due.collect(self.alloc)?;
        let left: Vec<(u64, u64)> = left.collect(self.alloc)?;
        Ok(left == due)
    }

    /// Whether a book that keeps so many records has to report so.
    pub(crate) fn is_reported(&self, report: &Report, room: usize) -> Result<bool, AllocError> {
        let lost = self.records.len().saturating_sub(room);
        let (Some(base), Some(now)) = (self.bases.get(lost), self.bases.last()) else {
            return Ok(false);
        };
        let idle: Vec<u64> = self.idle.iter().map(|one| one.id).collect(self.alloc)?;
        let lent = self.lent_ids()?;
        Ok(
            is_alike(&report.base, base)
                && Some(report.records.as_slice()) == self.records.as_slice().get(lost..)
                && report.lost == lost as u64
                && report.takes == self.takes
                && report.idle == idle
                && report.lent == lent
                && report.connections == now.connections
                && report.pending as usize == self.pending()
                && report.closed == self.closed,
        )
    }
}

fn is_taken(answer: Take<u64>, due: (Option<Idle>, u32)) -> bool {
    match (answer, due) {
        (
            Take::Found {
                id,
                birth,
                value,
                ordered,
            },
            (Some(one), due),
        ) => { (id, birth, value, ordered) == (one.id, one.birth, one.value, due) }
        (Take::Empty { ordered }, (None, due)) => ordered == due,
        _ => false,
    }
}

fn is_put_back(
    value: u64,
    answer: Result<Returned<u64>, (Refusal, u64)>,
    due: Result<Option<(Duration, u32)>, Refusal>,
) -> bool {
    match (answer, due) {
        (Ok(Returned::Kept), Ok(None)) => true,
        (
            Ok(
                Returned::Closed {
                    value: its,
                    age,
                    ordered,
                },
            ),
            Ok(Some(due)),
        ) => { its == value && (age, ordered) == due }
        (Err(refused), Err(why)) => refused == (why, value),
        _ => false,
    }
}

fn is_alike(one: &Base, other: &Base) -> bool {
    one.at == other.at
        && one.idle == other.idle
        && one.lent == other.lent
        && one.connections == other.connections
        && one.pending == other.pending
        && one.closed == other.closed
}
