// What a core does, read a second time from the rules: in lists, one thing after the other, and
// nothing is fast. Of the core it asks the limits what they were made of, and nothing else.

use r2d2_core::{Base, Job, LendingOrder, Limits, Record, Refusal};
use std::alloc::{AllocError, Global};
use std::mem;
use std::time::Duration;

mod answers;

/// An idle connection.
#[derive(Clone, Copy)]
struct Idle {
    id: u64,
    birth: Duration,
    since: Duration,
    value: u64,
}

/// A pool so far.
#[derive(Drop)]
pub(crate) struct Plain {
    alloc: Global,
    limits: Limits,
    // The latest moment.
    at: Duration,
    // In the order in which they came to be idle.
    idle: Vec<Idle>,
    // The id and the birth of each, in the order of their takes.
    lent: Vec<(u64, Duration)>,
    // Of each opening when it is due, and how often it failed, in this order.
    scheduled: Vec<(Duration, u32)>,
    // How often each of them failed.
    in_work: Vec<u32>,
    // The ids that await their admission.
    numbered: Vec<u64>,
    next_id: u64,
    next_reap: Option<Duration>,
    last_error: Option<String>,
    closed: bool,
    takes: u64,
    records: Vec<Record>,
    // What stood at the making, and after each record.
    bases: Vec<Base>,
}

fn reached(limit: Option<Duration>, length: Duration) -> bool {
    limit.is_some_and(|limit| limit <= length)
}

// Takes one out of the list, if it has it.
fn take_out<T: PartialEq + Copy>(list: &mut Vec<T>, wanted: T) -> bool {
    match list.iter().position(|one| *one == wanted) {
        Some(place) if place < list.len() => {
            list.remove(place);
            true
        }
        _ => false,
    }
}

impl Plain {
    /// A pool that was made at that moment.
    pub(crate) fn new(alloc: Global, limits: Limits, made: Duration) -> Result<Plain, AllocError> {
        let has_reaps = limits.max_lifetime().is_some() || limits.idle_timeout().is_some();
        let mut plain = Plain {
            alloc,
            limits,
            at: made,
            idle: Vec::new(alloc),
            lent: Vec::new(alloc),
            scheduled: Vec::new(alloc),
            in_work: Vec::new(alloc),
            numbered: Vec::new(alloc),
            next_id: 0,
            next_reap: has_reaps.then_some(made.saturating_add(limits.reap_every())),
            last_error: None,
            closed: false,
            takes: 0,
            records: Vec::new(alloc),
            bases: Vec::new(alloc),
        };
        let wanted = plain.wanted();
        plain.order(wanted)?;
        plain.stand(made)?;
        Ok(plain)
    }

    /// The latest moment.
    pub(crate) fn latest(&self) -> Duration {
        self.at
    }

    /// Of each opening in work, how often it failed.
    pub(crate) fn in_work(&self) -> &[u32] {
        self.in_work.as_slice()
    }

    /// The ids that await their admission.
    pub(crate) fn numbered(&self) -> &[u64] {
        self.numbered.as_slice()
    }

    /// The ids of the lent ones.
    pub(crate) fn lent_ids(&self) -> Result<Vec<u64>, AllocError> {
        self.lent.iter().map(|loan| loan.0).collect(self.alloc)
    }

    // A moment that runs backwards is raised to the latest one.
    fn raise(&mut self, now: Duration) {
        self.at = self.at.max(now);
    }

    // COUNTS

    fn wanted(&self) -> usize {
        let all = self.limits.max_size();
        self.limits.min_idle().unwrap_or(all) as usize
    }

    fn connections(&self) -> usize {
        self.idle.len().saturating_add(self.lent.len())
    }

    fn pending(&self) -> usize {
        let begun = self.in_work.len().saturating_add(self.numbered.len());
        self.scheduled.len().saturating_add(begun)
    }

    fn room(&self) -> usize {
        (self.limits.max_size() as usize)
            .saturating_sub(self.connections())
            .saturating_sub(self.pending())
    }

    // ORDERS

    fn schedule(&mut self, due: Duration, tries: u32) -> Result<(), AllocError> {
        self.scheduled.push((due, tries))?;
        self.scheduled.sort_unstable();
        Ok(())
    }

    fn order(&mut self, count: usize) -> Result<u32, AllocError> {
        let at = self.at;
        for _ in 0..count {
            self.schedule(at, 0)?;
        }
        Ok(u32::try_from(count).unwrap_or(u32::MAX))
    }

    // Orders what is missing, as far as there is room.
    fn top_up(&mut self) -> Result<u32, AllocError> {
        if self.closed {
            return Ok(0);
        }
        let missing = self.wanted().saturating_sub(self.idle.len());
        let due = missing.min(self.room());
        self.order(due)
    }

    // 200 ms, doubled at each failure, and half of the timeout at most.
    fn delay(&self, failures: u32) -> Duration {
        let most = self.limits.connection_timeout() / 2;
        let mut delay = Duration::from_millis(200);
        for _ in 0..failures {
            delay = delay.saturating_add(delay);
        }
        delay.min(most)
    }

    // RECORDS

    fn note(&mut self, record: Record) -> Result<(), AllocError> {
        self.records.push(record)?;
        self.stand(record.at())
    }

    // Keeps what stands now.
    fn stand(&mut self, at: Duration) -> Result<(), AllocError> {
        let (connections, pending) = (self.connections(), self.pending());
        let idle = self.idle.iter().map(|one| (one.id, one.birth, one.since));
        let base = Base {
            at,
            idle: idle.collect(self.alloc)?,
            lent: self.lent.as_slice().to_vec(self.alloc)?,
            connections: u32::try_from(connections).unwrap_or(u32::MAX),
            pending: u32::try_from(pending).unwrap_or(u32::MAX),
            closed: self.closed,
        };
        Ok(self.bases.push(base)?)
    }

    // STEPS: what each answers

    // The idle one that is lent next, which is idle no more.
    fn next(&mut self) -> Option<Idle> {
        match self.limits.order() {
            LendingOrder::NewestFirst => self.idle.pop(),
            LendingOrder::OldestFirst if self.idle.is_empty() => None,
            LendingOrder::OldestFirst => Some(self.idle.remove(0)),
        }
    }

    fn take(&mut self, now: Duration, or_order: bool) -> Result<(Option<Idle>, u32), AllocError> {
        self.raise(now);
        let (at, next) = (self.at, self.next());
        let Some(Idle { id, birth, .. }) = next else {
            return Ok((None, self.miss(or_order)?));
        };
        self.lent.push((id, birth))?;
        self.takes = self.takes.saturating_add(1);
        let ordered = self.top_up()?;
        self.note(Record::Taken { at, id, ordered })?;
        Ok((next, ordered))
    }

    fn miss(&mut self, or_order: bool) -> Result<u32, AllocError> {
        if !or_order || self.closed || self.room() == 0 {
            return Ok(0);
        }
        let (at, ordered) = (self.at, self.order(1)?);
        self.note(Record::Ordered { at, ordered })?;
        Ok(ordered)
    }

    fn begin(&mut self, now: Duration) -> Result<Job, AllocError> {
        self.raise(now);
        if self.closed {
            return Ok(Job::Closed);
        }
        match (self.scheduled.first().copied(), self.next_reap) {
            (Some((due, tries)), reap) if reap.is_none_or(|reap| due <= reap) => {
                self.open(due, tries)
            }
            (_, Some(reap)) if reap <= self.at => {
                self.next_reap = Some(reap.saturating_add(self.limits.reap_every()));
                Ok(Job::Reap)
            }
            (_, Some(reap)) => Ok(Job::Wait(reap)),
            (_, None) => Ok(Job::Nothing),
        }
    }

    fn open(&mut self, due: Duration, tries: u32) -> Result<Job, AllocError> {
        if due > self.at {
            return Ok(Job::Wait(due));
        }
        take_out(&mut self.scheduled, (due, tries));
        self.in_work.push(tries)?;
        Ok(Job::Open { tries })
    }

    fn number(&mut self, tries: u32) -> Result<Result<u64, Refusal>, AllocError> {
        if self.closed {
            return Ok(Err(Refusal::Closed));
        }
        if !self.in_work.contains(&tries) {
            return Ok(Err(Refusal::NoOpening));
        }
        if self.next_id == u64::MAX {
            return Ok(Err(Refusal::IdsUsedUp));
        }
        let id = self.next_id;
        take_out(&mut self.in_work, tries);
        self.next_id = id.saturating_add(1);
        self.numbered.push(id)?;
        Ok(Ok(id))
    }

    fn admit(
        &mut self,
        now: Duration,
        id: u64,
        value: u64,
    ) -> Result<Result<(), Refusal>, AllocError> {
        if self.closed {
            return Ok(Err(Refusal::Closed));
        }
        if !take_out(&mut self.numbered, id) {
            return Ok(Err(Refusal::NotNumbered));
        }
        self.raise(now);
        let at = self.at;
        self.come_to_rest(id, at, value)?;
        self.last_error = None;
        self.note(Record::Admitted { at, id })?;
        Ok(Ok(()))
    }

    // It is the newest idle one.
    fn come_to_rest(&mut self, id: u64, birth: Duration, value: u64) -> Result<(), AllocError> {
        let since = self.at;
        Ok(
            self.idle.push(Idle {
                id,
                birth,
                since,
                value,
            })?,
        )
    }

    fn fail(
        &mut self,
        now: Duration,
        tries: u32,
        text: &Option<String>,
    ) -> Result<Result<Duration, Refusal>, AllocError> {
        if self.closed {
            return Ok(Err(Refusal::Closed));
        }
        if !take_out(&mut self.in_work, tries) {
            return Ok(Err(Refusal::NoOpening));
        }
        self.raise(now);
        let failures = tries.saturating_add(1);
        let due = self.at.saturating_add(self.delay(failures));
        self.schedule(due, failures.min(99))?;
        self.hear(text)?;
        Ok(Ok(due))
    }

    // A text is the latest one from now on.
    fn hear(&mut self, text: &Option<String>) -> Result<(), AllocError> {
        if text.is_some() {
            self.last_error = text.clone()?;
        }
        Ok(())
    }

    // When the lent one was admitted, which is lent no more.
    fn give_back(&mut self, id: u64) -> Option<Duration> {
        let loan = *self.lent.iter().find(|loan| loan.0 == id)?;
        take_out(&mut self.lent, loan);
        Some(loan.1)
    }

    // It is gone: its age, and how many are ordered.
    fn part(&mut self, id: u64, birth: Duration) -> Result<(Duration, u32), AllocError> {
        let (at, ordered) = (self.at, self.top_up()?);
        self.note(Record::Closed { at, id, ordered })?;
        Ok((at.saturating_sub(birth), ordered))
    }

    fn fail_check(
        &mut self,
        now: Duration,
        id: u64,
        text: &Option<String>,
    ) -> Result<Result<(Duration, u32), Refusal>, AllocError> {
        let Some(birth) = self.give_back(id) else {
            return Ok(Err(Refusal::NotLent));
        };
        self.raise(now);
        self.hear(text)?;
        Ok(Ok(self.part(id, birth)?))
    }

    // None where it is kept.
    fn put_back(
        &mut self,
        now: Duration,
        id: u64,
        value: u64,
        broken: bool,
    ) -> Result<Result<Option<(Duration, u32)>, Refusal>, AllocError> {
        let Some(birth) = self.give_back(id) else {
            return Ok(Err(Refusal::NotLent));
        };
        self.raise(now);
        let at = self.at;
        let age = at.saturating_sub(birth);
        if broken || self.closed || reached(self.limits.max_lifetime(), age) {
            return Ok(Ok(Some(self.part(id, birth)?)));
        }
        self.come_to_rest(id, birth, value)?;
        self.note(Record::Kept { at, id })?;
        Ok(Ok(None))
    }

    // Those that it closes, and how many are ordered.
    fn reap(&mut self, now: Duration) -> Result<(Vec<Idle>, u32), AllocError> {
        self.raise(now);
        let mut expired = Vec::new(self.alloc);
        for one in mem::replace(&mut self.idle, Vec::new(self.alloc)) {
            let idle = reached(
                self.limits.idle_timeout(),
                self.at.saturating_sub(one.since),
            );
            let old = reached(
                self.limits.max_lifetime(),
                self.at.saturating_sub(one.birth),
            );
            if idle || old {
                expired.push(one)?;
            } else {
                self.idle.push(one)?;
            }
        }
        let (at, ordered) = (self.at, self.top_up()?);
        if !expired.is_empty() || ordered > 0 {
            self.note(Record::Reaped { at, ordered })?;
        }
        Ok((expired, ordered))
    }

    // Those that were idle.
    fn close(&mut self) -> Result<Vec<Idle>, AllocError> {
        let left = mem::replace(&mut self.idle, Vec::new(self.alloc));
        if self.closed {
            return Ok(left);
        }
        self.closed = true;
        self.scheduled.clear();
        self.in_work.clear();
        self.numbered.clear();
        let at = self.at;
        self.note(Record::ClosedAll { at })?;
        Ok(left)
    }
}
