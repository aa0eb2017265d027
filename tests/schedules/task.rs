// The tasks of a run, each with what wakes it: workers, those who get connections and give them
// back, and those who evict, close the pool or drain it.

use crate::*;
use futures::test::MockTask;
use r2d2_async::PooledConnection;

#[derive(Clone, Copy, PartialEq)]
enum Deed {
    Work,
    Call,
    Close,
    Drain,
    Evict,
}

/// What a task is at.
#[derive(Drop)]
enum Stage {
    Nothing,
    Works(TaskWorker),
    Waits(TaskGet),
    Holds(TaskLent),
    Drains(TaskDrain),
}

/// What its executor has done with it.
#[derive(Clone, Copy, PartialEq)]
pub(crate) enum Step {
    New,
    Begun,
    /// It is neither polled nor dropped any more.
    Left,
    Over,
}

/// What may come next, of a task.
#[derive(Clone, Copy, PartialEq)]
pub(crate) enum Move {
    Poll,
    GiveUp,
    /// It is neither polled nor dropped from now on.
    Leave,
    /// Another executor polls it first from now on, whose waker is another one.
    Move,
    /// Time goes on to the next moment at which a sleep ends.
    Pass,
}

#[derive(Drop)]
pub(crate) struct Task {
    world: &'static World,
    pub(crate) who: u64,
    deed: Deed,
    pub(crate) step: Step,
    stage: Stage,
    /// None once it needs it no more.
    pub(crate) pool: Option<TaskPool>,
    // The pool before this poll; None where others are at work.
    before: Option<Status>,
    calls: u64,
    seconds: u64,
    watch: Stopwatch,
    mock: Arc<MockTask>,
}

/// The tasks of a run: workers, then callers, then keepers.
pub(crate) fn tasks_of(world: &'static World, pool: &TaskPool) -> Result<Vec<Task>, Fail> {
    let plan = &world.plan;
    let mut tasks = Vec::new(world.rt.alloc());
    for (deed, count) in [
        (Deed::Work, plan.workers),
        (Deed::Call, plan.callers),
        (Deed::Close, plan.closers),
        (Deed::Drain, plan.drainers),
        (Deed::Evict, plan.evictors),
    ] {
        for _ in 0..count {
            let who = tasks.len() as u64;
            let (stage, pool) = match deed {
                Deed::Work => (Stage::Works(pool.worker()?), None),
                _ => (Stage::Nothing, Some(pool.try_clone()?)),
            };
            tasks.push(Task {
                world,
                who,
                deed,
                step: Step::New,
                stage,
                pool,
                before: None,
                calls: plan.calls,
                seconds: plan.patience_of(who.saturating_sub(plan.workers)),
                watch: Stopwatch::begin(world),
                mock: Arc::new(world.rt.alloc(), MockTask::new(&world.rt)?)?,
            })?;
        }
    }
    world.set(Count::Workers, plan.workers);
    Ok(tasks)
}

/// What its executor does with it.
impl Task {
    /// A worker that has not ended.
    pub(crate) fn is_worker(&self) -> bool {
        self.deed == Deed::Work && self.step != Step::Over
    }

    /// Whether its executor would poll it now.
    pub(crate) fn is_woken(&self) -> bool {
        match self.step {
            Step::New => true,
            Step::Begun => {
                let may_sleep = self.is_worker() || !self.world.plan.is_drawn();
                self.mock.is_woken() || may_sleep && self.world.is_due_in(self.who, 0)
            }
            Step::Left | Step::Over => false,
        }
    }

    /// Whether this may come of it, though nothing asks for it. A worker, a call and a drain can be
    /// dropped; once they have begun, they can move; and a caller who has little time may be left
    /// alone in line.
    pub(crate) fn can(&self, what: Move) -> bool {
        let is_draining = matches!(self.stage, Stage::Drains(_));
        let can_go = self.is_worker() || self.is_calling() || is_draining;
        let has_begun = self.step == Step::Begun;
        match what {
            Move::Poll => self.step != Step::Over,
            Move::GiveUp => self.step != Step::Over && can_go,
            Move::Move => has_begun && can_go,
            Move::Leave => {
                let wait = self.world.wait_of(self.who);
                has_begun && self.seconds < PATIENT && wait.is_some_and(|it| !it.checks)
            }
            Move::Pass => false,
        }
    }

    /// Whether nothing tells the two tasks apart, of which neither has begun.
    pub(crate) fn is_like(&self, other: &Task) -> bool {
        let are_new = self.step == Step::New && other.step == Step::New;
        are_new && self.deed == other.deed && self.seconds == other.seconds
    }

    /// This comes of it. The pool is so before it, where that can be told.
    pub(crate) fn makes(&mut self, what: Move, before: Option<Status>) {
        let world = self.world;
        match what {
            Move::Poll => self.poll(before),
            Move::GiveUp => self.give_up(),
            Move::Leave => {
                world.tell_of(self.who, "is left alone");
                world.set_sleep(self.who, NEVER);
                self.step = Step::Left;
            }
            Move::Move => {
                world.tell_of(self.who, "moves to another executor");
                let mock = MockTask::new(&world.rt).ok();
                if let Some(Ok(mock)) = mock.map(|mock| Arc::new(world.rt.alloc(), mock)) {
                    self.mock = mock;
                }
            }
            Move::Pass => world.pass(),
        }
    }

    fn poll(&mut self, before: Option<Status>) {
        let Ok(mock) = Arc::try_clone(&self.mock) else {
            return;
        };
        self.step = Step::Begun;
        self.world.poll(self.who);
        self.before = before;
        if mock.enter(|cx| self.goes(cx)).is_ready() {
            self.world.tell("ends");
            self.ends();
        }
    }

    // One poll, as its executor makes it.
    fn goes(&mut self, cx: &mut Context<'_>) -> Poll<()> {
        let world = self.world;
        if self.deed == Deed::Call {
            return self.calls(cx);
        }
        if let Some(pool) = self.pool.take() {
            self.keeps(pool);
        }
        match &mut self.stage {
            Stage::Works(work) => work.poll(cx),
            Stage::Drains(drain) => drain.poll(cx).map(|answer| {
                let is_lent = answer.is_ok() && world.count(Count::Lent) > 0;
                world.tell("has drained the pool");
                world.take_off(Count::Draining);
                faults! { world;
                    "a drain with all the time gives up" if answer.is_err();
                    "a drain ends, and something is lent" if is_lent;
                }
            }),
            _ => Poll::Ready(()),
        }
    }

    // It does at once what it does.
    fn keeps(&mut self, pool: TaskPool) {
        let world = self.world;
        match self.deed {
            Deed::Close => {
                world.tell("closes the pool");
                pool.close();
            }
            Deed::Drain => {
                world.tell("drains the pool");
                world.add(Count::Draining);
                match pool.drain(Duration::from_secs(PATIENT)) {
                    Ok(drain) => self.stage = Stage::Drains(drain),
                    Err(_) => world.fault("a drain is refused memory"),
                }
            }
            _ => {
                world.tell("evicts");
                world.fault_if(pool.evict().is_err(), "an eviction is refused memory");
            }
        }
    }

    // Its task is dropped, or what it waits for.
    fn give_up(&mut self) {
        self.world.poll(self.who);
        self.world.tell("gives up");
        let is_calling = self.is_calling();
        let dropped = match mem::replace(&mut self.stage, Stage::Nothing) {
            Stage::Nothing if is_calling => self.begins().map_or(Stage::Nothing, Stage::Waits),
            dropped => dropped,
        };
        if matches!(dropped, Stage::Drains(_)) {
            self.world.take_off(Count::Draining);
        }
        if is_calling {
            self.end_call();
        }
        self.step = Step::New;
        if !self.is_calling() {
            self.ends();
        }
    }

    /// Nothing of it is left.
    pub(crate) fn ends(&mut self) {
        if self.is_worker() {
            self.world.take_off(Count::Workers);
        }
        self.world.set_wait(self.who, None);
        self.step = Step::Over;
        self.stage = Stage::Nothing;
        self.pool = None;
        if !self.world.plan.is_drawn() {
            self.world.set_sleep(self.who, NEVER);
        }
    }
}

/// The calls of one that gets connections and gives them back.
impl Task {
    // Whether its call is pending, or was never polled.
    fn is_calling(&self) -> bool {
        self.deed == Deed::Call && self.pool.is_some() && !matches!(self.stage, Stage::Holds(_))
    }

    fn end_call(&mut self) {
        self.world.set_wait(self.who, None);
        self.calls -= 1;
        if self.calls == 0 {
            self.pool = None;
        }
    }

    // A call begins.
    fn begins(&mut self) -> Option<TaskGet> {
        self.watch = Stopwatch::begin(self.world);
        let get = self
            .pool
            .as_ref()?
            .get_timeout(Duration::from_secs(self.seconds));
        self.world.fault_if(get.is_err(), "a get is refused memory");
        get.ok()
    }

    // One poll of its call.
    fn waits(&mut self, cx: &mut Context<'_>, mut get: TaskGet) -> Poll<()> {
        let world = self.world;
        let polled = get.poll(cx);
        let closes = polled.is_pending() && world.count(Count::Closes) > 0;
        // Whether what it took is under check, or was closed since it is distrusted.
        let checks = world.count(Count::Checks) > 0 || closes;
        if checks {
            self.is_its_turn();
        }
        match polled {
            Poll::Pending => {
                self.stage = Stage::Waits(get);
                self.stands(checks);
                return Poll::Pending;
            }
            Poll::Ready(Ok(lent)) => self.holds(lent),
            Poll::Ready(Err(error)) => self.refused(error),
        }
        world.set_wait(self.who, None);
        self.goes_on(cx)
    }

    // One that took at once stands nowhere, also if its check fails then.
    fn stands(&self, checks: bool) {
        let (world, watch, seconds) = (self.world, self.watch, self.seconds);
        let since = match world.wait_of(self.who) {
            Some(wait) => wait.since,
            None if checks => return,
            None => {
                world.tell("stands in line");
                world.add(Count::Joined)
            }
        };
        let wait = Wait::of(since, watch, seconds);
        world.set_wait(self.who, Some(Wait { checks, ..wait }));
    }

    fn holds(&mut self, mut lent: TaskLent) {
        lent.is_lent();
        let plan = &self.world.plan;
        if !plan.checks || plan.after_idle && !lent.seen.is_checked {
            self.is_its_turn();
        }
        self.stage = Stage::Holds(lent);
    }

    // Whether it was its turn to take, in this poll.
    fn is_its_turn(&self) {
        let world = self.world;
        if let Some(before) = &self.before {
            let own = world.wait_of(self.who).map_or(u64::MAX, |it| it.since);
            faults! { world;
                "a closed pool lends" if before.closed;
                "a caller is served out of turn" if world.ahead_of(own) >= u64::from(before.idle);
            }
        }
    }

    fn refused(&mut self, error: Error) {
        let (world, kind) = (self.world, error.kind());
        judge::refused(world, &error, &self.watch, self.seconds);
        let has_time = self.seconds == PATIENT && world.count(Count::Workers) > 0;
        let is_early = kind == ErrorKind::Timeout && has_time;
        world.fault_if(is_early, "a caller with all the time gives up");
        if let Some(before) = &self.before {
            let has_room = world.waiting(0, |_| true) < world.plan.line;
            let is_refused = kind == ErrorKind::QueueFull;
            let is_open = kind == ErrorKind::Closed && !before.closed;
            faults! { world;
                "a get is told of a close that was not" if is_open;
                "a get is refused where one more may wait" if is_refused && has_room;
            }
        }
        self.end_call();
    }

    fn give_back(&mut self, mut lent: TaskLent) {
        if lent.is_let_go() {
            PooledConnection::detach(lent).leaves();
        } else {
            drop(lent);
        }
        self.end_call();
    }

    // It asks without waiting.
    fn tries(&mut self) {
        let world = self.world;
        match self.pool.as_ref().map(|pool| pool.try_get()) {
            Some(Ok(Some(lent))) => {
                world.fault_if(lent.is_distrusted(), "a try_get lends what is distrusted");
                self.is_its_turn();
                self.holds(lent);
            }
            Some(Ok(None)) => {
                world.tell("tries in vain");
                self.end_call();
            }
            _ => world.fault("a try_get is refused memory"),
        }
    }

    fn calls(&mut self, cx: &mut Context<'_>) -> Poll<()> {
        match mem::replace(&mut self.stage, Stage::Nothing) {
            Stage::Holds(lent) => self.give_back(lent),
            Stage::Waits(get) => return self.waits(cx, get),
            _ if self.world.plan.tries && self.world.choose(2) == 1 => self.tries(),
            _ => {
                if let Some(get) = self.begins() {
                    return self.waits(cx, get);
                }
            }
        }
        self.goes_on(cx)
    }

    fn goes_on(&self, cx: &mut Context<'_>) -> Poll<()> {
        if self.pool.is_some() {
            cx.yield_now()
        } else {
            Poll::Ready(())
        }
    }
}
