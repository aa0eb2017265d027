// All orders of the polls of tasks on one thread: which is polled next, which one gives up, is left
// alone or moves, and when time goes on, is each a choice.

use crate::*;

/// More steps than a run has.
const MOST: u64 = 1_000;

#[derive(Drop)]
struct Run {
    world: &'static World,
    // None where the last drop of a pool is a caller's.
    pool: Option<TaskPool>,
    tasks: Vec<Task>,
    moves: Vec<(Move, usize)>,
    // How often each move may come yet that nothing asks for.
    left: [u64; 5],
}

/// Whether all runs went well: in each another way is taken, until all were.
pub(crate) fn play(world: &'static World) -> Result<bool, Fail> {
    for runs in 1..u64::MAX {
        Run::new(world)?.play()?;
        judge::ends(world);
        let turns = lock(&world.choices).is_some_and(|mut choices| choices.turn());
        if world.has_faults() || world.is_told || !turns {
            println!(world.rt; "orders {runs}")?;
            break;
        }
    }
    Ok(!world.has_faults())
}

impl Run {
    fn new(world: &'static World) -> Result<Run, Fail> {
        world.begin();
        let (pool, plan) = (task_pool(world)?, &world.plan);
        Ok(Run {
            world,
            tasks: tasks_of(world, &pool)?,
            pool: (!plan.last_drop).then_some(pool),
            moves: Vec::new(world.rt.alloc()),
            left: [
                plan.needless,
                plan.drops,
                plan.leaves,
                plan.moves,
                plan.early,
            ],
        })
    }

    // Plays it to its end, and judges it on the way.
    fn play(mut self) -> Result<(), Fail> {
        for _ in 0..MOST {
            // All but the workers have ended, or are left alone.
            let mut others = self.tasks.iter().skip(self.world.plan.workers as usize);
            if others.all(|task| matches!(task.step, Step::Left | Step::Over)) {
                self.end();
                return Ok(());
            }
            if !self.step()? {
                break;
            }
        }
        let is_stuck = !self.world.has_faults();
        self.world.fault_if(is_stuck, "somebody waits for good");
        Ok(())
    }

    // One step; false where nothing can come any more.
    fn step(&mut self) -> Result<bool, Fail> {
        let rests = self.find_moves()?;
        let status = self.status();
        if let Some(status) = &status {
            self.judge(status, rests);
        }
        if self.world.has_faults() {
            return Ok(false);
        }
        let chosen = self.world.choose(self.moves.len() as u64) as usize;
        let Some((chosen, place)) = self.moves.get(chosen).copied() else {
            return Ok(false);
        };
        // A step takes no time, where nothing depends on that.
        let now = self.world.now() + u64::from(self.world.plan.is_timed());
        self.world.set(Count::Now, now);
        let task = &mut self.tasks[place];
        let is_asked = match chosen {
            Move::Poll => task.is_woken(),
            Move::Pass => rests,
            _ => false,
        };
        if !is_asked {
            self.left[chosen as usize] -= 1;
            if chosen == Move::Poll {
                self.world
                    .tell_of(task.who, "is polled, though nobody woke it");
            }
        }
        task.makes(chosen, status);
        Ok(true)
    }

    // What may come next; whether nobody is woken.
    fn find_moves(&mut self) -> Result<bool, Fail> {
        let mut rests = true;
        self.moves.clear();
        for (place, task) in self.tasks.iter().enumerate() {
            // One before it that is like it in all need not come later.
            let mut earlier = self.tasks.iter().take(place);
            if earlier.any(|earlier| earlier.is_like(task)) {
                continue;
            }
            rests &= !task.is_woken();
            for what in [Move::Poll, Move::GiveUp, Move::Leave, Move::Move] {
                let is_asked = what == Move::Poll && task.is_woken();
                if is_asked || self.left[what as usize] > 0 && task.can(what) {
                    self.moves.push((what, place))?;
                }
            }
        }
        // Time goes on where nobody is woken, and now and then before, but never past a long wait.
        if let Some(end) = self.world.next_end() {
            let length = end.saturating_sub(self.world.now());
            if rests || self.left[Move::Pass as usize] > 0 && length > 0 && length < LONG {
                self.moves.push((Move::Pass, 0))?;
            }
        }
        Ok(rests)
    }

    // What there is now, as long as somebody has a pool.
    fn status(&self) -> Option<Status> {
        match &self.pool {
            Some(pool) => Some(pool.status()),
            None => self
                .tasks
                .iter()
                .find_map(|it| Some(it.pool.as_ref()?.status())),
        }
    }

    // The sums; how many are told to wait: callers in line, except for those under check, and
    // drains, but one whose time is over may be passed, and waits no more then; and who rests.
    fn judge(&self, status: &Status, rests: bool) {
        let world = self.world;
        judge::sums(world, status);
        let drains = world.count(Count::Draining);
        let waiting = |now| drains + world.waiting(now, |it| !it.checks);
        let is_told = waiting(world.now()) <= status.waiting && status.waiting <= waiting(0);
        world.fault_if(!is_told, "as many are told to wait as do not");
        if !rests {
            return;
        }
        let left = self.tasks.iter().filter(|it| it.step == Step::Left).count() as u64;
        // It sleeps at most until an opening that failed is tried again.
        let is_idle = |task: &Task| task.is_worker() && !world.is_due_in(task.who, LONGEST_DELAY);
        let is_undone = status.opening > 0 && self.tasks.iter().any(is_idle);
        world.fault_if(is_undone, "a worker rests beside an opening");
        judge::at_rest(world, status, world.waiting(0, |_| true), drains, left);
        let rests = status.closed && world.count(Count::Workers) > 0;
        world.fault_if(rests, "a worker rests at a closed pool");
    }

    // The last pool goes, so the workers end.
    fn end(mut self) {
        self.world.add(Count::Over);
        for task in self.tasks.iter_mut().filter(|it| it.step == Step::Left) {
            task.ends();
        }
        self.pool = None;
        for _ in 0..4 {
            for task in self.tasks.iter_mut().filter(|task| task.is_woken()) {
                task.makes(Move::Poll, None);
            }
        }
        let is_left = self.world.count(Count::Workers) > 0;
        self.world.fault_if(is_left, "a worker does not end");
    }
}

/// More rounds than a thread makes.
const MOST_ROUNDS: u64 = 400;

/// The polls of tasks by several threads, each with a row of its own, as a scheduler draws it.
pub(crate) fn play_threads<R: PoolRuntime>(rt: R, world: &'static World) -> Result<(), Fail> {
    world.begin();
    let pool = task_pool(world)?;
    let mut rows = Vec::new(rt.alloc());
    for _ in 0..world.plan.threads {
        rows.push(Vec::new(rt.alloc()))?;
    }
    // They are dealt in turn. The workers end with the last caller's pool.
    for (turn, task) in tasks_of(world, &pool)?.into_iter().enumerate() {
        let count = rows.len();
        rows[turn % count].push(task)?;
    }
    drop(pool);
    let mut threads = Vec::new(rt.alloc());
    for row in rows {
        threads.push(thread::spawn(&rt, move || work(rt, world, row))?)?;
    }
    join_all(&rt, threads);
    Ok(())
}

// Polls the tasks that are woken, until all have ended.
fn work<R: PoolRuntime>(rt: R, world: &World, mut row: Vec<Task>) {
    for _ in 0..MOST_ROUNDS {
        let moved = world.moving.lock(&rt).pop();
        let mut rests = moved.is_none_or(|task| row.push(task).is_err());
        for task in row.iter_mut().filter(|task| task.is_woken()) {
            poll_or_drop(world, task);
            rests = false;
        }
        move_on(rt, world, &mut row);
        let is_over = row.iter().all(|task| task.step == Step::Over);
        if is_over && world.moving.lock(&rt).is_empty() {
            return;
        }
        if rests {
            sleep(world, 1);
        }
    }
    world.fault("somebody waits for good");
}

// Polls a task, or gives it up.
fn poll_or_drop(world: &World, task: &mut Task) {
    let plan = &world.plan;
    // One worker is left.
    let can_go = task.can(Move::GiveUp) && (!task.is_worker() || plan.drops < plan.workers);
    let may_go = can_go && world.count(Count::GivenUp) < plan.drops && world.choose(4) == 0;
    let goes = may_go && world.add(Count::GivenUp) < plan.drops;
    task.makes(if goes { Move::GiveUp } else { Move::Poll }, None);
}

// A call moves to another thread now and then, or comes back to this one.
fn move_on<R: PoolRuntime>(rt: R, world: &World, row: &mut Vec<Task>) {
    let plan = &world.plan;
    if world.count(Count::Moved) >= plan.moves || world.choose(2) == 0 {
        return;
    }
    let can_move = |task: &Task| task.can(Move::Move) && !task.is_worker();
    let Some(place) = row.iter().position(can_move) else {
        return;
    };
    if world.add(Count::Moved) < plan.moves {
        let mut task = row.swap_remove(place);
        task.makes(Move::Move, None);
        drop(world.moving.lock(&rt).push(task).ok());
    }
}
