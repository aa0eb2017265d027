// What is timed, and its line.
ghost use Rattle.std.specs.Prelude.{◌≡◌, ◌<◌, ◌/◌, ◌↔◌, IfSome};
ghost use Rattle.std.specs.Option.{IsNone};
ghost use Rattle.std.specs.Duration.{as_nanos};

use crate::leaving::{self, End};
use crate::{alone, growing, tasks};
use r2d2::PoolRuntime;
use std::alloc::{AllocError, Global};
use std::net::Net;
use std::random::RandomSource;
use std::time::Duration;

/// How often each scenario is run. The fastest run tells what a call takes: the others were held up
/// by something else. The median tells what it takes among what else goes on.
pub const RUNS: u32 = 25;

/// Whether the scenario of this name is to be run: it is the only one, or all are.
pub fn is_chosen(name: &str, only: Option<&str>) -> bool {
    match only {
        Some(only) => only == name,
        None => true,
    }
}

/// How often, and at what size, a scenario is run.
#[derive(Clone, Copy)]
pub struct Case {
    /// How many threads there are; or how many tasks, on one thread.
    pub threads: u32,
    pub max_size: u32,
    /// How many operations one run times.
    pub operations: u32,
    pub ghost has_threads: { 0 < threads },
    pub ghost has_size: { 0 < max_size },
    pub ghost has_operations: { 0 < operations },
}

impl Case {
    /// The nanoseconds for each operation, rounded down.
    fn per_operation(&self, time: Duration) -> u128
        ensures { result ≡ as_nanos time / self.now.operations }
    {
        time.as_nanos() / u128::from(self.operations)
    }

    /// Prints the line of a scenario, with `-` for both figures where there are none.
    pub fn print<R: Print>(
        &self,
        rt: R,
        name: &str,
        figures: Option<Figures>,
    ) -> Result<(), anyhow::Error>
    where
        R: Drop,
    {
        let Case {
            threads,
            max_size,
            operations,
        } = *self;
        match figures {
            Some(Figures { least, median }) => {
                println!(rt; "{name} {threads} {max_size} {operations} {least} {median}")
            }
            None => println!(rt; "{name} {threads} {max_size} {operations} - -"),
        }?;
        Ok(())
    }
}

/// What an operation took, in nanoseconds: the least of all runs, and their median.
#[derive(Clone, Copy)]
pub struct Figures {
    pub least: u128,
    pub median: u128,
}

impl Figures {
    /// None where several threads took less than one alone, which took so long: they hardly met, so
    /// the figures tell nothing of threads that do.
    pub fn unless_below(self, alone: u128) -> Option<Figures>
        ensures below { IsNone result ↔ (self.least < alone) }
        ensures kept { IfSome result (λ figures. figures ≡ self) }
    {
        if self.least < alone {
            return None;
        }
        Some(self)
    }
}

/// What an operation took in each run, in nanoseconds.
#[derive(Drop)]
pub struct Times {
    runs: Vec<u128>,
}

impl Times {
    /// Of no run yet.
    pub fn new(alloc: Global) -> Times {
        Times {
            runs: Vec::new(alloc),
        }
    }

    /// One run more, which took so long.
    pub fn add(&mut self, case: Case, time: Duration) -> Result<(), AllocError> {
        self.runs.push(case.per_operation(time))?;
        Ok(())
    }

    /// Zeros where there was no run.
    pub fn figures(mut self) -> Figures {
        self.runs.sort_unstable();
        Figures {
            least: self.runs.first().copied().unwrap_or(0),
            median: self.runs.get(self.runs.len() / 2).copied().unwrap_or(0),
        }
    }
}

/// What is timed.
#[derive(Clone, Copy)]
pub enum Scenario {
    Clock,
    Lock,
    Floor,
    GetDrop,
    GetDropCheck,
    CountedGetDrop,
    TryGetHit,
    TryGetMiss,
    TaskGetDrop,
    Tasks,
    TaskDropped,
    TaskTimedOut,
    Build,
    LentGet,
    LentDrop,
    LentDropOldest,
}

impl Scenario {
    // Its name in the table.
    fn name(self) -> &'static str {
        match self {
            Scenario::Clock => "clock",
            Scenario::Lock => "lock",
            Scenario::Floor => "floor",
            Scenario::GetDrop => "get_drop",
            Scenario::GetDropCheck => "get_drop_check",
            Scenario::CountedGetDrop => "counted_get_drop",
            Scenario::TryGetHit => "try_get_hit",
            Scenario::TryGetMiss => "try_get_miss",
            Scenario::TaskGetDrop => "task_get_drop",
            Scenario::Tasks => "tasks",
            Scenario::TaskDropped => "task_dropped",
            Scenario::TaskTimedOut => "task_timed_out",
            Scenario::Build => "build",
            Scenario::LentGet => "lent_get",
            Scenario::LentDrop => "lent_drop",
            Scenario::LentDropOldest => "lent_drop_oldest",
        }
    }

    /// How long the operations of one run took.
    pub fn run<R: PoolRuntime + RandomSource + Net>(
        self,
        rt: R,
        case: Case,
    ) -> Result<Duration, anyhow::Error> {
        match self {
            Scenario::Clock => alone::clock(rt, case),
            Scenario::Lock => alone::lock(rt, case),
            Scenario::Floor => alone::floor(rt, case),
            Scenario::GetDrop => alone::get_drop(rt, case, false),
            Scenario::GetDropCheck => alone::get_drop(rt, case, true),
            Scenario::CountedGetDrop => alone::counted_get_drop(rt, case),
            Scenario::TryGetHit => alone::try_get_hit(rt, case),
            Scenario::TryGetMiss => alone::try_get_miss(rt, case),
            Scenario::TaskGetDrop => tasks::get_drop(rt, case),
            Scenario::Tasks => tasks::tasks(rt, case),
            Scenario::TaskDropped => leaving::leave(rt, case, End::Dropped),
            Scenario::TaskTimedOut => leaving::leave(rt, case, End::TimedOut),
            Scenario::Build => growing::build(rt, case),
            Scenario::LentGet => growing::lent_get(rt, case),
            Scenario::LentDrop => growing::lent_drop(rt, case),
            Scenario::LentDropOldest => growing::lent_drop_oldest(rt, case),
        }
    }

    /// Runs it a few times, and prints its line; nothing where `only` names another one.
    pub fn measure<R: PoolRuntime + RandomSource + Net + Print>(
        self,
        rt: R,
        only: Option<&str>,
        case: Case,
    ) -> Result<(), anyhow::Error> {
        if !is_chosen(self.name(), only) {
            return Ok(());
        }
        let mut times = Times::new(rt.alloc());
        for _ in 0..RUNS {
            let time = self.run(rt, case)?;
            times.add(case, time)?;
        }
        case.print(rt, self.name(), Some(times.figures()))
    }
}
