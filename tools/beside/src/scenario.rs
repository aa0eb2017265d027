// What is timed, and its line.
use std::time::Duration;

/// How often each scenario is run.
const RUNS: u32 = 25;

/// How often, and at what size, a scenario is run.
#[derive(Clone, Copy)]
pub struct Case {
    pub threads: u32,
    pub max_size: u32,
    /// How many operations one run times.
    pub operations: u32,
}

impl Case {
    /// Prints the line of a scenario, with `-` for both figures where there are none.
    pub fn print(&self, name: &str, figures: Option<Figures>) {
        let Case {
            threads,
            max_size,
            operations,
        } = self;
        match figures {
            Some(Figures { least, median }) => {
                println!("{name} {threads} {max_size} {operations} {least} {median}")
            }
            None => println!("{name} {threads} {max_size} {operations} - -"),
        }
    }
}

/// What an operation took, in nanoseconds: the least of all runs, and their median.
#[derive(Clone, Copy)]
pub struct Figures {
    pub least: u128,
    pub median: u128,
}

impl Figures {
    /// None where several threads took less than one alone, which took so long: they hardly met, so
    /// the figures tell nothing of threads that do.
    pub fn unless_below(self, alone: u128) -> Option<Figures> {
        if self.least < alone {
            return None;
        }
        Some(self)
    }
}

/// Runs a scenario a few times, and prints its line.
pub fn measure(name: &str, case: Case, run: impl Fn(Case) -> Duration) {
    case.print(name, Some(figures(case, run)));
}

/// Runs a scenario a few times.
pub fn figures(case: Case, run: impl Fn(Case) -> Duration) -> Figures {
    let each = |time: Duration| time.as_nanos() / u128::from(case.operations);
    let mut times: Vec<u128> = (0..RUNS).map(|_| each(run(case))).collect();
    times.sort_unstable();
    Figures {
        least: times[0],
        median: times[times.len() / 2],
    }
}
