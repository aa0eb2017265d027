// Which way a run goes. Over all runs each choice that is open is taken once in each way.

use crate::*;

/// The choices of the present run: which, among how many.
#[derive(Drop)]
pub(crate) struct Choices {
    forks: Vec<(u64, u64)>,
    // How many of them this run has come to.
    passed: usize,
}

impl Choices {
    /// The first run takes the first of each.
    pub(crate) fn new(alloc: Global) -> Choices {
        let (forks, passed) = (Vec::new(alloc), 0);
        Choices { forks, passed }
    }

    /// The run that takes these; false where one is no number.
    pub(crate) fn follow(&mut self, taken: &str) -> bool {
        let mut taken = taken.split('.').map(|word| word.parse::<u64>());
        taken.all(|it| it.is_ok_and(|it| self.forks.push((it, it + 1)).is_ok()))
    }

    /// One of so many. Where there is no memory to write a choice down it is the first.
    pub(crate) fn choose(&mut self, among: u64) -> u64 {
        if among < 2 {
            return 0;
        }
        self.passed += 1;
        if let Some((taken, _)) = self.forks.get(self.passed - 1) {
            return *taken;
        }
        drop(self.forks.push((0, among)).ok());
        0
    }

    /// The next run takes another way; false where all were taken.
    pub(crate) fn turn(&mut self) -> bool {
        self.passed = 0;
        while let Some((taken, among)) = self.forks.pop() {
            if taken + 1 < among {
                return self.forks.push((taken + 1, among)).is_ok();
            }
        }
        false
    }
}

/// As they are played again.
impl fmt::Display for Choices {
    fn fmt<W: fmt::Write>(&self, f: &mut fmt::Formatter<W>) -> fmt::Result {
        for (place, (taken, _)) in self.forks.iter().enumerate() {
            write!(f, "{}{taken}", if place > 0 { "." } else { "" })?;
        }
        Ok(())
    }
}
