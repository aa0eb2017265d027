// Each call beside the book's own step on a second book, and what opening calls, of which no clause
// can speak.

use crate::surface::user_types::{Blammo, Numbers};
use pairs::Call::{Failed, GiveBack, GiveBackBroken, Lend, LendOrOrder, Opened, Sweep, Unsound};
use pairs::Stage::{Idle, Lent, Numbered, Opening};
use pairs::{Pair, shown};
use r2d2::engine::{Wakes, open};
use r2d2::{CustomizeConnection, NopConnectionCustomizer};
use r2d2_core::{LendingOrder, LimitSettings, Limits};
use std::test::Fail;
use std::time::Duration;

mod pairs;

const NOBODY: Wakes = Wakes {
    caller: false,
    workers: false,
};

const CALLER: Wakes = Wakes {
    caller: true,
    workers: false,
};

const WORKERS: Wakes = Wakes {
    caller: false,
    workers: true,
};

const BOTH: Wakes = Wakes {
    caller: true,
    workers: true,
};

/// Limits of a core: no age is limited, and each other length of time is a second.
pub(crate) fn limits_of(max_size: u32, min_idle: Option<u32>) -> Result<Limits, Fail> {
    let second = Duration::from_secs(1);
    let limits = LimitSettings {
        max_size,
        min_idle,
        max_lifetime: None,
        idle_timeout: Some(second),
        connection_timeout: second,
        reap_every: second,
        order: LendingOrder::NewestFirst,
    };
    Ok(limits.limits().ok_or("limits")?)
}

/// Adds so many, or turns each connection away.
#[derive(Debug, Drop)]
struct Adds(Result<u32, Blammo>);

impl CustomizeConnection<u32, Blammo> for Adds {
    fn on_acquire(&self, connection: &mut u32) -> Result<(), Blammo> {
        *connection += self.0?;
        Ok(())
    }
}

#[test]
fn opens(rt: HostRuntime) -> Result<(), Fail> {
    assert!(rt; open(&Numbers, &NopConnectionCustomizer) == Ok(7));
    assert!(rt; open(&Numbers, &Adds(Ok(2))) == Ok(9));
    assert!(rt; open(&Numbers, &Adds(Err(Blammo))) == Err(Blammo));
    Ok(())
}

// From this stage on each call answers what the book's own step does, and wakes these; then both
// books noted the same, and show the same.
#[test]
fn calls_are_the_books_own_steps(rt: HostRuntime) -> Result<(), Fail> {
    for (stage, calls) in [
        (Opening, &[(Failed, WORKERS), (Failed, NOBODY)][..]),
        (Opening, &[(Opened, NOBODY), (Unsound, NOBODY), (GiveBack, NOBODY), (Failed, WORKERS)]),
        (Numbered, &[(Opened, CALLER), (Opened, NOBODY)]),
        (Numbered, &[(Lend, NOBODY), (Failed, NOBODY), (Opened, CALLER), (LendOrOrder, WORKERS)]),
        (Idle, &[(LendOrOrder, WORKERS), (Lend, NOBODY), (LendOrOrder, WORKERS)]),
        (Idle, &[(GiveBack, NOBODY), (Unsound, NOBODY), (Lend, WORKERS)]),
        (Idle, &[(Sweep, BOTH), (Sweep, WORKERS), (LendOrOrder, WORKERS), (Sweep, NOBODY)]),
        (Lent, &[(Unsound, BOTH), (Unsound, NOBODY), (GiveBack, NOBODY)]),
        (Lent, &[(GiveBack, CALLER), (GiveBack, NOBODY)]),
        (Lent, &[(GiveBackBroken, BOTH), (GiveBackBroken, NOBODY), (GiveBack, NOBODY)]),
    ] {
        let mut pair = Pair::at(rt.alloc(), stage)?;
        for (call, wakes) in calls {
            let (woken, answer, own) = pair.call(rt.alloc(), *call)?;
            assert_eq!(rt; answer.as_str(), own.as_str(), "{stage:?} {call:?}");
            assert_eq!(rt; woken, *wakes, "{stage:?} {call:?}: {answer}");
        }
        let (one, other) = (pair.by_engine.report()?, pair.by_itself.report()?);
        assert_eq!(rt; shown(&one), shown(&other));
    }
    Ok(())
}
