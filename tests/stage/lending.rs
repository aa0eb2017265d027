// How callers come to connections, which they are lent, what they keep beside them, and for how
// long they wait.

use crate::rows::*;
use r2d2::Extensions;
use std::sync::atomic::{AtomicU64, Ordering};

#[test]
fn test_acquire_release(rt: HostRuntime) -> Result<(), Fail> {
    let row = "built; get a b; back a; get c; back b c; is idle=2";
    on_text(rt, &ALL, full(2), row)
}

// It orders none, and checks none, where none is to be checked.
#[test]
fn try_get(rt: HostRuntime) -> Result<(), Fail> {
    let row = "none; is connections=0 opening=0; get a b; back a b; find c d; none; back c; some
        is checks.asked=0";
    on_text(rt, &ALL, SMALL.most(2), row)
}

// One comes back in time, and another one does not. A call may wait for no time.
#[test]
fn get_timeout(rt: HostRuntime) -> Result<(), Fail> {
    let row = "get a; ask p=20000; pass 19999; back a; take p; ask q=100; pass 99; waits q; pass 1
        late q; with waited=100; ask r=0; late r; back p; ask s=0; serve s";
    on_text(rt, &ALL, SMALL.waiting(60_000), row)
}

// A moment of the pool, which is a thousand seconds old, is no length of time.
#[test]
fn test_get_global_timeout(rt: HostRuntime) -> Result<(), Fail> {
    let row = "get a; pass 1000000; ask p=own; pass 1000; late p; says nothing; with waited=1000";
    on_text(rt, &ALL, SMALL.waiting(1_000), row)
}

// The pool's and a call's own: where one is idle, and where it comes back after thirty years.
#[test]
fn longest_timeout(rt: HostRuntime) -> Result<(), Fail> {
    let row = "ask p=$1; take p; ask q=$1; pass 1000000000000; waits q; back p; serve q";
    let longest = SMALL.waiting(u64::MAX);
    on_texts(rt, &ALL, [(longest, "own"), (longest, "max")], row)
}

// Each connection is too old as it comes back, and another one is opened.
#[test]
fn lengths_of_a_nanosecond(rt: HostRuntime) -> Result<(), Fail> {
    let mut settings = SMALL.living(1).expiring(1).waiting(1);
    settings.unit = 1;
    let row = "ask p; take p=0; ask q=own; pass 1; late q; back p
        ask p; take p=1; ask q=own; pass 1; late q; back p
        ask p; take p=2; ask q=own; pass 1; late q; back p";
    on_text(rt, &ALL, settings, row)
}

// Six calls, one after the other, of three connections that were opened in turn.
#[test]
fn which_one_is_lent_next(rt: HostRuntime) -> Result<(), Fail> {
    let [oldest, newest] = [OldestFirst, NewestFirst].map(|order| full(3).ordered(order));
    let row = "use $1; use $2; use $3; use $1; use $2; use $3";
    on_texts(rt, &ALL, [(oldest, "0/1/2"), (newest, "2/2/2")], row)
}

// Another one is lent while a check goes on.
#[test]
fn test_issue_2_unlocked_during_is_valid(rt: HostRuntime) -> Result<(), Fail> {
    let row = "checks ~+; ask p; is checks.hung=1; get a=0; go checks; take p=1";
    on_text(rt, &ALL, full(2).checked(), row)
}

// Twenty callers at once are served by fifteen connections.
#[test]
fn readme_example(rt: HostRuntime) -> Result<(), Fail> {
    let row = "ask a b c d e f g h i j k l m n o p q r s t; is waiting=5
        all a b c d e f g h i j k l m n o p q r s t; is connections=15 opened=15";
    on_text(rt, &ALL, full(15), row)
}

// Each is lent it fifty times, and nobody else has it then.
#[test]
fn sixteen_callers_of_one_connection(rt: HostRuntime) -> Result<(), Fail> {
    on_pools(rt, &BESIDE, SMALL.waiting(LONG), |world, pool| {
        let holders = AtomicU64::new(0);
        let alone = |_: usize| {
            let mut times = 0;
            for _ in 0..50 {
                if let Ok(_lent) = pool.calls.get(rt) {
                    times += u64::from(holders.fetch_add(1, Ordering::SeqCst) == 0);
                    holders.fetch_sub(1, Ordering::SeqCst);
                }
            }
            times
        };
        let times = thread::map_indices(&rt, rt.alloc(), 16, &alone)?;
        assert_eq!(rt; times.iter().sum::<u64>(), 800);
        equal((pool.status().connections, world.opened()), (1, 1))
    })
}

#[test]
fn one_value_of_each_kind(rt: HostRuntime) -> Result<(), Fail> {
    let (number, word) = (KeptKind::OfNumber, KeptKind::OfWord);
    let mut kept = Extensions::new(rt.alloc());
    assert!(rt; kept.insert(Kept::number(1)) == Ok(None));
    assert!(rt; kept.insert(Kept::number(2)) == Ok(Some(Kept::number(1))));
    assert!(rt; kept.get(&number) == Some(&Kept::number(2)));
    if let Some(value) = kept.get_mut(&number) {
        *value = Kept::word('w');
    }
    assert!(rt; kept.get(&number) == Some(&Kept::word('w')) && kept.get(&word).is_none());
    assert!(rt; kept.insert(Kept::word('x')) == Ok(None));
    assert!(rt; kept.remove(&number) == Some(Kept::word('w')));
    assert!(rt; kept.get(&number).is_none() && kept.get(&word) == Some(&Kept::word('x')));
    kept.clear();
    holds(kept.get(&word).is_none())
}

// What is kept beside a connection stays over a check and a return, and ends with its connection.
#[test]
fn extensions(rt: HostRuntime) -> Result<(), Fail> {
    on_rows(rt, &ALL, [SMALL, SMALL.checked()], |world, settings| {
        let pool = Pool::of(rt, world, settings.most(2))?;
        let (mut lent, mut other) = (pool.get()?, pool.get()?);
        lent.keep(Kept::number(7));
        other.keep(Kept::number(2));
        drop(lent);
        let mut lent = pool.get()?;
        assert_eq!(rt; lent.kept(KeptKind::OfNumber), Some(Kept::number(7)));
        assert_eq!(rt; lent.kept(KeptKind::OfWord), None);
        lent.keep(Kept::word('w'));
        drop(lent);
        let lent = pool.get()?;
        assert_eq!(rt; lent.kept(KeptKind::OfNumber), Some(Kept::number(7)));
        assert_eq!(rt; lent.kept(KeptKind::OfWord), Some(Kept::word('w')));
        assert_eq!(rt; world.checks.asked() > 0, settings.is_checked);
        world.breaks.goes("-");
        drop(lent);
        let lent = pool.get()?;
        equal((lent.number(), lent.kept(KeptKind::OfNumber)), (2, None))
    })
}
