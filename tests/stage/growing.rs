// How pools come to the connections that are wanted: several openings go on together, reaps close
// what is expired, and who is woken for that.

use crate::rows::*;

// By as many workers as are needed, and by more; at the making, and after an eviction.
#[test]
fn two_openings_at_once(rt: HostRuntime) -> Result<(), Fail> {
    let row = "connects ~+*; made; opening 2; go connects; until idle=2; evict 2
        until opening=2 connects.hung=4; go connects; until idle=2";
    let two = full(2).unawaited();
    on_texts(rt, &ALL, [(two.workers(2), ""), (two.workers(3), "")], row)
}

#[test]
fn min_idle(rt: HostRuntime) -> Result<(), Fail> {
    let row = "built; pass 1000; until idle=2 connections=2; get a b c; until idle=2 connections=5
        back a b c; until idle=5 connections=5";
    on_text(rt, &ALL, SMALL.most(5).idle(2), row)
}

// All of them come to wait for the time to look. The first take orders one opening, the second two.
#[test]
fn all_workers_are_woken(rt: HostRuntime) -> Result<(), Fail> {
    let settings = SMALL.most(6).idle(3).workers(3).expiring(100_000);
    on_text(rt, &ALL, settings, "connects ~+*; get a b; opening 3")
}

#[test]
fn those_of_several_callers_go_on_at_once(rt: HostRuntime) -> Result<(), Fail> {
    on_play(rt, &ALL, SMALL.most(3).workers(3), |mut play| {
        play.run("connects ~+*; ask p; opening 1; ask q; opening 2; ask r; opening 3")?;
        play.run("is opening=3; go connects; take p q r; detach p q r; is opened=3")?;
        equal(play.wires.iter().map(|wire| wire.number).sum::<u64>(), 3)
    })
}

// The third begins as one of the two ends.
#[test]
fn as_many_open_at_once_as_there_are(rt: HostRuntime) -> Result<(), Fail> {
    let row = "connects ~+~+; made; until opening=3 connects.hung=2; is connects.asked=2
        go connects; until idle=3 opening=0 wanted=3; once a0 a1 a2";
    on_text(rt, &ALL, full(3).most(5).workers(2).unawaited(), row)
}

// A worker comes from a failed opening at 35 s, to a reap that was due at 30 s: it reads the clock
// for what it is to do, and ten seconds later for the reap. In between the idle connection expires.
// (A worker of tasks reads the clock once for both.)
#[test]
fn a_reap_has_a_moment_of_its_own(rt: HostRuntime) -> Result<(), Fail> {
    let row = "connects ~-; use; opening 1; pass 35000; readings +10+; go connects
        once g0,45000,Idle e0";
    on_text(rt, &THREADS, full(1).most(2).expiring(40_000), row)
}

// One of two workers is at an opening while the clock jumps; the other one, if it is a thread,
// waits by the true clock for half a minute. The reap of the first one closes two, and orders two:
// they are opened at once.
#[test]
fn a_reap_wakes_the_other_workers(rt: HostRuntime) -> Result<(), Fail> {
    // The other one may come to its wait.
    let row = "connects ~+*; get a; opening 1; settle; pass 100000; go connects; opening 3";
    on_text(rt, &ALL, full(3).most(4).workers(2).expiring(60_000), row)
}
