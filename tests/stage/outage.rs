// What a pool does in an outage: which connections it distrusts, and which it checks.

use crate::rows::*;
use std::sync::Mutex;

// So many connections, all idle since 0. They are checked.
fn checked(connections: u32) -> Settings {
    full(connections).checked()
}

// Four came back at these seconds. Those that came back at the same moment as the one that fails,
// or later, but before its check began, are distrusted; what came back at the moment at which the
// check began is checked next. The pool asks since when each was idle, whether it distrusts or not.
#[test]
fn a_failed_check_tells_of_those_that_came_back_before(rt: HostRuntime) -> Result<(), Fail> {
    let four = checked(4).checked_after(0);
    let [newest, oldest] = [NewestFirst, OldestFirst].map(|order| four.ordered(order));
    let [new, old] = [newest, oldest].map(|settings| settings.distrusting(true));
    let rows = [
        (newest, "1/2/3/4/5/4"),
        (oldest, "1/2/3/4/5/4"),
        (new, "1/2/3/4/5/1"),
        (old, "1/2/3/4/5/1"),
        (new, "3/3/3/3/4/1"),
        (old, "3/3/3/3/4/1"),
        (new, "1/2/3/4/4/1"),
        (old, "1/2/3/4/4/2"),
        (new, "1/1/2/2/2/2"),
        (old, "1/1/2/2/2/2"),
        (new, "3/3/3/3/3/2"),
        (old, "3/3/3/3/3/2"),
    ];
    let row = "get a b c d; to $1; back a; to $2; back b; to $3; back c; to $4; back d; to $5
        checks 5-*; connects ~+*; ask p; until idle=0 lent=0; is checks.since=$6 failed_checks=$6
        checks; connects; go connects; serve p";
    on_texts(rt, &ALL, rows, row)?;
    let row = "get a b c d; to $1; back a; to $2; back b; to $3; back c; to $4; back d; to $5
        checks 5-*; connects ~+*; none; until idle=0 lent=0; is checks.since=$6 failed_checks=$6";
    on_texts(rt, &THREADS, rows, row)
}

// One came back at 0, and the newer one was opened at 1 s, in the place of a broken one.
#[test]
fn one_that_was_not_lent_yet_is_idle_since_its_opening(rt: HostRuntime) -> Result<(), Fail> {
    let two = checked(2).distrusting(true);
    let [new, old] = [NewestFirst, OldestFirst].map(|order| two.ordered(order));
    let rows = [(old, "1/2"), (old, "2/1"), (new, "1/1")];
    let row = "get a b; breaks +-; back b; to 1; back a; until idle=2; to $1; checks 5-*
        connects ~+*; ask p; until idle=0 lent=0; is checks.since=$2 failed_checks=$2
        checks; connects; go connects; serve p";
    on_texts(rt, &ALL, rows, row)?;
    let row = "get a b; breaks +-; back b; to 1; back a; until idle=2; to $1; checks 5-*
        connects ~+*; none; until idle=0 lent=0; is checks.since=$2 failed_checks=$2";
    on_texts(rt, &THREADS, rows, row)
}

// By the order of their lending the ids are 2, 1, 0, and they came back at 1, 2, 3 s.
#[test]
fn a_caller_closes_them_and_is_lent_a_new_one(rt: HostRuntime) -> Result<(), Fail> {
    let row = "get a b c; to 1; back a; to 2; back b; to 3; back c; forget
        checks 5-*; connects ~+*; ask p
        hear K3 g0,8000,CheckFailed e0 g1,8000,Distrusted e1 g2,8000,Distrusted e2
        is checks.since=1; opening 1; checks; go connects; take p=3; once s3 a3 c3,5000";
    on_text(rt, &ALL, checked(3).distrusting(true), row)
}

// At 11 s the first was idle for ten seconds, and fails its check; at 16 s the second, given back
// at 9 s, would not need one.
#[test]
fn one_that_needs_no_check_is_distrusted_too(rt: HostRuntime) -> Result<(), Fail> {
    let two = checked(2).checked_after(10_000).distrusting(true);
    let row = "get a b; to 1; back a; to 9; back b; forget; to 11; checks 5-*; connects ~+*; ask p
        until idle=0 lent=0; is checks.since=1 failed_checks=1; checks; connects; go connects
        serve p; once g0,16000,CheckFailed g1,16000,Distrusted";
    on_text(rt, &ALL, two.ordered(OldestFirst), row)?;
    let row = "get a b; to 1; back a; to 9; back b; forget; to 11; checks 5-*; connects ~+*; none
        until idle=0 lent=0; is checks.since=1 failed_checks=1
        once g0,16000,CheckFailed g1,16000,Distrusted";
    on_text(rt, &THREADS, two.ordered(OldestFirst), row)
}

// The check takes five seconds, telling its error one more, and each closing two. The call has ten.
#[test]
fn a_caller_looks_at_its_time_after_each_of_them(rt: HostRuntime) -> Result<(), Fail> {
    let row = "get a b c; to 1; back a; to 2; back b; to 3; back c
        checks 5-*; connects ~+*; hears 1+*; ask p=10000; late p
        with waited=10000 idle=1 failed_checks=1";
    on_text(rt, &ALL, checked(3).distrusting(true), row)
}

// The newest is lent as the next one fails its check, which tells of the third. It came back later,
// and so is checked.
#[test]
fn one_that_came_back_amid_the_check_is_checked(rt: HostRuntime) -> Result<(), Fail> {
    let row = "get a b c; to 1; back a; to 2; back b; to 3; back c; get n; pass 1000
        checks 5-*; connects ~+*; ask p; until idle=0 lent=1; is checks.since=1; checks; back n
        serve p=0; is checks.since=1";
    on_text(rt, &ALL, checked(3).distrusting(true), row)
}

// How many checks two lendings make at these seconds, the first of a connection that is idle since
// 0.
#[test]
fn a_connection_is_checked_after_it_was_idle_for_so_long(rt: HostRuntime) -> Result<(), Fail> {
    let after = checked(1).checked_after(5_000);
    let mut unchecked = checked(1).checked_after(1_000);
    unchecked.is_checked = false;
    let rows = [
        (after, "4/0/8/0"),
        (after, "5/1/9/0"),
        (after, "4/0/9/1"),
        (checked(1), "0/1/0/1"),
        (checked(1).checked_after(0), "0/1/0/1"),
        // A clock that went back tells nothing.
        (after, "7/1/6/1"),
        // Where none is checked, none is for that.
        (unchecked, "100/0/200/0"),
        (full(1), "100/0/200/0"),
    ];
    let row = "to $1; mark checks; use; is checks.more=$2; to $3; mark checks; use
        is checks.more=$4";
    on_texts(rt, &ALL, rows, row)
}

// It is lent for 100 s before its first return, for which somebody waits all that time, and for 50
// s more. The next is opened in its place at 200 s.
#[test]
fn it_is_idle_since_its_return_or_its_opening(rt: HostRuntime) -> Result<(), Fail> {
    let row = "get a; ask p=1000000; pass 100000; back a; take p; pass 50000; back p; pass 4000
        get b; pass 46000; breaks -; back b; until idle=1; pass 4000; use 1; is checks.asked=0";
    on_text(rt, &ALL, checked(1).checked_after(5_000), row)
}

// It checks none.
#[test]
fn a_try_get_closes_what_is_distrusted(rt: HostRuntime) -> Result<(), Fail> {
    let row = "get a b c; pass 10; back a; pass 10; back b; pass 10; back c; pass 1000; forget
        connects ~+*; checks -; come p; pending p; leave p; hear K3 g0,1030,CheckFailed e0; $1";
    let gone = "none; hear g1,1030,Distrusted e1 g2,1030,Distrusted e2
        is connections=0 checks.since=1";
    let rows = [
        (full(3).distrusting(false), "find n=1"),
        (full(3).distrusting(true), gone),
    ];
    on_texts(rt, &BY_HAND, rows, row)
}

// The first of three comes back after the second one's check failed.
#[test]
fn a_try_get_lends_the_first_that_is_trusted(rt: HostRuntime) -> Result<(), Fail> {
    let row = "get a b c; pass 10; back a; pass 10; back b; pass 10; back c; pass 1000
        connects ~+*; find n; checks -; come p; pending p; leave p; pass 10; back n; forget
        find m=0; back m; hear g2,1040,Distrusted e2 c0 r0";
    let settings = full(3).distrusting(true).ordered(OldestFirst);
    on_text(rt, &BY_HAND, settings, row)
}

// One connection is idle and distrusted. While it is closed another one comes back.
#[test]
fn a_try_get_takes_no_more_than_were_idle(rt: HostRuntime) -> Result<(), Fail> {
    on_play(rt, &BY_HAND, full(3).distrusting(true), |mut play| {
        play.run("get a b c; pass 10; back a; pass 10; back b; pass 10; back c; pass 1000")?;
        play.run("connects ~+*; checks")?;
        let (world, lent) = (play.world, Mutex::new(play.pool.try_get()?));
        play.run("checks -; come p; pending p; leave p; is idle=1; forget")?;
        world.stops.set(true);
        let returns = thread::spawn(&rt, move || {
            world.stops.look(world, || {
                world.stops.set(false);
                drop(lent.lock(&rt).take());
            })
        })?;
        assert!(rt; play.pool.try_get()?.is_none());
        returns.join(&rt);
        play.run("hear g2,1030,Distrusted r0 e2; is idle=1; some")
    })
}

// Checks hang, and three callers come one after the other, each for a second, to four idle ones.
#[test]
fn a_check_that_outlasts_its_caller_tells_of_the_others(rt: HostRuntime) -> Result<(), Fail> {
    let row = "get a b c d; pass 10; back a; pass 10; back b; pass 10; back c; pass 10; back d
        pass 1000; connects ~+*; checks ~+*; ask p=1000; pass 1000; late p; ask p=1000; pass 1000
        late p; ask p=1000; pass 1000; late p; is checks.since=$1 idle=$2";
    let (trusting, doubting) = (full(4).checked(), full(4).distrusting(true));
    let rows = [(doubting, "1/0"), (trusting, "3/1")];
    on_texts(rt, &TASKS, rows, row)
}

// The first of three comes back while the second one's check goes on, which outlasts its caller.
// The third is distrusted still.
#[test]
fn one_that_came_back_amid_a_check_that_hangs_is_checked(rt: HostRuntime) -> Result<(), Fail> {
    let row = "get a b c; pass 10; back a; pass 10; back b; pass 10; back c; pass 1000; connects ~+*
        get n; checks ~+; ask p=1000; pass 500; back n; pass 500; late p; forget
        get m=0; is checks.since=2; none; hear c0 g2,2030,Distrusted e2";
    on_text(rt, &TASKS, full(3).distrusting(true), row)
}

// Its time is not over.
#[test]
fn a_check_that_is_dropped_tells_of_nothing(rt: HostRuntime) -> Result<(), Fail> {
    let row = "get a b; pass 10; back a; pass 10; back b; pass 1000; connects ~+*; checks ~+
        ask p=30000; pass 29999; leave p; use 1; is checks.since=2 failed_checks=1";
    on_text(rt, &BY_HAND, full(2).distrusting(true), row)
}
