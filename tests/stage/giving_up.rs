// When a wait ends, and with what: that of a caller, of a drain, and of a worker at a close.

use crate::rows::*;

// Two wait before and after it. The call begins at 3 s and gives up at 10 s, long after its time.
#[test]
fn a_call_that_waited_tells_what_it_saw(rt: HostRuntime) -> Result<(), Fail> {
    let row = "get a b; ask p; pass 3000; ask q=300 r; pass 7000; late q
        with waited=7000 ahead=$1 lent=2 idle=0 waiting=2 max_size=2 connections=2 opening=0
        back a b; serve p r";
    on_texts(rt, &ORDERED, [(SMALL.most(2), "1")], row)?;
    on_texts(rt, &OUT_OF_LINE, [(SMALL.most(2), "-")], row)
}

// The only connection comes back broken, and the opening that one caller waits for fails. Another
// one, behind it, gives up.
#[test]
fn who_gives_up_behind_others_tells_why(rt: HostRuntime) -> Result<(), Fail> {
    let row = "get a; breaks -; connects -*; ask p; back a; beside p failed_openings=1
        ask q=50; is waiting=2; pass 50; late q; says connect 1; close; closed p";
    on_text(rt, &ALL, SMALL, row)
}

// The opening goes on, and its connection serves the next caller. Who gives up ordered on its miss,
// and neither looks nor orders again when its time is over.
#[test]
fn a_connect_slower_than_the_timeout(rt: HostRuntime) -> Result<(), Fail> {
    let row = "pass 7000; connects ~+; ask p=$1; opening 1; pass $1; late p; says nothing
        with waited=$1; is connections=0 opening=1; hear T$1
        go connects; until idle=1; use; hear s0 a0 c0 r0";
    on_texts(rt, &ALL, [(SMALL.most(3), "0"), (SMALL.most(3), "50")], row)
}

// Three connections are opened and fail their checks; the fourth comes only after the call's end.
#[test]
fn each_check_fails(rt: HostRuntime) -> Result<(), Fail> {
    let row = "checks -*; connects +++~+; ask p=50
        beside p waiting=1 connects.hung=1 dropped=3; pass 50; late p; says check 2; with waited=50
        once e0 e1 e2 T50; is connections=0 dropped=3; go connects; until connections=1 opening=0
        vanish; watch ended=1 dropped=4; is opened=4";
    on_text(rt, &ALL, SMALL.checked(), row)
}

// Broken connections come back after 600 s and after 1,100 s, and wake it. The first time it orders
// one, which does not come.
#[test]
fn a_caller_who_waits_again_has_what_is_left(rt: HostRuntime) -> Result<(), Fail> {
    let row = "get a b; breaks --; connects ~+*; ask p=1000000; pass 600000; back a; waits p
        opening 1; pass 500000; back b; late p";
    on_text(rt, &ALL, SMALL.most(2), row)
}

// An opening failed, and the next one does not come. The only connection comes back when the time
// of the first of two callers is over. (A task would have ended by then.)
#[test]
fn who_gives_up_with_a_text_passes_the_wake_on(rt: HostRuntime) -> Result<(), Fail> {
    let row = "connects -~+; get a; until failed_openings=1; pass 50; opening 1
        rest p=60000 q=1000000; pass 100000; back a; late p; says connect 1; serve q=0";
    on_text(rt, &THREADS, full(1).most(2).retried(), row)
}

#[test]
fn who_is_late_is_told_so_though_the_pool_is_closed(rt: HostRuntime) -> Result<(), Fail> {
    let row = "connects ~+; rest p=60000; until waiting=1; settle; pass 100000; close; late p";
    on_text(rt, &THREADS, SMALL, row)
}

// One of three comes back after 600 s, one just before the end, and one not at all. The drain looks
// at each return for what is left: a thread reads the clock three times then, and the return twice.
#[test]
fn a_drain_waits_no_longer_for_each_return(rt: HostRuntime) -> Result<(), Fail> {
    let row = "get a b c; drain d=1000000; pass 600000; mark readings; back a
        watch readings.more>=$1; waits d; is waiting=1; pass 399999; back b; pass 1
        undrained d; with lent=1";
    on_texts(rt, &THREADS, [(SMALL.most(3), "5")], row)?;
    on_texts(rt, &TASKS, [(SMALL.most(3), "0")], row)
}

// While another has the lock, and is at its reading, nobody is woken: who is reads the clock.
#[test]
fn a_close_wakes_after_its_step(rt: HostRuntime) -> Result<(), Fail> {
    let row = "connects ~+; rest p; opening 1; settle; readings ~+; reporting; watch readings.hung=1
        mark readings; closing; never readings.more>=1; go readings; join; closed p";
    on_text(rt, &THREADS, SMALL, row)
}

// Each of three workers has nothing to do. Woken, it reads the clock once, and ends.
#[test]
fn a_close_ends_the_workers_of_a_pool_that_stays(rt: HostRuntime) -> Result<(), Fail> {
    // The clock is read for the making, and by each worker; then for the close, where threads are
    // closed, and by each worker.
    let row = "watch readings.asked>=4; close; until closed=1; watch readings.asked>=$1
        is ended=0; vanish; watch ended=1; is ended=1";
    on_texts(rt, &THREADS, [(SMALL.workers(3), "8")], row)?;
    on_texts(rt, &TASKS, [(SMALL.workers(3), "7")], row)
}

// A caller has a minute. The clock moves on by more between its start and its first look.
#[test]
fn past_its_end_a_caller_orders_on_its_miss(rt: HostRuntime) -> Result<(), Fail> {
    on_play(rt, &ALL, SMALL.recorded(16), |mut play| {
        play.run("connects ~+; readings 100+*; ask p=60000; late p")?;
        let report = play.pool.journal()?;
        let orders = report.records.iter();
        let orders = orders.filter(|record| matches!(record, Record::Ordered { .. }));
        equal(orders.count(), 1)
    })
}

// Each check takes 5 s, and fails: that of one of three, or of the only one. The call tells of what
// it saw after that check, whether the pool asks since when each is idle or not.
#[test]
fn a_call_gives_up_after_the_check_in_which_its_time_ends(rt: HostRuntime) -> Result<(), Fail> {
    let (three, one) = (full(3).checked(), full(1).checked());
    let rows = [
        (three, "0/0/1/5000/2"),
        (three, "4000/0/1/5000/2"),
        (three, "5000/0/1/5000/2"),
        (one, "5000/0/1/5000/0"),
        (three, "6000/1/2/10000/1"),
        (three, "10000/1/2/10000/1"),
        (three.checked_after(0), "6000/1/2/10000/1"),
        (three.distrusting(true), "4000/0/1/5000/2"),
    ];
    let row = "pass 7000; connects ~+*; checks 5-*; ask p=$1; late p; says check $2
        is checks.asked=$3 timeouts=1
        with waited=$4 idle=$5 lent=0 failed_checks=$3 timeouts=1";
    on_texts(rt, &ALL, rows, row)
}

// The next call does not hear of the same check.
#[test]
fn it_is_told_as_one_that_waited(rt: HostRuntime) -> Result<(), Fail> {
    let row = "pass 7000; connects ~+*; checks 5-*; forget; ask p=7000; late p
        hear K0 g2,12000,CheckFailed e2 K1 g1,17000,CheckFailed e1 T7000
        is idle=1; ask q=0; late q; says check 2";
    on_text(rt, &ALL, full(3).checked(), row)
}

// Two more callers wait when the only connection fails its check. Who is woken reads the clock: one
// for the failed check, one for the caller that gives up. (In line the first is told in any case.)
#[test]
fn it_passes_a_wake_on(rt: HostRuntime) -> Result<(), Fail> {
    // The clock is read by the step of the check, the look after it, the worker that opens another,
    // and each of the two: as it is woken, for its look, and for its wait.
    let row = "use; checks ~5-; connects ~+*; ask p=5000 q r; mark readings; go checks; late p
        watch readings.more>=9; close; closed q r";
    on_text(rt, &OUT_OF_LINE, SMALL.checked(), row)
}

// The one connection is lent, and nobody listens. After the first reading of the clock others run
// for a hundred seconds: a caller who looks again before it waits has none left then.
#[test]
fn a_caller_has_begun_before_it_looks_again(rt: HostRuntime) -> Result<(), Fail> {
    on_each(rt, &[Kind::Plain, Kind::Limited, Kind::Spawned], |world| {
        let pool = Pool::quiet(rt, world, |_| ())?;
        let _lent = pool.get()?;
        world.readings.goes("100+");
        let error = pool.late(pool.begin(50_000)?)?;
        equal(error.waited(), Some(Duration::from_secs(100)))
    })
}

// It reads the clock as it begins, after one look in four, at its step and at its end; its wait, of
// no time, reads it twice. Where a reading takes a second the first look is too long, and no other
// call looks again until a second later.
#[test]
fn looks_that_take_too_long_are_the_last_for_a_second(rt: HostRuntime) -> Result<(), Fail> {
    on_lent(rt, &OUT_OF_LINE, SMALL, |world, pool, _lent| {
        // The worker may come to its rest, for which it reads the clock.
        world.glimpse(|| false);
        for (passes, reads, wanted) in [
            (10_000, "", 8),
            (10_000, "1+", 6),
            (999, "", 5),
            (1, "", 8),
        ] {
            world.pass(passes);
            world.readings.goes(reads);
            let before = world.readings();
            pool.late(pool.begin(0)?)?;
            assert_eq!(rt; world.readings() - before, wanted, "{passes}");
        }
        Ok(())
    })
}

// It checks both that were idle. One that is lent comes back while the first is checked.
#[test]
fn a_try_get_checks_no_more_than_were_idle(rt: HostRuntime) -> Result<(), Fail> {
    on_play(rt, &THREADS, full(3).checked(), |mut play| {
        play.run("connects ~+*; checks +~--")?;
        let (world, lent) = (play.world, play.pool.get()?);
        let returns = || {
            let hangs = world.watch(|| world.checks.hung() == 1);
            drop(lent);
            world.let_go(&world.checks);
            hangs
        };
        let (is_none, hung) = thread::join(&rt, || play.pool.finds_none(), returns);
        assert!(rt; is_none && hung);
        play.run("is checks.asked=3 idle=1")
    })
}
