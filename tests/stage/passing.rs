// Callers who were told to look, and do not: once their time is over they are passed by who looks,
// or pass on what they were told of.

use crate::rows::*;

// So many are passed at once, by one who would wait, or would not. Who was passed waits no more.
#[test]
fn who_looks_passes_those_whose_time_is_over(rt: HostRuntime) -> Result<(), Fail> {
    let rows = [
        (SMALL.room(9), "p=5000 / come n; ends n; take n"),
        (SMALL.room(9), "p=5000 / find n"),
        (SMALL.room(9), "p=5000 q=5000 r=5000 / come n; ends n; take n"),
        (SMALL.room(9), "p=5000 q=5000 r=5000 / find n"),
    ];
    let row = "get a; ask $1; back a; woken p; pass 5000; $2; is waiting=0; back n; some";
    on_texts(rt, &BY_HAND, rows, row)
}

// Nobody wakes it; and its own time may be over too.
#[test]
fn one_that_sleeps_passes_it_at_any_poll(rt: HostRuntime) -> Result<(), Fail> {
    let row = "get a; ask p=5000 q; back a; pass $1; $2 q; polled q; serve q";
    let rows = [(SMALL, "5000 / asleep"), (SMALL, "600000 / woken")];
    on_texts(rt, &BY_HAND, rows, row)
}

// What is idle is kept for the next one then. The one that was passed tells nobody as it is
// dropped.
#[test]
fn the_next_in_line_is_told_instead(rt: HostRuntime) -> Result<(), Fail> {
    let row = "get a; ask p=5000 q r; back a; pass 5000; asleep q; none; woken q; is waiting=2
        leave p; asleep r; is waiting=2; take q; asleep r; back q; ends r; serve r";
    on_text(rt, &BY_HAND, SMALL, row)
}

// It is made, looks for the first time so many milliseconds later, and may look again in time.
#[test]
fn it_is_passed_at_the_end_of_its_time_and_not_before(rt: HostRuntime) -> Result<(), Fail> {
    let rows = [
        (SMALL, "0 / serve p n"),
        (SMALL, "0 / pass 1; polled n; serve n"),
        (SMALL, "2000 / pass 1; polled n; serve n"),
    ];
    let row = "get a; come p=5000; pass $1; waits p; back a; pass 4999; ask n; none; pending n
        is waiting=2; $2";
    on_texts(rt, &BY_HAND, rows, row)
}

// One with all the time in the world is not passed. A later one looks in vain two seconds after it
// was told, since that was evicted; then another connection is opened for it.
#[test]
fn its_time_does_not_begin_anew_as_it_looks_in_vain(rt: HostRuntime) -> Result<(), Fail> {
    let row = "get a; ask p=max; back a; pass 1000000000000; none; take p; ask q=5000; back p
        evict 1; pass 2000; waits q; work; woken q; pass 2999; none; pass 1; some";
    on_text(rt, &BY_HAND, SMALL, row)
}

#[test]
fn a_clock_that_cannot_be_read_passes_nobody(rt: HostRuntime) -> Result<(), Fail> {
    let row = "get a; ask p=5000; back a; woken p; pass 5000; readings -*; come n; pending n; none
        is waiting=2; readings; polled n; serve n";
    on_text(rt, &BY_HAND, SMALL, row)
}

// It looks again as a connection is idle, or once the pool is closed.
#[test]
fn one_that_was_passed_is_served_or_told_of_a_close(rt: HostRuntime) -> Result<(), Fail> {
    let row = "get a; ask p=5000; back a; woken p; pass 5000; some; $1";
    let rows = [
        (SMALL, "pass 1000; take p; is waiting=0"),
        (SMALL, "close; closed p"),
    ];
    on_texts(rt, &BY_HAND, rows, row)
}

// It has the only place until it is told, or dropped.
#[test]
fn one_that_was_passed_keeps_its_place_to_its_end(rt: HostRuntime) -> Result<(), Fail> {
    let row = "get a; ask p=5000; back a; woken p; pass 5000; find b; refused; pass 1000; forget
        $1 p; $2; ask n; back b; serve n";
    let rows = [
        (SMALL.room(1), "late / with waited=6000; hear T5000"),
        (SMALL.room(1), "leave /"),
    ];
    on_texts(rt, &BY_HAND, rows, row)
}

// They were told of two connections, and the first is late, or the second. What is left is kept for
// the other one.
#[test]
fn of_two_who_were_told_the_late_one_is_passed(rt: HostRuntime) -> Result<(), Fail> {
    let row = "get a b; ask p=$1 q=$2; back a b; woken p q; pass 4999; none; pass 1; find c
        is waiting=1 idle=1; none; take $3; late $4";
    let two = SMALL.most(2);
    let rows = [(two, "5000/600000/q/p"), (two, "600000/5000/p/q")];
    on_texts(rt, &BY_HAND, rows, row)
}

// The last one looks, and the first one is told.
#[test]
fn the_others_are_served_in_the_order_of_their_coming(rt: HostRuntime) -> Result<(), Fail> {
    let row = "get a; ask p=5000 q r s; back a; pass 5000; pending s; ask n; woken q; asleep r s
        take q; pending n; back q; woken r; asleep s; take r; pending n; back r; woken s
        take s; pending n; back s; serve n";
    on_text(rt, &BY_HAND, SMALL, row)
}

/// How often a row of threads is played. The clock jumps past the end of a caller's time once that
/// caller is counted as one who waits: just then it may not have come to its wait, and is served.
const ROUNDS: u64 = 5;

// The first or the second of those who wait, as the connection comes back.
#[test]
fn who_gives_up_passes_it_on(rt: HostRuntime) -> Result<(), Fail> {
    on_rows(rt, &[Kind::InLine], [0, 1], |world, before| {
        let pool = Pool::of(rt, world, SMALL)?;
        for _ in 0..ROUNDS {
            let lent = pool.get()?;
            let first = pool.line(before)?;
            let late = pool.begin(60_000)?;
            let others = pool.line(2)?;
            world.pass(100_000);
            drop(lent);
            pool.in_turn(first)?;
            drop(pool.end(late)?);
            pool.in_turn(others)?;
        }
        holds(pool.status().timeouts > 0)
    })
}

// So many are late, and behind them waits one with more time. A connection that comes back broken
// leaves none idle, and none ordered: whom the return wakes orders one.
#[test]
fn a_return_reaches_the_next_caller(rt: HostRuntime) -> Result<(), Fail> {
    let rows = [("", 1), ("-", 2)];
    on_rows(rt, &THREADS, rows, |world, (breaks, impatient)| {
        let pool = Pool::of(rt, world, SMALL)?;
        for _ in 0..ROUNDS {
            let lent = pool.get()?;
            let mut callers = pool.callers(impatient, 60_000)?;
            callers.append(&mut pool.line(1)?)?;
            world.pass(100_000);
            world.breaks.goes(breaks);
            drop(lent);
            assert!(rt; pool.all_end(callers)? > 0);
        }
        holds(pool.status().timeouts > 0)
    })
}

// A connection comes back round the end of one caller's time, sooner or later; another one has time
// left.
#[test]
fn no_caller_waits_beside_an_idle_connection(rt: HostRuntime) -> Result<(), Fail> {
    on_pools(rt, &BESIDE, SMALL, |world, pool| {
        for trial in 0..60 {
            let lent = pool.get()?;
            let mut callers = pool.callers(1, 5)?;
            callers.append(&mut pool.line(1)?)?;
            world.pass(5);
            thread::sleep(&rt, Duration::from_micros(50 * trial));
            drop(lent);
            assert!(rt; pool.all_end(callers)? > 0, "trial {trial}");
        }
        Ok(())
    })
}
