// What happens to connections, workers and handlers where a connection is broken, or its pool goes
// away or is closed, also amid some work: each connection is dropped once, and nothing is left.

use crate::rows::*;
use r2d2::PlainPool;

// The second pool is one with no settings.
#[test]
fn test_drop_on_broken(rt: HostRuntime) -> Result<(), Fail> {
    on_text(rt, &ALL, SMALL, "breaks -; use; is dropped=1")?;
    on_each(rt, &[Kind::Plain], |world| {
        let pool = PlainPool::new(Place { world, rt }, Manager { world })?;
        world.breaks.goes("-");
        drop(pool.get()?);
        equal(world.dropped(), 1)
    })
}

// Another pool over the same connections goes on, and so does what it lent.
#[test]
fn workers_end_after_the_last_drop(rt: HostRuntime) -> Result<(), Fail> {
    let rows = [full(10).workers(3), full(10).living(10_000)];
    on_rows(rt, &ALL, rows, |world, settings| {
        let mut pool = Pool::of(rt, world, settings)?;
        let other = pool.try_clone()?;
        drop(pool.go());
        let lent = other.get()?;
        drop(other);
        assert!(rt; !world.glimpse(|| world.ended() > 0));
        drop(lent);
        pool.ended()?;
        equal(world.dropped(), 10)
    })
}

// In this thread, or in another one; and broken.
#[test]
fn close_by_return(rt: HostRuntime) -> Result<(), Fail> {
    let row = "get a; part; write a=3; reads a=3; is dropped=0; hear s0 a0 c0; tell_drops; breaks $1
        $2; is dropped=1; end; is dropped=1; hear $3";
    let rows = [
        (SMALL, "+ / back a / r0 d0"),
        (SMALL, "+ / away a; join / r0 d0"),
        (SMALL, "- / back a / r0 g0,0,Broken e0 d0"),
    ];
    on_texts(rt, &ALL, rows, row)
}

// The drop of the first connection ends after that of the second one, with which a worker comes
// meanwhile.
#[test]
fn what_is_idle_at_a_close_is_dropped_without_the_lock(rt: HostRuntime) -> Result<(), Fail> {
    let row = "connects +~+; made; until idle=1 connects.hung=1; tell_drops; hang d0; parting; hung
        go connects; work; watch dropped=2; go tells; join; end";
    on_text(rt, &ALL, full(2).unawaited(), row)
}

// At its connect, and at its customizing; as it has its id, and is not admitted; and at a check.
#[test]
fn close_amid_opening(rt: HostRuntime) -> Result<(), Fail> {
    let row = "$1; made; until $2.hung=1; part; go $2; end; is dropped=1; hear $3";
    let one = full(1).unawaited();
    on_texts(rt, &ALL, [(one, "connects ~+ / connects / s0")], row)?;
    let rows = [
        (one, "shows ~+ / shows / s0"),
        (one, "hang a0 / tells / s0 a0"),
    ];
    on_texts(rt, &BESIDE, rows, row)?;
    let row = "checks ~+; ask p; part; go checks; serve p; end; is dropped=1; hear s0 a0 c0 r0";
    on_text(rt, &ALL, full(1).checked(), row)
}

// Who waits has the pool too, and what is lent has it after that. Two give up, and four are served.
#[test]
fn close_amid_waiting(rt: HostRuntime) -> Result<(), Fail> {
    let row = "get a; ask p=50 q=50 r s t u; part; pass 50; late p q; is ended=0 dropped=0
        back a; all r s t u; end; is opened=1 dropped=1";
    on_text(rt, &ALL, SMALL, row)
}

#[test]
fn close_by_two_at_once(rt: HostRuntime) -> Result<(), Fail> {
    for _ in 0..20 {
        let row = "get a b; part; away b; back a; join; end; is dropped=2";
        on_text(rt, &ALL, SMALL.most(2), row)?;
    }
    Ok(())
}

// Nothing is told of a call that is refused so.
#[test]
fn a_closed_pool_lends_nothing(rt: HostRuntime) -> Result<(), Fail> {
    let row = "forget; close; is dropped=3; ask p; ends p; closed p; bare
        prints the pool is closed; none; evict 0; is connections=0 opening=0 waiting=0 closed=1
        end; is connects.asked=3; hear";
    on_text(rt, &ALL, full(3), row)
}

// A second close does nothing. Nothing is told of those who wait, and what is lent is closed at its
// return.
#[test]
fn all_who_wait_are_told_of_a_close(rt: HostRuntime) -> Result<(), Fail> {
    on_play(rt, &ALL, SMALL.recorded(100), |mut play| {
        play.run("get a; is waiting=0; ask p; is waiting=1; ask q; is waiting=2; ask r")?;
        play.run("is waiting=3; hear s0 a0 c0; close")?;
        play.pool.try_clone()?.close();
        let report = play.pool.journal()?;
        let records = report.records.as_slice().iter();
        let closes = records.filter(|record| matches!(record, Record::ClosedAll { .. }));
        assert_eq!(rt; (closes.count(), report.connections), (1, 1));
        assert!(rt; report.closed && report.replays()?);
        play.run("closed p q r; is waiting=0 dropped=0 lent=1; pass 7000; back a")?;
        play.run("is dropped=1 lent=0; hear r0,7000 g0,7000,PoolClosed e0")
    })
}

// The first of three drains sends two callers away, and the last one waits for ever. A call that
// would be one more is told of the close.
#[test]
fn a_drain_waits_for_the_last_return(rt: HostRuntime) -> Result<(), Fail> {
    let row = "pass 7000; get a b; ask p q; drain d; closed p q; until waiting=1
        drain e f=max; back a; settle; waits d e f; is waiting=3; ask r; closed r
        back b; drained d e f; is connections=0 waiting=0 dropped=2";
    on_text(rt, &ALL, SMALL.most(2).room(3), row)
}

#[test]
fn a_drain_tells_what_is_lent_past_its_timeout(rt: HostRuntime) -> Result<(), Fail> {
    let row = "get a b; drain d=50; pass 49; settle; waits d; pass 1; undrained d
        with lent=2 idle=0 closed=1 waiting=0 timeouts=0; is waiting=0 timeouts=0
        detach a; drain e=0; undrained e; with lent=1; evict 0
        back b; drain f=0; drained f; is dropped=2";
    on_text(rt, &ALL, full(3), row)
}

#[test]
fn a_drain_of_what_is_not_lent_ends_at_once(rt: HostRuntime) -> Result<(), Fail> {
    let row = "drain d=0; ends d; drained d; is dropped=2; drain d; ends d; drained d
        is dropped=2";
    on_text(rt, &ALL, full(2), row)
}
