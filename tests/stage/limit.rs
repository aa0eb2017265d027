// A limit to how many callers wait: what a call that would be one more leaves as it was, and who is
// not refused.

use crate::rows::*;

// No event tells of it. All who are refused are counted, and nobody else.
#[test]
fn one_more_than_may_wait_is_refused_at_once(rt: HostRuntime) -> Result<(), Fail> {
    on_play(rt, &ALL, SMALL.room(2), |mut play| {
        play.run("get a; is waiting=0 refused=0; ask p; is waiting=1 refused=0; ask q; forget")?;
        play.run("ask r; ends r; full r; hear; prints too many callers are waiting; bare")?;
        play.run("is waiting=2 refused=1")?;
        let is_full = |error: Error| error.kind() == ErrorKind::QueueFull;
        let late = move |calls: &Calls<_>| {
            (0..1_000).all(|_| calls.get(rt).err().is_some_and(is_full))
        };
        assert!(rt; play.pool.aside(late)?.join(&rt));
        play.run("none; is refused=1001 timeouts=0; back a; all p q; is waiting=0; use")
    })
}

// One waits, and ordered the second connection, which does not come. There is room for a third.
#[test]
fn who_is_refused_orders_none_and_asks_for_no_memory(rt: HostRuntime) -> Result<(), Fail> {
    on_play(rt, &BOUNDED, SMALL.most(3).room(1).recorded(16), |mut play| {
        play.run("get a; connects ~+*; ask p; opening 1")?;
        let before = play.pool.journal()?;
        play.run("mark allocs; refused; is allocs.more=0 refused=1")?;
        let after = play.pool.journal()?;
        assert_eq!(rt; (before.pending, after.pending), (1, 1));
        assert_eq!(rt; after.records.len(), before.records.len());
        play.run("is connects.asked=2; back a; serve p")
    })
}

// A closed return wakes who waits. It finds none, orders one, which does not come at first, and
// waits again; a call that comes meanwhile is refused. Later as many wait as may: `try_get` finds
// none, and is not refused; nor is one that finds one idle.
#[test]
fn who_was_let_wait_is_not_refused(rt: HostRuntime) -> Result<(), Fail> {
    let row = "get a; ask p; breaks -; connects ~+; back a; beside p connects.hung=1; is waiting=1
        refused; waits p; go connects; serve p; ask q=0; serve q; get b; ask r; none; back b
        serve r; ask s; serve s; is refused=1";
    on_text(rt, &BOUNDED, SMALL.room(1), row)
}

// Two wait, as many as may, until the time of both is over.
#[test]
fn who_gave_up_makes_room_for_others(rt: HostRuntime) -> Result<(), Fail> {
    let row = "get a; ask p=50 q=50; refused; pass 50; late p q; is waiting=0; ask r; is waiting=1
        close; closed r";
    on_text(rt, &BOUNDED, SMALL.room(2), row)
}

// While one of the two connections is checked, another call begins to wait. The check fails; its
// caller would wait as one more. No event tells that it was refused. (In line it keeps its place.)
#[test]
fn who_would_wait_after_a_failed_check_is_refused(rt: HostRuntime) -> Result<(), Fail> {
    let row = "get a; checks ~-; connects ~+*; ask p q; is waiting=1; forget; go checks; full p
        is refused=1; hear K1 g0,0,CheckFailed e0; is waiting=1; back a; serve q";
    let settings = full(2).checked().room(1);
    on_text(rt, &[Kind::Limited, Kind::Counted], settings, row)
}
