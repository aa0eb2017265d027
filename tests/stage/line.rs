// Callers in line: who came first is served first. Each begins to wait after the one before it.

use crate::rows::*;

// Later who gave the connection back that another one waits for asks for it again at once: in the
// same thread, with no time. Who passed its check leaves its place to the next.
#[test]
fn who_came_first_is_served_first(rt: HostRuntime) -> Result<(), Fail> {
    on_lent(rt, &ORDERED, SMALL.checked().room(8), |world, pool, lent| {
        let line = pool.line(8)?;
        assert_eq!(rt; pool.status().waiting, 8);
        let error = pool.get_within(9).err().ok_or("a connection")?;
        assert_eq!(rt; error.kind(), ErrorKind::QueueFull);
        assert!(rt; pool.try_get()?.is_none());
        drop(lent);
        pool.in_turn(line)?;
        assert_eq!(rt; (pool.status().waiting, world.opened()), (0, 1));
        assert!(rt; pool.try_get()?.is_some());
        for round in 0..20 {
            let lent = pool.get()?;
            let line = pool.line(1)?;
            drop(lent);
            let passes = if round % 2 == 0 {
                pool.try_get()?.is_some()
            } else {
                pool.get_within(0).is_ok()
            };
            assert!(rt; !passes, "round {round}");
            pool.in_turn(line)?;
        }
        Ok(())
    })
}

// Two connections come back at once, to two of the three who wait. Where only one waits, the other
// one is anybody's.
#[test]
fn as_many_are_told_as_are_idle(rt: HostRuntime) -> Result<(), Fail> {
    on_play(rt, &ORDERED, SMALL.most(2), |mut play| {
        play.run("get a b; ask p q r; back a b; comes p q; waits r; is waiting=1; all p q r")?;
        for _ in 0..10 {
            play.run("get a b; ask p; back a b; some; turns p")?;
        }
        Ok(())
    })
}

// As what is lent is evicted, and another one is opened; as one who returns it asks again, with
// time; as the second of four gives up; and as each one comes back broken, so that who is told
// orders another.
#[test]
fn the_line_stays_in_order(rt: HostRuntime) -> Result<(), Fail> {
    let row = "get a; ask p q r; evict 0; until waiting=3; back a; turns p q r; is opened=2
        get a; ask p q; again a; turns p q a
        get a; ask p q=50 r s; pass 50; late q; is waiting=3; back a; turns p r s
        get a; ask p q r; breaks -*; back a; turns p q r; is opened=5";
    on_text(rt, &ORDERED, SMALL, row)
}

// The check of the first one fails while another one waits. It waits again, at its place, before
// the next connection is opened.
#[test]
fn who_finds_one_unsound_keeps_its_place(rt: HostRuntime) -> Result<(), Fail> {
    let row = "get a; ask p q; checks ~-; connects ~+; back a; waits p
        until waiting=1 checks.hung=1; go checks; waits p; until waiting=2 connects.hung=1
        go connects; turns p q";
    on_text(rt, &ORDERED, SMALL.checked(), row)
}

// The time of the first one is over as its check fails. The next one was told by that, and a place
// in a line of two is free.
#[test]
fn who_is_late_after_its_check_leaves_the_line(rt: HostRuntime) -> Result<(), Fail> {
    let row = "get a; ask p=60000 q; checks ~-; connects ~+; back a; waits p
        until waiting=1 checks.hung=1; pass 100000; go checks; late p; ask r; opening 1
        go connects; turns q r";
    on_text(rt, &ORDERED, SMALL.checked().room(2), row)
}

// The first of two waited as its connection was opened for it. What the second ordered as one was
// idle is opened once none is.
#[test]
fn what_a_kept_one_hides_is_ordered_later(rt: HostRuntime) -> Result<(), Fail> {
    let row = "get a; connects ~+*; ask p; opening 1; again a; comes p
        until waiting=1 connects.hung=2; serve p=0; go connects; serve a";
    on_text(rt, &ORDERED, SMALL.most(3).workers(3), row)
}

// One gives up, and one is served. Three more ask for no memory.
#[test]
fn events_in_line_are_those_of_any_call(rt: HostRuntime) -> Result<(), Fail> {
    let row = "get a; ask p=50 q; forget; pass 50; late p; hear T50; back a; turns q
        hear r0,50 c0,50 r0; get b; mark allocs; ask r s t; back b; all r s t; is allocs.more=0";
    on_text(rt, &ALL, SMALL, row)
}

// `build` waits where drains do.
#[test]
fn a_build_takes_no_place_in_line(rt: HostRuntime) -> Result<(), Fail> {
    let row = "built; is idle=3; get a b c; ask p; back a b c; turns p";
    on_text(rt, &[Kind::Limited, Kind::InLine], full(3).room(1), row)
}

// During its check a task does not wait, and yet it takes up the only place. Once it is lent its
// connection that place is free again.
#[test]
fn one_under_check_keeps_its_place(rt: HostRuntime) -> Result<(), Fail> {
    let row = "checks ~+; ask p; beside p checks.hung=1; is lent=1 waiting=0; refused; go checks
        take p; ask q; is waiting=1; back p; serve q";
    on_text(rt, &TASKS, SMALL.checked().room(1), row)
}

// The check of a task took the rest of its time, and not who came before it: it is given up, and
// its connection with it.
#[test]
fn one_whose_time_runs_out_as_it_is_told(rt: HostRuntime) -> Result<(), Fail> {
    let row = "get a; ask p=10 q; checks ~+; back a; beside p checks.hung=1; pass 10; late p
        with ahead=- timeouts=1; is dropped=1; serve q=1";
    on_text(rt, &TASKS, SMALL.checked(), row)
}
