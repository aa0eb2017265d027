// A future that is dropped before its end loses nothing, at whichever point: who is next is served.

use crate::rows::*;

#[test]
fn one_that_was_never_polled(rt: HostRuntime) -> Result<(), Fail> {
    let row = "come p; leave p; is waiting=0 opening=0; hear";
    on_text(rt, &BY_HAND, SMALL, row)
}

// Nothing is idle as it goes, so nobody is woken.
#[test]
fn one_in_line(rt: HostRuntime) -> Result<(), Fail> {
    let row = "get a; ask p q; is waiting=2; leave p; is waiting=1; asleep q; back a; ends q
        serve q; is waiting=0";
    on_text(rt, &BY_HAND, SMALL, row)
}

#[test]
fn one_that_was_handed(rt: HostRuntime) -> Result<(), Fail> {
    let row = "get a; ask p q; back a; woken p; asleep q; leave p; ends q; serve q=0
        is opened=1 dropped=0";
    on_text(rt, &BY_HAND, SMALL, row)
}

// The connection goes with its check, so it is told to no customizer. The next caller looks, and
// orders another one.
#[test]
fn one_whose_connection_is_under_check(rt: HostRuntime) -> Result<(), Fail> {
    let row = "checks ~+; ask p; work; waits p; is lent=1 idle=0; ask q; hear s0 a0; leave p
        is dropped=1 failed_checks=1; hear g0,0,CheckFailed; woken q; waits q; busy; work; ends q
        serve q=1; hear s1 a1 c1 r1";
    on_text(rt, &BY_HAND, SMALL.checked(), row)
}

// The opening is tried again after its delay, by another worker. No handler is told of an error.
#[test]
fn a_worker_in_an_opening(rt: HostRuntime) -> Result<(), Fail> {
    let row = "connects ~+; ask p; work; is opening=1 connects.hung=1; dismiss
        is given_up=1 failed_openings=1; pass 400; work; ends p; serve p; hear s0 a0 c0,400 r0";
    on_text(rt, &BY_HAND, SMALL.workers(2), row)
}

#[test]
fn a_worker_that_sleeps(rt: HostRuntime) -> Result<(), Fail> {
    let row = "work; dismiss; ask p; busy; work; ends p; serve p";
    on_text(rt, &BY_HAND, SMALL.workers(2), row)
}

// The pool stays closed.
#[test]
fn a_drain(rt: HostRuntime) -> Result<(), Fail> {
    let row = "get a; drain d e; leave d; ask p; closed p; asleep e; back a; ends e; drained e
        is opened=1 dropped=1";
    on_text(rt, &BY_HAND, SMALL, row)
}

// Callers who wait keep it open, and the last of them closes it.
#[test]
fn all_that_wait_when_the_pool_goes(rt: HostRuntime) -> Result<(), Fail> {
    let row = "checks ~+; ask p q; work; waits p; is checks.hung=1; part; work; is ended=0
        leave p q; end; is opened=1 dropped=1";
    on_text(rt, &BY_HAND, SMALL.checked(), row)
}
