// How many workers a pool for tasks shows, and what is told where none is at work.

use crate::rows::*;

#[test]
fn a_pool_of_threads_counts_no_workers(rt: HostRuntime) -> Result<(), Fail> {
    let row = "connects ~+; is workers=-; ask p=50; opening 1; pass 50; late p; says nothing
        with workers=-; drain d=50; drained d; is workers=-";
    on_text(rt, &THREADS, SMALL, row)
}

#[test]
fn no_worker_was_spawned(rt: HostRuntime) -> Result<(), Fail> {
    let row = "is workers=0; ask p=50; is opening=1 workers=0; pass 50; late p
        prints timed out waiting for connection: no worker is running: spawn what Pool::worker \
        returns
        with workers=0 timeouts=1 opening=1 waited=50; ask q=0; late q
        says no worker is running: spawn what Pool::worker returns
        with workers=0; close; is workers=0";
    on_text(rt, &TASKS, SMALL.workers(0), row)
}

// Once one of them is polled it opens what is ordered, and both are at work.
#[test]
fn no_worker_was_polled(rt: HostRuntime) -> Result<(), Fail> {
    let row = "is workers=0; ask p=50; is workers=0; pass 50; late p
        says no worker is running: spawn what Pool::worker returns
        with workers=0; work; is workers=2 idle=1; poll; poll; is workers=2; use";
    on_text(rt, &BY_HAND, SMALL.workers(2).unawaited(), row)
}

#[test]
fn the_last_worker_was_dropped(rt: HostRuntime) -> Result<(), Fail> {
    let row = "is workers=1; dismiss; is workers=0; ask p=50; pass 50; late p
        says no worker is running: spawn what Pool::worker returns
        with workers=0 failed_openings=0";
    on_text(rt, &BY_HAND, SMALL, row)
}

// Its opening failed with it, which has no text.
#[test]
fn the_last_worker_was_dropped_in_an_opening(rt: HostRuntime) -> Result<(), Fail> {
    let row = "connects ~+; ask p=50; work; is connects.hung=1 workers=1; dismiss
        is given_up=1 workers=0; pass 50; late p
        says no worker is running: spawn what Pool::worker returns
        with workers=0 failed_openings=1";
    on_text(rt, &BY_HAND, SMALL, row)
}

#[test]
fn one_of_two_workers_was_dropped(rt: HostRuntime) -> Result<(), Fail> {
    let row = "get a; is workers=2; dismiss; is workers=1; ask p=50; pass 50; late p; says nothing
        prints timed out waiting for connection
        with workers=1; dismiss; is workers=0; ask q=50; pass 50; late q
        says no worker is running: spawn what Pool::worker returns
        with workers=0";
    on_text(rt, &BY_HAND, SMALL.workers(2), row)
}

// One that was never polled was not counted.
#[test]
fn a_worker_is_dropped_before_its_first_poll(rt: HostRuntime) -> Result<(), Fail> {
    on_play(rt, &BY_HAND, SMALL, |mut play| {
        play.run("is workers=1")?;
        if let Calls::Task(tasks) = &play.pool.calls {
            let fresh = tasks.worker()?;
            assert_eq!(rt; tasks.status().workers, Some(1));
            drop(fresh);
            assert_eq!(rt; tasks.status().workers, Some(1));
        }
        play.run("connects ~+; ask p=50; work; pass 50; late p; says nothing; with workers=1")
    })
}

// It is at work in an opening, and as it sleeps.
#[test]
fn a_worker_is_at_work(rt: HostRuntime) -> Result<(), Fail> {
    let row = "until workers=1; connects ~+; ask p=50; opening 1; is workers=1; pass 50; late p
        says nothing; with workers=1 opening=1; go connects; until idle=1; is workers=1";
    on_text(rt, &TASKS, SMALL, row)
}

#[test]
fn the_latest_error_comes_first(rt: HostRuntime) -> Result<(), Fail> {
    let row = "connects -; ask p=50; work; is failed_openings=1; dismiss; is workers=0; pass 50
        late p; says connect 0; with workers=0; ask q=0; late q
        says no worker is running: spawn what Pool::worker returns
        with workers=0";
    on_text(rt, &BY_HAND, SMALL, row)
}

// It is kept, and may be polled again.
#[test]
fn a_worker_that_has_ended_is_not_at_work(rt: HostRuntime) -> Result<(), Fail> {
    let row = "is workers=2; close; is workers=2; work; is workers=0; dismiss; is workers=0";
    on_text(rt, &BY_HAND, SMALL.workers(2), row)?;
    let row = "until workers=2; close; until workers=0";
    on_text(rt, &TASKS, SMALL.workers(2), row)
}

// The time of its check is over once the workers of the closed pool have ended.
#[test]
fn a_closed_pool_needs_no_worker(rt: HostRuntime) -> Result<(), Fail> {
    let row = "use; checks ~+; ask p=50; waits p; is lent=1; close; work; pass 50; late p
        says nothing; with workers=0 closed=1 timeouts=1; ask q=50; closed q";
    on_text(rt, &BY_HAND, SMALL.checked(), row)
}
