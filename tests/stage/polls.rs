// What a poll does and what it doesn't: since when a task stands in line, and counts; and for how
// long tasks sleep.

use crate::rows::*;

const HOUR: u64 = 3_600_000;

// Who is polled out of turn is not served.
#[test]
fn each_is_served_in_its_turn(rt: HostRuntime) -> Result<(), Fail> {
    on_lent(rt, &BY_HAND, SMALL, |world, pool, mut lent| {
        let mut line = pool.line(40)?;
        assert_eq!(rt; pool.status().waiting, 40);
        while !line.is_empty() {
            drop(lent);
            for (call, place) in line.iter().zip(0..40) {
                assert_eq!(rt; call.is_woken(), place == 0);
            }
            assert!(rt; line.len() == 1 || !line[1].poll());
            assert!(rt; line[0].poll());
            lent = pool.end(line.remove(0))??;
        }
        equal((pool.status().waiting, world.opened()), (0, 1))
    })
}

#[test]
fn one_that_sleeps_orders_once(rt: HostRuntime) -> Result<(), Fail> {
    let row = "ask p; pending p p p p p p p p p p; is opening=1 waiting=1";
    on_text(rt, &BY_HAND, SMALL.most(5), row)
}

// Both are due at once.
#[test]
fn what_was_opened_comes_before_the_end_of_its_time(rt: HostRuntime) -> Result<(), Fail> {
    let row = "ask p=70 q=71; pass 70; woken p; asleep q; late p; is waiting=1; pass 1000; work
        serve q";
    on_text(rt, &BY_HAND, SMALL, row)
}

// It was made a second earlier. However often it is polled, it asks for one sleep.
#[test]
fn a_call_has_its_whole_time_from_its_first_poll_on(rt: HostRuntime) -> Result<(), Fail> {
    on_play(rt, &BY_HAND, SMALL, |mut play| {
        play.run("get a")?;
        let begun = play.world.sleeps_begun();
        play.run("come p=70; pass 1000; pending p; is slept=70; pass 69; pending p p; asleep p")?;
        play.run("pass 1; woken p; late p; with waited=70")?;
        equal(play.world.sleeps_begun(), begun + 1)
    })
}

// Its check ends at once. One has no time, and one comes to a pool that is closed.
#[test]
fn who_does_not_wait_asks_for_no_sleep(rt: HostRuntime) -> Result<(), Fail> {
    on_play(rt, &BY_HAND, full(1).checked(), |mut play| {
        let begun = play.world.sleeps_begun();
        play.run("use; get a; ask p=0; late p; with waited=0; back a; close; ask q; closed q")?;
        equal(play.world.sleeps_begun(), begun)
    })
}

// The first of two checks takes 5 s of its first poll, and fails. It sleeps for the last second.
#[test]
fn a_check_leaves_what_is_left(rt: HostRuntime) -> Result<(), Fail> {
    let row = "connects ~+*; checks 5-~+; ask p=6000; is slept=1000; pass 999; waits p; pass 1
        late p; with waited=6000";
    on_text(rt, &BY_HAND, full(2).checked(), row)
}

// Seven give up, the last one first, and the eighth is dropped.
#[test]
fn who_is_dropped_is_not_counted_among_those_who_gave_up(rt: HostRuntime) -> Result<(), Fail> {
    let row = "ask p=70 q=70 r=70 s=70 t=70 u=70 v=70 w=70; pass 70; leave w
        is timeouts=0; late v; with ahead=6 timeouts=1; is timeouts=1
        late u; with ahead=5 timeouts=2; is timeouts=2; late t; with ahead=4 timeouts=3
        is timeouts=3; late s; with ahead=3 timeouts=4; is timeouts=4
        late r; with ahead=2 timeouts=5; is timeouts=5; late q; with ahead=1 timeouts=6
        is timeouts=6; late p; with ahead=0 timeouts=7; is timeouts=7 refused=0 waiting=0";
    on_text(rt, &BY_HAND, SMALL, row)
}

// It was made earlier. Another one waits on as it goes. A drain counts from its first poll, and
// waits since its call: one that is polled later may have come earlier.
#[test]
fn somebody_waits_since_the_first_caller_looked(rt: HostRuntime) -> Result<(), Fail> {
    let row = "come p; pass 5; is waiting=0 since=-; pending p; is waiting=1 since=5; pass 3; ask q
        pass 1; pending p q; is waiting=2 since=5; leave p; is waiting=1 since=5
        leave q; is waiting=0 since=-; get a; drains d; pass 3; drains e f; is waiting=0 since=-
        pending e; is waiting=1 since=12; pending d; is waiting=2 since=9
        pending d; is waiting=2 since=9; leave f; is waiting=2 since=9; leave d
        is waiting=1 since=9; back a; ends e; is waiting=0 since=-; drained e";
    on_text(rt, &BY_HAND, SMALL, row)
}

// Something is looked for every 30 s. What is idle since 7 s is closed at the look of 120 s, and
// another one is opened in its place. A poll in between changes nothing.
#[test]
fn a_worker_sleeps_until_the_next_look(rt: HostRuntime) -> Result<(), Fail> {
    on_play(rt, &BY_HAND, full(1).expiring(100_000), |mut play| {
        let begun = play.world.sleeps_begun();
        assert!(rt; begun > 0);
        for _ in 0..3 {
            play.run("poll; idles")?;
            assert_eq!(rt; play.world.sleeps_begun(), begun);
        }
        play.run("is slept=30000; pass 7000; use; forget; pass 23000; work; is slept=30000; hear")?;
        play.run("pass 30000; work; is slept=30000; hear; pass 30000; work; is slept=30000; hear")?;
        play.run("pass 29999; work; hear; pass 1; work; hear g0,120000,Idle e0 s1 a1")?;
        play.run("is opened=2 dropped=1")
    })
}

// It is tried after each delay, and not before.
#[test]
fn a_worker_may_sleep_for_hours(rt: HostRuntime) -> Result<(), Fail> {
    let mut patient = SMALL;
    patient.max_retry_delay = Some(2 * HOUR);
    on_play(rt, &BY_HAND, patient, |mut play| {
        play.run("connects -*; ask p")?;
        (0..16).try_for_each(|_| play.run("work; pass 7200000"))?;
        play.run("work; is slept=7200000")
    })
}

#[test]
fn an_opening_that_failed_is_tried_again_later(rt: HostRuntime) -> Result<(), Fail> {
    let rows = [(SMALL, [400, 800, 1_600]), (SMALL.retried(), [50; 3])];
    on_rows(rt, &BY_HAND, rows, |world, (settings, delays)| {
        let pool = Pool::of(rt, world, settings)?;
        world.connects.goes("---");
        let call = pool.begin(HOUR)?;
        pool.work();
        for (delay, failed) in delays.into_iter().zip(1..4) {
            assert_eq!(rt; world.slept(), Some(delay));
            world.pass(delay - 1);
            pool.poll_workers();
            let counts = (world.connects.asked(), pool.status().failed_openings);
            assert_eq!(rt; counts, (failed, failed));
            world.heard(&[Failed(Connect(failed - 1))])?;
            world.pass(1);
            pool.work();
        }
        world.heard(&[Shown(0), Acquire(0)])?;
        pool.serves(call)
    })
}

#[test]
fn a_drain_may_take_hours(rt: HostRuntime) -> Result<(), Fail> {
    let row = "get a; drain d=7200000 e=18000000000; pass 7199999; waits d e; pass 1; undrained d
        with lent=1 closed=1 timeouts=0; is timeouts=0; waits e; back a; drained e
        drain f=0; drained f";
    on_text(rt, &TASKS, SMALL, row)
}
