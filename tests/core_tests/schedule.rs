// A schedule by itself.

use crate::checks::{legal, same};
use core_uses::steps::ms;
use r2d2_core::{Job, LendingOrder, LimitSettings, Limits, Schedule};
use std::process::Abort;
use std::time::Duration;

// Without an idle timeout no reap is ever due.
fn limits(max_size: u32, idle_timeout: Option<Duration>) -> Option<Limits> {
    LimitSettings {
        max_size,
        min_idle: None,
        max_lifetime: None,
        idle_timeout,
        connection_timeout: ms(30_000),
        reap_every: ms(400),
        order: LendingOrder::NewestFirst,
    }
    .limits()
}

// A schedule with openings, of each when it is due and how often it failed, ordered one after the
// other.
fn schedule_of<R: Abort + AllocGlobal>(
    rt: &R,
    limits: Option<Limits>,
    ordered: &[(u64, u32)],
) -> Schedule {
    let limits = legal(rt, limits);
    let size = limits.max_size();
    let mut schedule = Schedule::new(rt.alloc(), limits, ms(0)).expect(rt, "a schedule");
    for place in 0..ordered.len() {
        let (due, tries) = ordered[place];
        assert!(rt; schedule.len() as usize == place && schedule.len() < size);
        schedule.order_uncounted(ms(due), tries);
    }
    schedule
}

fn next(schedule: &mut Schedule, now: u64) -> Job {
    schedule.next_uncounted(ms(now))
}

#[test]
fn hands_out_what_is_due_first(rt: HostRuntime) {
    let mut schedule = schedule_of(&rt, limits(2, Some(ms(1000))), &[(500, 1), (300, 2)]);
    same(&rt, schedule.len(), 2);
    same(&rt, next(&mut schedule, 299), Job::Wait(ms(300)));
    same(&rt, next(&mut schedule, 600), Job::Open { tries: 2 });
    same(&rt, next(&mut schedule, 600), Job::Reap);
    same(&rt, schedule.len(), 1);
    same(&rt, next(&mut schedule, 600), Job::Open { tries: 1 });
    same(&rt, next(&mut schedule, 600), Job::Wait(ms(800)));
}

// A hundred openings, each due before the last one and tried once more.
fn backwards() -> [(u64, u32); 100] {
    let mut ordered = [(0, 0); 100];
    for i in 0..100u32 {
        ordered[i as usize] = (1000 - u64::from(i), i);
    }
    ordered
}

#[test]
fn hands_out_what_was_ordered_backwards(rt: HostRuntime) {
    let mut schedule = schedule_of(&rt, limits(100, None), &backwards());
    same(&rt, schedule.len(), 100);
    same(&rt, next(&mut schedule, 900), Job::Wait(ms(901)));
    for i in 0..100u32 {
        let job = next(&mut schedule, 901 + u64::from(i));
        same(&rt, job, Job::Open { tries: 99 - i });
    }
    same(&rt, next(&mut schedule, 2000), Job::Nothing);
}

#[test]
fn hands_out_the_least_tries_of_one_moment_first(rt: HostRuntime) {
    let ordered = [
        (7, 3),
        (7, 1),
        (5, 8),
        (7, 2),
        (7, 0),
        (7, 1),
        (5, 9),
        (5, 4),
        (7, 2),
    ];
    let mut schedule = schedule_of(&rt, limits(9, None), &ordered);
    for tries in [4, 8, 9, 0, 1, 1, 2, 2, 3] {
        same(&rt, next(&mut schedule, 7), Job::Open { tries });
    }
    same(&rt, schedule.len(), 0);
}

#[test]
fn forgets_all_at_a_clear(rt: HostRuntime) {
    let mut schedule = schedule_of(&rt, limits(2, Some(ms(1000))), &[(300, 0)]);
    schedule.clear();
    same(&rt, schedule.len(), 0);
    same(&rt, next(&mut schedule, 1000), Job::Nothing);
}
