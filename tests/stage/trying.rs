// When what failed is tried again, how it is counted, and what is checked.

use crate::rows::*;

// As soon as it was set to, or after half of the time that callers wait. Ten openings fail.
#[test]
fn an_opening_is_tried_again_soon(rt: HostRuntime) -> Result<(), Fail> {
    let rows = [(SMALL.retried(), 50), (SMALL.waiting(200), 100)];
    on_rows(rt, &ALL, rows, |world, (settings, delay)| {
        let pool = Pool::of(rt, world, settings)?;
        world.connects.goes("----------");
        let get = pool.begin(LONG)?;
        for failed in 1..11 {
            pool.until(|status| status.failed_openings == failed)?;
            world.pass(delay);
            // A worker in a thread of its own may begin its sleep after that.
            let goes_on = || {
                let status = pool.status();
                status.failed_openings > failed || status.connections == 1
            };
            for _ in 0..100 {
                if world.kind != Kind::Spawned || world.glimpse(goes_on) {
                    break;
                }
                world.pass(delay);
            }
        }
        assert!(rt; pool.end(get)?.is_ok());
        let status = pool.status();
        equal((status.failed_openings, status.failed_checks), (10, 0))
    })
}

// Another one is not opened in its place until then. A pool for tasks checks none here.
#[test]
fn try_get_looks_on_after_a_failed_check(rt: HostRuntime) -> Result<(), Fail> {
    let row = "checks -; connects ~+*; find a=0; is checks.asked=2";
    on_text(rt, &THREADS, full(2).checked(), row)
}

// A detached connection failed no check, and the customizer refuses the one after it. Later what
// comes back is broken, and the first opening in its place fails: twice.
#[test]
fn what_failed_is_counted(rt: HostRuntime) -> Result<(), Fail> {
    let row = "is failed_openings=0; shows -; get a; detach a; shed; until failed_openings=1
        pass 50; until idle=1; is failed_openings=1 failed_checks=0
        checks -; use; is failed_openings=1 failed_checks=1
        get a; pass 20000; breaks -; connects -; is latest=50; back a; until failed_openings=2
        is latest=20050; pass 180000; until idle=1; is latest=20050
        get a; pass 20000; breaks -; connects -; is latest=20050; back a; until failed_openings=3
        is latest=220050; pass 180000; until idle=1; is latest=220050";
    on_text(rt, &ALL, full(1).checked().retried(), row)
}

// A check begins at 20 s, and fails once it took its five seconds; the next is that of a new
// connection. The caller has the thirty seconds of the pool, however soon openings are tried again.
// Later steps do not fail.
#[test]
fn a_status_tells_when_a_check_failed(rt: HostRuntime) -> Result<(), Fail> {
    let row = "pass 1000; use; is latest=-; pass 19000; checks 5-; ask p=own; take p=1
        is checks.asked=3 failed_openings=0 failed_checks=1 latest=25000
        pass 75000; back p; use; is latest=25000";
    on_text(rt, &ALL, full(1).checked().retried(), row)
}

#[test]
fn each_return_is_broken(rt: HostRuntime) -> Result<(), Fail> {
    on_pools(rt, &ALL, full(2), |world, pool| {
        world.breaks.goes("-*");
        for closed in 0..20 {
            assert_eq!(rt; world.dropped(), closed);
            drop(pool.get()?);
            assert!(rt; pool.status().connections <= 2);
        }
        let is_end = |told: &&Told| matches!(told, Ended(_));
        let ended = world.of_told(|told| told.iter().filter(is_end).count());
        assert_eq!(rt; (ended, world.dropped()), (Some(20), 20));
        drop(pool);
        assert!(rt; world.watch(|| world.ended() == 1));
        assert!(rt; world.opened() >= 20 && world.opened() <= 22);
        equal(world.dropped(), world.opened())
    })
}
