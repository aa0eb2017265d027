// The clock: one that cannot be read, at which moments steps are made, and how often it is read.

use crate::rows::*;
use std::sync::atomic::{AtomicBool, Ordering};
use std::time::Instant;

// All records of a pool that goes have this moment, and nothing is left of it.
fn records_at<R: Host>(pool: Pool<R>, count: usize, at: Duration) -> Result<(), Fail> {
    let (world, report) = (pool.world, pool.journal()?);
    let is_so = report.records.len() == count && report.records.iter().all(|it| it.at() == at);
    if !is_so || pool.uptime() != 0 {
        return Err(Fail::from("other moments"));
    }
    drop(pool);
    world.watch(|| world.ended() == 1);
    if (world.ended(), world.dropped()) != (1, 1) {
        return Err(Fail::from("something is left of the pool"));
    }
    Ok(())
}

// It can be read later, and the time since the making still cannot.
#[test]
fn a_clock_that_cannot_be_read_at_the_making(rt: HostRuntime) -> Result<(), Fail> {
    on_each(rt, &ALL, |world| {
        world.readings.goes("-*");
        let pool = Pool::of(rt, world, full(1).recorded(16))?;
        drop(pool.get()?);
        world.readings.goes("");
        world.pass(7_000);
        drop(pool.get()?);
        records_at(pool, 5, length(0))
    })
}

// Each moment from then on is the latest that was read. A wait ends in time all the same: a thread
// waits by the true clock.
#[test]
fn a_clock_that_cannot_be_read_later(rt: HostRuntime) -> Result<(), Fail> {
    on_pools(rt, &ALL, SMALL.recorded(16), |world, pool| {
        world.pass(7_000);
        let lent = pool.get()?;
        world.readings.goes("-*");
        world.pass(1_000);
        let begun = Instant::now(&rt)?;
        pool.gives_up(100)?;
        let waited = begun.elapsed(&rt)?;
        assert!(rt; world.kind.is_of_tasks() || waited >= length(100));
        drop(lent);
        records_at(pool, 4, length(7_000))
    })
}

// A connection of a pool that is a thousand seconds old comes back broken, and wakes a caller,
// which orders one that does not come. One reading since the return fails.
#[test]
fn a_caller_gives_up_in_time_whichever_reading_fails(rt: HostRuntime) -> Result<(), Fail> {
    let readings = [
        "-", "+-", "++-", "+++-", "++++-", "+++++-", "++++++-", "+++++++-",
    ];
    let row = "get a; pass 1000000; breaks -; connects ~+; ask p=100; readings $1; back a
        beside p connects.hung=1|timeouts=1; pass 100; late p";
    on_texts(rt, &ALL, readings.map(|readings| (SMALL, readings)), row)
}

// Its opening fails twice, when the pool is a thousand seconds old, and is due again 50 ms later.
// The reading after the second failure fails.
#[test]
fn a_worker_is_in_time_though_a_reading_fails(rt: HostRuntime) -> Result<(), Fail> {
    let row = "connects 1000-~-; made; until failed_openings=1; pass 50; opening 1; readings +-
        go connects; until failed_openings=2; pass 50; until idle=1";
    on_text(rt, &ALL, full(1).retried().unawaited(), row)
}

// The only worker is at an opening until the end, and so reads no clock. Where one step stops at
// its reading, no other one comes to its own. A return reads the clock for its event before.
#[test]
fn a_step_reads_its_moment_under_the_lock(rt: HostRuntime) -> Result<(), Fail> {
    let row = "connects +~+; get a b; opening 1; mark readings; readings +~+; away a
        watch readings.hung=1; away b; watch readings.more>=3; never readings.more>=4
        go readings; join; is readings.more=4";
    on_text(rt, &ALL, full(1).most(3), row)
}

// An eviction has to wait for its memory until a return stops. So it comes to its own reading only
// after that.
#[test]
fn an_eviction_reads_its_moment_under_the_lock(rt: HostRuntime) -> Result<(), Fail> {
    let row = "connects +~+; get a b; opening 1; mark readings; allocs ~+; evicting 1
        watch allocs.hung=1; readings +~+; away a; watch readings.hung=1; go allocs
        never readings.more>=3; go readings; join; is readings.more=3";
    on_text(rt, &ALL, full(1).most(3), row)
}

fn kinds_of(is_quiet: bool) -> &'static [Kind] {
    if is_quiet { &QUIET } else { &ALL }
}

// A pool whose events somebody is told of, or nobody.
fn told<R: Host>(
    rt: R,
    world: &'static World,
    is_quiet: bool,
    settings: Settings,
) -> Result<Pool<R>, Fail> {
    if is_quiet {
        return Pool::quiet(rt, world, |own| *own = settings);
    }
    Pool::of(rt, world, settings)
}

// The same, with one connection; its only worker is at a second opening until the end, and so reads
// no clock.
fn of_one<R: Host>(
    rt: R,
    world: &'static World,
    is_quiet: bool,
    settings: Settings,
) -> Result<Pool<R>, Fail> {
    world.connects.goes("+~+");
    let pool = told(rt, world, is_quiet, settings.most(2).idle(2).unawaited())?;
    pool.until_opening(1)?;
    world.pass(10_000);
    Ok(pool)
}

/// When one was lent, and how often the clock was read for that and for the return; and how often
/// in between by who found none.
type Seen = (u64, u64, u64);

fn seen<R: Host>(world: &World, pool: &Pool<R>) -> Result<Seen, Fail> {
    world.readings.goes("1+*");
    let lent = pool.get()?;
    let (lent_at, used) = (lent.lent_at(), world.readings.asked_since());
    let is_missed = pool.try_get()?.is_none();
    let all = world.readings.asked_since();
    drop(lent);
    let returned = world.readings.asked_since() - all;
    if is_missed {
        return Ok((lent_at, used + returned, all - used));
    }
    Err(Fail::from("lent twice"))
}

// For the steps, once more after a check, and for what is told, where somebody is told of events.
// It moves on by a second at each reading. The pool is ten seconds old. One that need not be
// checked is lent at its take, where nobody is told.
#[test]
fn how_often_the_clock_is_read(rt: HostRuntime) -> Result<(), Fail> {
    let rarely = SMALL.checked_after(3_600_000);
    for (is_quiet, settings, of_threads, of_tasks) in [
        (true, SMALL, (10_000, 2, 0), (10_000, 2, 1)),
        (true, rarely, (10_000, 2, 0), (10_000, 2, 1)),
        (true, SMALL.checked(), (11_000, 3, 0), (11_000, 3, 1)),
        (false, SMALL, (12_000, 5, 1), (11_000, 4, 1)),
        (false, rarely, (12_000, 5, 1), (11_000, 4, 1)),
        (false, SMALL.checked(), (12_000, 5, 1), (11_000, 4, 1)),
    ] {
        for kind in kinds_of(is_quiet) {
            let is_so = AtomicBool::new(false);
            // A worker that comes to its rest late may read it too.
            for _ in 0..3 {
                if is_so.load(Ordering::SeqCst) {
                    break;
                }
                on_each(rt, &[*kind], |world| {
                    let pool = of_one(rt, world, is_quiet, settings)?;
                    let wanted = if kind.is_of_tasks() {
                        of_tasks
                    } else {
                        of_threads
                    };
                    is_so.store(seen(world, &pool)? == wanted, Ordering::SeqCst);
                    Ok(())
                })?;
            }
            assert!(rt; is_so.load(Ordering::SeqCst), "{kind:?} {is_quiet}");
        }
    }
    Ok(())
}

// A caller begins at 10 s, and waits for the one connection, which comes back at 20 s. The journal
// has the moments of the take and of the next return.
#[test]
fn who_had_to_wait_is_lent_one_after_its_take(rt: HostRuntime) -> Result<(), Fail> {
    for is_quiet in [false, true] {
        let settings = [SMALL, SMALL.checked()];
        on_rows(rt, kinds_of(is_quiet), settings, |world, settings| {
            let pool = told(rt, world, is_quiet, settings.recorded(16))?;
            world.pass(10_000);
            let lent = pool.get()?;
            let get = pool.begin(LONG)?;
            world.pass(10_000);
            world.readings.goes("1+*");
            drop(lent);
            let lent = pool.end(get)??;
            let lent_at = lent.lent_at();
            drop(lent);
            let report = pool.journal()?;
            let [
                ..,
                Record::Taken { at: taken, .. },
                Record::Kept { at: kept, .. },
            ] = report.records.as_slice()
            else {
                return Err(Fail::from("it was not taken, or not kept"));
            };
            let (taken, kept) = (milliseconds(*taken), milliseconds(*kept));
            let in_turn = 20_000 < taken && taken <= lent_at && lent_at < kept;
            assert!(rt; in_turn, "{taken} {lent_at} {kept}");
            Ok(())
        })?;
    }
    Ok(())
}

#[test]
fn who_waits_does_so_since_its_first_reading(rt: HostRuntime) -> Result<(), Fail> {
    for is_quiet in [false, true] {
        on_each(rt, kinds_of(is_quiet), |world| {
            let pool = of_one(rt, world, is_quiet, SMALL)?;
            let lent = pool.get()?;
            world.readings.goes("1+*");
            let get = pool.begin(LONG)?;
            assert_eq!(rt; pool.waits(), (1, Some(10_000)));
            drop(lent);
            pool.serves(get)
        })?;
    }
    Ok(())
}
