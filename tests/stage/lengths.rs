// The lengths and ages that events tell, why a connection is released, and how long each lives.
// Each pool is some seconds old before anything happens.

use crate::rows::*;

// One comes at once, and the next waits for its return. It is held since its lending, whatever it
// is used for. The last use takes 5 s, and asking whether it broke 4 s more.
#[test]
fn how_long_events_say(rt: HostRuntime) -> Result<(), Fail> {
    let row = "pass 7000; use; forget; pass 2000; find a; hear c0; ask p; pass 3000; keep a=7
        pass 1000; back a; take p; at p=13000; hear r0,4000 c0,4000; pass 5000; breaks 4-; back p
        hear r0,5000 g0,15000,Broken e0";
    on_text(rt, &ALL, SMALL, row)
}

// The connection is 3 s old as its check begins, which takes 2 s. That of the next one takes 3 s,
// and asking whether it broke 4 s. The wait is from the call to the lending.
#[test]
fn a_failed_check_tells_the_age_at_its_end(rt: HostRuntime) -> Result<(), Fail> {
    let row = "pass 7000; use; forget; pass 3000; checks 2-3+; breaks 4-; connects ~+; ask p
        hear K1 g0,5000,CheckFailed e0; opening 1; go connects; take p; at p=15000
        hear s1 a1 c1,5000; back p; hear r1 g1,7000,Broken e1";
    on_text(rt, &ALL, SMALL.checked(), row)
}

// It takes 15 s to tell something. The second time it is detached: it is as old as at the step
// after its event, and nobody asks whether it is broken.
#[test]
fn one_is_lent_before_its_event(rt: HostRuntime) -> Result<(), Fail> {
    let row = "pass 7000; use; forget; hears 15+*; get a; at a=7000; pass 1000; back a
        hear c0 r0,16000; get b=0; hear c0; pass 4000; breaks -; detach b
        hear r0,19000 g0,65000,Detached; is breaks.asked=2 dropped=0";
    on_text(rt, &ALL, SMALL, row)
}

// Two connections are opened 7 s after the pool was made. 200 s later one of them comes back
// broken, which wakes the workers, and the other one is expired.
#[test]
fn a_reap_tells_why_and_the_age(rt: HostRuntime) -> Result<(), Fail> {
    let two = full(2);
    let rows = [
        (two.expiring(100_000), "Idle"),
        (two.living(100_000), "Lifetime"),
        (two.living(200_000).expiring(200_000), "Lifetime"),
        (two.living(200_001).expiring(200_000), "Idle"),
        (two.living(200_000).expiring(200_001), "Lifetime"),
    ];
    let row = "pass 7000; evict 2; until idle=2; get a=3; breaks -; pass 200000; back a
        until idle=2; once g3,200000,Broken g2,200000,$1";
    on_texts(rt, &ALL, rows, row)?;
    let row = "until idle=2; get a=1 b=0; back b; pass 5; back a; forget; pass 119995
        until idle=2; hear g0,120000,Idle e0 g1,120000,Idle e1 s2 a2 s3 a3";
    on_text(rt, &BY_HAND, two.expiring(100_000), row)
}

// It is lent at 0, and comes back after 10,000 s. Meanwhile it broke, there was an eviction, the
// pool was closed, and its lifetime ended. A jitter is no lifetime.
#[test]
fn of_several_reasons_the_first_is_told(rt: HostRuntime) -> Result<(), Fail> {
    let (old, mut ageless) = (SMALL.living(10_000_000), SMALL);
    ageless.lifetime_jitter = Some(180_000);
    let rows = [
        (SMALL, "+ / / "),
        (ageless, "+ / / "),
        (SMALL, "- / / g0,10000000,Broken e0"),
        (SMALL, "+ / evict 0 / g0,10000000,Evicted e0"),
        (SMALL, "+ / close / g0,10000000,PoolClosed e0"),
        (old, "+ / / g0,10000000,Lifetime e0"),
        (old, "- / evict 0; close / g0,10000000,Broken e0"),
        (old, "+ / evict 0; close / g0,10000000,Evicted e0"),
        (old, "+ / close / g0,10000000,PoolClosed e0"),
    ];
    let row = "get a; breaks $1; pass 10000000; $2; forget; back a; hear r0,10000000 $3";
    on_texts(rt, &ALL, rows, row)
}

// The first connection comes back broken at 10,000 s, and another is opened then. Its own lifetime
// is 1,620 s to 1,800 s.
#[test]
fn a_lifetime_begins_with_the_opening(rt: HostRuntime) -> Result<(), Fail> {
    let row = "breaks -; get a; pass 10000000; back a; once g0,10000000,Broken; until idle=1
        pass 1619000; use; is idle=1; get b; pass 181000; connects ~+; forget; back b
        hear r1,181000 g1,1800000,Lifetime e1";
    let settings = jittered(1_800_000, Some(180_000)).most(1).idle(1);
    on_text(rt, &ALL, settings, row)
}

// Sixty-four connections are opened together, and live so long.
fn jittered(lifetime: u64, jitter: Option<u64>) -> Settings {
    let mut settings = full(64).living(lifetime);
    settings.lifetime_jitter = jitter;
    settings
}

// All that are idle are lent, and come back.
fn turned<R: Host>(world: &World, pool: &Pool<R>) -> Result<(), Fail> {
    let mut lent = Vec::new(world.rt.alloc());
    while let Some(one) = pool.try_get()? {
        lent.push(one)?;
    }
    Ok(())
}

/// The ids and ages, in milliseconds, of those that were closed.
type Ages = Vec<(u64, u64)>;

// Those that are closed of connections that all come back each tenth second from 1,600 to 1,800 s.
// None are opened in their place.
fn closed_at_last<R: Host>(world: &World, pool: &Pool<R>) -> Result<Ages, Fail> {
    world.connects.goes("~+*");
    world.pass(1_590_000);
    for _ in 0..21 {
        world.pass(10_000);
        turned(world, pool)?;
    }
    // What a reap closed is told of later.
    let is_gone = |it: &&Told| matches!(it, Release(_, _, Lifetime));
    let count = || world.of_told(|told| told.iter().filter(is_gone).count());
    world.watch(|| count() == Some(64));
    let mut ages = Vec::new(world.rt.alloc());
    let listed = world.of_told(|told| -> Result<(), AllocError> {
        for it in told {
            if let Release(id, age, Lifetime) = it {
                ages.push((*id, *age))?;
            }
        }
        Ok(())
    });
    listed.unwrap_or(Ok(()))?;
    world.connects.goes("");
    world.let_go(&world.connects);
    if ages.len() != 64 {
        return Err(Fail::from("not all were closed"));
    }
    Ok(ages)
}

// How many were closed at this age.
fn closed_at(ages: &Ages, age: u64) -> usize {
    ages.iter().filter(|it| it.1 == age).count()
}

// Also where the time of day cannot be read.
#[test]
fn lifetimes_differ_by_at_most_the_jitter(rt: HostRuntime) -> Result<(), Fail> {
    let rows = [
        (None, ""),
        (Some(0), ""),
        (Some(180_000), ""),
        (Some(180_000), "-*"),
    ];
    on_rows(rt, &ALL, rows, |world, (jitter, days)| {
        world.days.goes(days);
        let pool = Pool::of(rt, world, jittered(1_800_000, jitter))?;
        let ages = closed_at_last(world, &pool)?;
        if jitter != Some(180_000) {
            assert_eq!(rt; closed_at(&ages, 1_800_000), 64);
            return Ok(());
        }
        let least = ages.iter().map(|it| it.1).min().unwrap_or(0);
        let most = ages.iter().map(|it| it.1).max().unwrap_or(0);
        assert!(rt; 1_620_000 <= least && least < 1_680_000, "{least}");
        assert!(rt; 1_740_000 < most && most <= 1_800_000, "{most}");
        let is_spread = (162..181).all(|age| closed_at(&ages, age * 10_000) <= 8);
        assert!(rt; is_spread, "{ages:?}");
        Ok(())
    })
}

// Those of 1,799.6 to 1,800.4 s.
#[test]
fn a_jitter_may_be_less_than_a_second(rt: HostRuntime) -> Result<(), Fail> {
    on_pools(rt, &ALL, jittered(1_800_400, Some(800)), |world, pool| {
        world.connects.goes("~+*");
        world.pass(1_798_000);
        let mut left = [0; 3];
        for left in left.iter_mut() {
            world.pass(1_000);
            turned(world, &pool)?;
            *left = pool.status().connections;
        }
        assert_eq!(rt; (left[0], left[2]), (64, 0));
        assert!(rt; 8 < left[1] && left[1] < 56, "{left:?}");
        Ok(())
    })
}

// The time of day shows other nanoseconds when the second one is made.
#[test]
fn lifetimes_differ_from_pool_to_pool(rt: HostRuntime) -> Result<(), Fail> {
    on_each(rt, &ALL, |world| {
        let settings = jittered(1_800_000, Some(180_000));
        let one = closed_at_last(world, &Pool::of(rt, world, settings)?)?;
        world.forget();
        world.pass(1);
        let other = closed_at_last(world, &Pool::of(rt, world, settings)?)?;
        holds(one.as_slice() != other.as_slice())
    })
}
