// What is closed because its database has moved, what a caller takes out of a pool for good, and
// what stays.

use crate::rows::*;

// Several times, so that workers wait as they are evicted.
#[test]
fn what_is_idle_is_closed_at_once(rt: HostRuntime) -> Result<(), Fail> {
    let row = "evict 3; is dropped=3; until idle=3; is connects.asked=6
        evict 3; is dropped=6; until idle=3; is connects.asked=9
        evict 3; is dropped=9; until idle=3; is connects.asked=12
        evict 3; is dropped=12; until idle=3; is connects.asked=15
        evict 3; is dropped=15; until idle=3; is connects.asked=18
        get a; id a=17; back a; get a; id a=17; back a; get a; id a=17; back a; is dropped=15";
    on_text(rt, &ALL, full(3), row)
}

// What is opened afterwards stays.
#[test]
fn what_is_lent_is_closed_as_it_comes_back(rt: HostRuntime) -> Result<(), Fail> {
    let row = "get a b; evict 0; get c; id a=0 b=1 c=2; is connections=3 lent=3
        back c; is idle=1 dropped=0; back a; is connections=2 dropped=1
        back b; is connections=1 dropped=2; get d; id d=2; back d; evict 1; is dropped=3";
    on_text(rt, &ALL, SMALL.most(3), row)
}

// Later, what comes in the place of an evicted one fails once, and then does not come.
#[test]
fn who_waits_is_served_by_a_new_one(rt: HostRuntime) -> Result<(), Fail> {
    let row = "get a; ask p; evict 0; waits p; back a; take p; id p=1; back p; connects -~+; evict 1
        until failed_openings=1; ask q=50; pass 50; late q; says connect 2
        is connections=0 opening=1";
    on_text(rt, &ALL, full(1), row)
}

// They are opened at 3 s, and evicted at 10 s.
#[test]
fn events_and_the_customizer_are_told_in_the_lending_order(rt: HostRuntime) -> Result<(), Fail> {
    let row = "pass 3000; get a b; back a b; pass 7000; forget; evict 2
        hear g$1,7000,Evicted e$1 g$2,7000,Evicted e$2";
    let [newest, oldest] = [NewestFirst, OldestFirst].map(|order| SMALL.most(2).ordered(order));
    on_texts(rt, &ALL, [(newest, "1/0"), (oldest, "0/1")], row)
}

// A take and a return, at one moment.
#[test]
fn the_journal_tells_of_an_eviction(rt: HostRuntime) -> Result<(), Fail> {
    on_pools(rt, &ALL, SMALL.recorded(100), |world, pool| {
        drop(pool.get()?);
        world.pass(7_000);
        assert_eq!(rt; pool.evict()?, 1);
        let report = pool.audit()?;
        assert!(rt; report.replays()?);
        assert_eq!(rt; (report.connections, report.takes), (0, 2));
        let [.., take, end] = report.records.as_slice() else {
            return Err(Fail::from("too few records"));
        };
        let (at, id, ordered) = (length(7_000), 0, 0);
        assert_eq!(rt; *take, Record::Taken { at, id, ordered });
        equal(*end, Record::Closed { at, id, ordered })
    })
}

#[test]
fn a_detached_connection_is_the_callers(rt: HostRuntime) -> Result<(), Fail> {
    on_lent(rt, &ALL, SMALL.most(2), |world, pool, mut lent| {
        lent.write(12);
        let wire = lent.detach();
        let status = pool.status();
        assert_eq!(rt; (status.connections, status.lent), (0, 0));
        assert_eq!(rt; (status.idle, status.opening), (0, 0));
        let report = pool.audit()?;
        assert_eq!(rt; (report.connections, report.takes), (0, 1));
        assert!(rt; !report.closed && report.replays()?);
        pool.ended()?;
        assert_eq!(rt; (wire.mark, world.dropped()), (12, 0));
        drop(wire);
        equal(world.dropped(), 1)
    })
}

// For one that waits, and for one that comes later. Nothing is wrong where the pool is gone.
#[test]
fn another_one_is_opened_in_its_place(rt: HostRuntime) -> Result<(), Fail> {
    on_play(rt, &ALL, full(1), |mut play| {
        play.run("get a; ask p; waits p; detach a; take p; id p=1; detach p; get b=2; id b=2")?;
        play.run("is connects.asked=3 connections=1; part; detach b; end")?;
        // A worker may have come with one more.
        equal(play.world.opened() - play.world.dropped(), 3)
    })
}

// Lends a connection so many times; now and then it keeps one for good, or evicts what is idle. How
// often it was lent one, and how many it kept and evicted.
fn amid<R: Host>(rt: R, calls: &Calls<R>) -> (u64, u64, u64) {
    let (mut found, mut kept, mut evicted) = (0, 0, 0);
    for time in 0..1_000 {
        if let Ok(lent) = calls.get(rt) {
            found += 1;
            if time % 16 == 7 {
                drop(lent.detach());
                kept += 1;
            }
        }
        if time % 32 == 9 {
            evicted += calls.evict(rt).unwrap_or(0) as u64;
        }
    }
    (found, kept, evicted)
}

#[test]
fn nothing_is_lost_amid_evictions_detaches_and_a_drain(rt: HostRuntime) -> Result<(), Fail> {
    let settings = SMALL.most(6).idle(2).workers(3).recorded(100);
    on_pools(rt, &BESIDE, settings, |world, pool| {
        let mut threads = Vec::new(rt.alloc());
        for _ in 0..8 {
            threads.push(pool.aside(move |calls| amid(rt, calls))?)?;
        }
        let mut takes = 0;
        for thread in threads {
            let (found, kept, evicted) = thread.join(&rt);
            assert_eq!(rt; (found, kept), (1_000, 63));
            takes += found + evicted;
        }
        let report = pool.audit()?;
        assert!(rt; report.takes == takes && report.replays()?);
        assert_eq!(rt; pool.drained(pool.drain(LONG)?)?, Ok(()));
        pool.ended()?;
        equal(world.dropped(), world.opened())
    })
}

// Lends and evicts for as long as that goes well; whether the pool is closed then.
fn evict_until_closed<R: Host>(rt: R, calls: &Calls<R>) -> bool {
    let fails = |_| calls.get(rt).is_err() || calls.evict(rt).is_err();
    (0..1_000_000).any(fails) && calls.status().closed
}

// Once so many were opened.
#[test]
fn a_pool_closes_amid_evictions(rt: HostRuntime) -> Result<(), Fail> {
    let counts = [2, 3, 4, 5, 7, 10, 20, 40, 80, 160];
    on_rows(rt, &BESIDE, counts, |world, opened| {
        let pool = Pool::of(rt, world, SMALL.most(3).idle(2).workers(3))?;
        let mut threads = Vec::new(rt.alloc());
        for _ in 0..4 {
            threads.push(pool.aside(move |calls| evict_until_closed(rt, calls))?)?;
        }
        assert!(rt; world.watch(|| world.opened() >= opened));
        assert_eq!(rt; pool.drained(pool.drain(LONG)?)?, Ok(()));
        for thread in threads {
            assert!(rt; thread.join(&rt));
        }
        pool.ended()?;
        equal(world.dropped(), world.opened())
    })
}
