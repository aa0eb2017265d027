// The records that a pool keeps, how many takes it counts, and what comes of each outcome of each
// call, in each place of a connection's life.

use crate::rows::*;

// It comes back broken the second time.
#[test]
fn journal_shows_take(rt: HostRuntime) -> Result<(), Fail> {
    on_play(rt, &ALL, full(1).recorded(100), |mut play| {
        play.run("breaks +-; pass 7000; use; use; get a")?;
        let report = play.pool.journal()?;
        let (made, at, id, ordered) = (length(0), length(7_000), 0, 0);
        let wanted = [
            Record::Admitted { at: made, id },
            Record::Taken { at, id, ordered },
            Record::Kept { at, id },
            Record::Taken { at, id, ordered },
            Record::Closed { at, id, ordered: 1 },
            Record::Admitted { at, id: 1 },
            Record::Taken { at, id: 1, ordered },
        ];
        assert_eq!(rt; report.records.as_slice(), wanted.as_slice());
        assert_eq!(rt; report.lent.as_slice(), [1].as_slice());
        assert!(rt; report.idle.is_empty() && report.lost == 0);
        equal((report.connections, report.pending), (1, 0))
    })
}

#[test]
fn journal_of_a_fresh_pool(rt: HostRuntime) -> Result<(), Fail> {
    on_each(rt, &ALL, |world| {
        world.connects.goes("~+*");
        let pool = Pool::of(rt, world, SMALL.most(3).idle(2).unawaited())?;
        let report = pool.journal()?;
        assert_eq!(rt; report.limits.max_size(), 3);
        assert!(rt; report.records.is_empty() && report.lost == 0);
        assert!(rt; report.idle.is_empty() && report.lent.is_empty());
        let counts = (report.connections, report.pending, report.closed);
        equal(counts, (0, 2, false))
    })
}

// Four threads lend three times each, and this one twice more. The first check fails.
#[test]
fn counted(rt: HostRuntime) -> Result<(), Fail> {
    on_pools(rt, &ALL, full(2).checked().recorded(100), |world, pool| {
        world.checks.goes("-");
        let mut threads = Vec::new(rt.alloc());
        for _ in 0..4 {
            let lends = move |calls: &Calls<_>| (0..3).all(|_| calls.get(rt).is_ok());
            threads.push(pool.aside(lends)?)?;
        }
        for thread in threads {
            assert!(rt; thread.join(&rt));
        }
        drop(pool.get()?);
        drop(pool.try_get()?.ok_or("none is idle")?);
        let report = pool.audit()?;
        let records = report.records.as_slice().iter();
        let taken = records.filter(|record| matches!(record, Record::Taken { .. }));
        equal((report.takes, taken.count(), report.lost), (15, 15, 0))
    })
}

// All that was told, a letter for each: a connection was shown to the customizer (s), acquired (a),
// checked out (c), returned (r), let go (g), handed to the customizer at its end (e), and dropped
// (d), with its number or id; or a connect (C), a showing (S) or a check (K) failed, with its own
// number.
fn letters(world: &World) -> Result<String, Fail> {
    let mut text = String::new(world.rt.alloc());
    let written = world.of_told(|told| -> Result<(), AllocError> {
        for it in told {
            let (letter, number) = match it {
                Shown(number) => ('s', *number),
                Acquire(id) => ('a', *id),
                Checkout(id, _) => ('c', *id),
                Checkin(id, _) => ('r', *id),
                Release(id, _, _) => ('g', *id),
                Ended(number) => ('e', *number),
                Dropped(number) => ('d', *number),
                Failed(Connect(number)) => ('C', *number),
                Failed(Sorry::Shown(number)) => ('S', *number),
                Failed(Check(number)) => ('K', *number),
                Timeout(length) => ('T', *length),
            };
            write!(text, "{letter}{number} ")?;
        }
        Ok(())
    });
    written.unwrap_or(Ok(()))?;
    Ok(text)
}

// How the connects, the showings, the checks and the looks at what comes back go, and how many are
// idle before the pool is dropped; and all that is told.
const LIVES: [&str; 16] = [
    "+ + + + 1: s0 a0 c0 r0 c0 r0 d0",
    "- + + + 1: C0 s0 a0 c0 r0 c0 r0 d0",
    "-- + + + 1: C0 C1 s0 a0 c0 r0 c0 r0 d0",
    "+ - + + 1: s0 d0 S0 s1 a0 c0 r0 c0 r0 d1",
    "- - + + 1: C0 s0 d0 S0 s1 a0 c0 r0 c0 r0 d1",
    "+- - + + 1: s0 d0 S0 C1 s1 a0 c0 r0 c0 r0 d1",
    "+ + - + 1: s0 a0 K0 g0 e0 d0 s1 a1 c1 r1 c1 r1 d1",
    "+ + +- + 1: s0 a0 c0 r0 K1 g0 e0 d0 s1 a1 c1 r1 d1",
    "+ + -- + 1: s0 a0 K0 g0 e0 d0 s1 a1 K1 g1 e1 d1 s2 a2 c2 r2 c2 r2 d2",
    "+ + + - 1: s0 a0 c0 r0 g0 e0 d0 s1 a1 c1 r1 d1",
    "+ + + +- 0: s0 a0 c0 r0 c0 r0 g0 e0 d0",
    "+ + + -- 0: s0 a0 c0 r0 g0 e0 d0 s1 a1 c1 r1 g1 e1 d1",
    // What goes badly with the connection that comes after a broken one.
    "+- + + - 1: s0 a0 c0 r0 g0 e0 d0 C1 s1 a1 c1 r1 d1",
    "+ +- + - 1: s0 a0 c0 r0 g0 e0 d0 s1 d1 S1 s2 a1 c1 r1 d2",
    "+ + +- - 1: s0 a0 c0 r0 g0 e0 d0 s1 a1 K1 g1 e1 d1 s2 a2 c2 r2 d2",
    "- - - - 1: C0 s0 d0 S0 s1 a0 K0 g0 e1 d1 s2 a1 c1 r1 g1 e2 d2 s3 a2 c2 r2 d3",
];

// A connection is lent twice, one after the other. Nothing is opened but on order of a caller, by
// one worker, so all comes in order; and what was opened is dropped, each once.
#[test]
fn each_outcome_in_each_place(rt: HostRuntime) -> Result<(), Fail> {
    on_rows(rt, &ALL, LIVES, |world, row| {
        let pool = Pool::of(rt, world, SMALL.checked().retried().recorded(32))?;
        world.tell_drops();
        let (signs, told) = row.split_once(": ").ok_or("no row")?;
        let mut signs = signs.split_whitespace();
        for script in [&world.connects, &world.shows, &world.checks, &world.breaks] {
            script.goes(signs.next().ok_or("too few signs")?);
        }
        for _ in 0..2 {
            let mut get = pool.begin(LONG)?;
            pool.ends_in_time(&mut get);
            pool.serves(get)?;
        }
        let (report, idle) = (pool.journal()?, u32::from(signs.next() == Some("1")));
        assert_eq!(rt; (report.connections, report.pending), (idle, 0));
        assert!(rt; report.lost == 0 && report.lent.is_empty());
        assert_eq!(rt; pool.status().idle, idle);
        drop(pool);
        assert!(rt; world.watch(|| world.ended() == 1));
        assert_eq!(rt; letters(world)?.as_str().trim_end(), told);
        equal(world.dropped(), world.opened())
    })
}

// What the journal has of a check that fails.
#[test]
fn check_script(rt: HostRuntime) -> Result<(), Fail> {
    on_pools(rt, &ALL, full(1).checked().recorded(16), |world, pool| {
        world.checks.goes("-");
        let _lent = pool.get()?;
        let report = pool.journal()?;
        let (at, id, ordered) = (length(0), 0, 0);
        let wanted = [
            Record::Admitted { at, id },
            Record::Taken { at, id, ordered },
            Record::Closed { at, id, ordered: 1 },
            Record::Admitted { at, id: 1 },
            Record::Taken { at, id: 1, ordered },
        ];
        assert_eq!(rt; report.records.as_slice(), wanted.as_slice());
        equal((report.lost, report.lent.as_slice()), (0, [1].as_slice()))
    })
}
