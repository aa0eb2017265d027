// Many threads, and calls that fail at random: none is served wrongly, nothing is lost, and each
// report of the journal replays, whatever room there is for records.

use crate::rows::*;
use std::process::Abort;
use std::sync::Arc;
use std::sync::atomic::{AtomicU64, Ordering};

const CALLERS: u64 = 16;

/// How often each thread lends.
const TIMES: u64 = 200;

/// How often it lends for each report that it reads.
const TIMES_A_REPORT: u64 = 100;

/// Room for more records than are made.
const ROOM_FOR_ALL: usize = 100_000;

/// What the threads saw: how often they found a connection, and how many of their reports replay.
#[derive(Drop)]
struct Seen {
    found: AtomicU64,
    replayed: AtomicU64,
    ended: AtomicU64,
}

// One thread: it lends a connection so many times, and reads a report now and then.
fn lend_and_read<R: Host>(pool: Pool<R>, seen: Arc<Seen>) {
    for time in 0..TIMES {
        if pool.get_within(600_000_000).is_ok() {
            seen.found.fetch_add(1, Ordering::SeqCst);
        }
        if time % TIMES_A_REPORT == 0 && pool.replays() {
            seen.replayed.fetch_add(1, Ordering::SeqCst);
        }
    }
    seen.ended.fetch_add(1, Ordering::SeqCst);
}

// The clock moves on as they run. At the end two more connections are lent: the journal counts each
// take that found one, those included whose check failed.
fn stressed<R: Host + Abort>(rt: R, world: &'static World, room: usize) -> Result<(), Fail> {
    let pool = Pool::of(
        rt,
        world,
        full(8).workers(3).checked().retried().recorded(room),
    )?;
    world.connects.goes("32?*");
    world.checks.goes("256?*");
    world.breaks.goes("256?*");
    let seen = Seen {
        found: AtomicU64::new(0),
        replayed: AtomicU64::new(0),
        ended: AtomicU64::new(0),
    };
    let seen = Arc::new(rt.alloc(), seen)?;
    for _ in 0..CALLERS {
        let (theirs, notes) = (pool.try_clone()?, Arc::try_clone(&seen)?);
        thread::spawn(&rt, move || lend_and_read(theirs, notes))?;
    }
    let ended = || {
        world.pass(50);
        seen.ended.load(Ordering::SeqCst) == CALLERS
    };
    while !world.watch(ended) {}
    let found = seen.found.load(Ordering::SeqCst);
    let replayed = seen.replayed.load(Ordering::SeqCst);
    let wanted = (CALLERS * TIMES, CALLERS * TIMES / TIMES_A_REPORT);
    assert_eq!(rt; (found, replayed), wanted);
    assert_eq!(rt; world.most_sound(), 8);
    let lent = (pool.get()?, pool.get()?);
    let report = pool.journal()?;
    assert_eq!(rt; (report.replays(), report.lent.len()), (Ok(true), 2));
    assert_eq!(rt; report.takes, found + 2 + pool.status().failed_checks);
    let is_whole = report.lost == 0;
    assert_eq!(rt; is_whole, room == ROOM_FOR_ALL);
    assert!(rt; is_whole || report.records.len() == room);
    drop(lent);
    drop(pool);
    holds(world.watch(|| world.ended() == 1 && world.dropped() == world.opened()))
}

#[test]
fn stress(rt: HostRuntime) -> Result<(), Fail> {
    let rooms = [0, 1, 7, 64, ROOM_FOR_ALL];
    on_rows(rt, &BESIDE, rooms, |world, room| stressed(rt, world, room))
}
