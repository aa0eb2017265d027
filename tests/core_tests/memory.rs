// Each request for memory refused in turn: on heaps that grow, until one is large enough. That no
// step takes any is shown by the rows, each of which is answered on a full heap too.

use crate::checks::{book_of, heap_of, is_made, legal, report_of, rest_of, same, same_at};
use core_uses::machine::Machine;
use core_uses::makers::{book_from_id_in, book_in, core_from_id_in, core_in, report_in};
use core_uses::steps::{limits, ms, sized};
use r2d2_core::schedule::Schedule;
use r2d2_core::{Book, Limits, Report, Take};
use std::alloc::{AllocError, Allocator};
use std::process::Abort;
use std::time::Duration;

// A heap of 16 bytes more each time has room for one request more at last.
const PARTS: usize = 160;

/// What is made.
#[derive(Clone, Copy, PartialEq)]
enum Maker {
    Schedule,
    Core,
    CoreFromId,
    Book,
    BookFromId,
}

fn small() -> Option<Limits> {
    limits(2, None, None, Some(1000), 30_000, 30_000)
}

// Whether there is room to make it in the memory.
fn has_room<A: Allocator + Copy>(alloc: A, maker: Maker, limits: Limits) -> bool {
    match maker {
        Maker::Schedule => is_made(Schedule::new(alloc, limits, Duration::ZERO)),
        Maker::Core => is_made(core_in(alloc, limits)),
        Maker::CoreFromId => is_made(core_from_id_in(alloc, limits, 9)),
        Maker::Book => is_made(book_in(alloc, limits, Duration::ZERO, 8)),
        Maker::BookFromId => is_made(book_from_id_in(alloc, limits, 9, 8)),
    }
}

// The last part that was refused, after all before it, where there are such parts and larger ones
// are not.
fn refused_until<R: Abort, F: Fn(usize) -> bool>(rt: &R, has_room: F) -> usize {
    let mut refused = 0;
    for part in 1..PARTS {
        if !has_room(part * 16) {
            same_at(rt, part, refused, part - 1);
            refused = part;
        }
    }
    assert!(rt; refused > 0 && refused < PARTS - 1, "{refused}");
    refused
}

// Whether there is room to make it in so many bytes. Nothing is left of it.
fn has_room_in<R: Abort + AllocGlobal>(rt: &R, maker: Maker, size: usize) -> bool {
    let heap = heap_of(rt, size);
    let has_room = has_room(&heap, maker, legal(rt, small()));
    same_at(rt, size, heap.used(), 0);
    has_room
}

#[test]
fn nothing_is_made_where_memory_is_refused(rt: HostRuntime) {
    for maker in [
        Maker::Schedule,
        Maker::Core,
        Maker::CoreFromId,
        Maker::Book,
        Maker::BookFromId,
    ] {
        let refused = refused_until(&rt, |size| has_room_in(&rt, maker, size));
        assert!(rt;
            maker != Maker::Core || 8 <= refused && refused < 24,
            "a core at {refused}"
        );
    }
}

// A core, and all that it left of the heap; so there is no room for another core.
#[test]
fn a_heap_can_be_full(rt: HostRuntime) {
    let (heap, limits) = (heap_of(&rt, 4096), legal(&rt, small()));
    let core = core_in(&heap, limits).expect(&rt, "a core");
    let rest = rest_of(&rt, &heap, 0);
    same(&rt, heap.free(), 0);
    assert!(rt; !is_made(core_in(&heap, limits)));
    drop((rest, core));
}

// Opens a connection.
fn open(book: &mut Book<u64>, now: u64, value: u64) {
    let _ = book.begin(ms(now));
    if let Ok(id) = book.number(0) {
        let _ = book.admit(ms(now), id, value);
    }
}

// A book in which something is idle, something lent, and something was closed.
fn lived<R: Abort + AllocGlobal>(rt: &R) -> Book<u64> {
    let mut book = book_of(rt, small(), 8);
    open(&mut book, 1, 70);
    open(&mut book, 2, 71);
    for (now, broken) in [(3, false), (5, true)] {
        let _ = book.take(ms(now), true);
        let _ = book.put_back(ms(now + 1), 1, 71, broken);
    }
    open(&mut book, 7, 72);
    let _ = book.take(ms(8), true);
    book
}

fn are_the_same<A: Allocator, B: Allocator>(one: &Report<A>, other: &Report<B>) -> bool {
    one.records.as_slice() == other.records.as_slice()
        && one.lost == other.lost
        && one.idle.as_slice() == other.idle.as_slice()
        && one.lent.as_slice() == other.lent.as_slice()
        && (one.connections, one.pending) == (other.connections, other.pending)
        && one.closed == other.closed
}

// Whether there is room for the report in so many bytes. Then it is as before; else nothing is left
// of it.
fn is_reported_in<R: Abort + AllocGlobal>(
    rt: &R,
    book: &Book<u64>,
    before: &Report,
    size: usize,
) -> bool {
    let heap = heap_of(rt, size);
    let is_reported = match report_in(book, &heap) {
        Ok(report) => {
            assert!(rt; are_the_same(&report, before), "at {size}");
            true
        }
        Err(_) => false,
    };
    same_at(rt, size, heap.used(), 0);
    assert!(rt; are_the_same(&report_of(rt, book), before), "at {size}");
    is_reported
}

#[test]
fn a_report_that_is_refused_changes_nothing(rt: HostRuntime) {
    let book = lived(&rt);
    let before = report_of(&rt, &book);
    same(
        &rt,
        (before.idle.len(), before.lent.len(), before.records.len()),
        (1, 1, 8),
    );
    refused_until(&rt, |size| is_reported_in(&rt, &book, &before, size));
}

// Whether a report of the book replays where so many bytes are left beside it, or as many as it has
// itself. A replay leaves nothing.
fn replays_with<R: Abort + AllocGlobal>(
    rt: &R,
    book: &Book<u64>,
    size: usize,
    left: Option<usize>,
) -> Result<bool, AllocError> {
    let heap = heap_of(rt, size);
    let report = report_in(book, &heap).expect(rt, "a report");
    let used = heap.used();
    let rest = rest_of(rt, &heap, left.unwrap_or(used));
    let does_replay = report.replays();
    drop(rest);
    same(rt, heap.used(), used);
    does_replay
}

#[test]
fn a_replay_that_is_refused_changes_nothing(rt: HostRuntime) {
    let book = lived(&rt);
    refused_until(
        &rt,
        |left| match replays_with(&rt, &book, 8192, Some(left)) {
            Ok(does_replay) => {
                assert!(rt; does_replay, "with {left}");
                true
            }
            Err(_) => false,
        },
    );
}

// A book of up to 32 connections, each of which was lent and came back, time and again, until some
// are lent for good.
fn busy<R: Abort + AllocGlobal>(rt: &R, room: usize) -> Book<u64> {
    let mut book = book_of(rt, limits(32, None, None, Some(1000), 30_000, 30_000), room);
    for id in 0..32 {
        open(&mut book, 1, id);
    }
    for turn in 0..200 {
        let _ = book.take(ms(2), true);
        let _ = book.take(ms(2), true);
        let _ = book.put_back(ms(3), turn % 32, 0, false);
    }
    book
}

#[test]
fn a_replay_needs_no_more_than_its_report(rt: HostRuntime) {
    for room in [0, 1, 7, 40, 64, 1000] {
        let does_replay = replays_with(&rt, &busy(&rt, room), 1 << 17, None);
        assert!(rt; does_replay.expect(&rt, "a replay"), "at {room}");
    }
}

// Whether a heap of 1 MiB has room for a core of that size.
fn has_room_for<R: Abort + AllocGlobal>(rt: &R, size: u32) -> bool {
    let heap = heap_of(rt, 1 << 20);
    is_made(core_in(&heap, legal(rt, sized(size))))
}

// It lends as many as it may have, and then no more.
#[test]
fn the_greatest_pool_of_a_heap(rt: HostRuntime) {
    let mut greatest = 0u32;
    // One binary digit after the other. A connection takes a byte at least.
    for place in 0..20u32 {
        let size = greatest | 0x8_0000 >> place;
        if has_room_for(&rt, size) {
            greatest = size;
        }
    }
    assert!(rt;
        greatest > 1000 && !has_room_for(&rt, greatest + 1),
        "{greatest}"
    );
    let heap = heap_of(&rt, 1 << 20);
    let mut core = core_in(&heap, legal(&rt, sized(greatest))).expect(&rt, "a core");
    for _ in 0..greatest {
        let _ = core.begin(ms(0));
        if let Ok(id) = core.number(0) {
            let _ = core.admit(ms(0), id, id);
        }
    }
    for _ in 0..greatest {
        assert!(rt; matches!(core.take(ms(1), true), Take::Found { .. }));
    }
    same(&rt, core.state(), (greatest, 0, 0));
    assert!(rt; matches!(core.take(ms(2), true), Take::Empty { ordered: 0 }));
}
