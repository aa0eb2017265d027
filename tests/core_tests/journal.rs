// The journal of a book, what it reports, and the base of that: what stood before its records.

use crate::checks::{
    book_of, does_replay, heap_of, is_made, legal, report_of, rest_of, same, same_at, take_all,
};
use core_uses::makers::{book_from_id_in, book_in, report_in};
use core_uses::steps::{
    admit, begin, close, limits, ms, number, put_back, reap, sized, take, want,
};
use r2d2_core::{Book, LendingOrder, Limits, Record, Report, Step};
use std::alloc::Allocator;
use std::process::Abort;
use std::time::Duration;

// One connection comes in, is taken, and comes back.
fn one_kept() -> [Step<u64>; 5] {
    [
        begin(0),
        number(0),
        admit(1, 0, 7),
        take(2),
        put_back(3, 0, 7),
    ]
}

// What a book with room for so many records reports of it.
fn report_of_one_kept<R: Abort + AllocGlobal>(rt: &R, order: LendingOrder, room: usize) -> Report {
    let mut book = book_of(rt, Some(legal(rt, sized(1)).with_order(order)), room);
    take_all(rt, &mut book, one_kept());
    report_of(rt, &book)
}

// How many a report shows as idle and lent, how many records were lost, and how many are connected
// and pending. Its records come to that.
fn standing<R: Abort + AllocGlobal>(rt: &R, report: &Report) -> (usize, usize, u64, u32, u32) {
    assert!(rt; does_replay(rt, report));
    let (idle, lent) = (report.idle.len(), report.lent.len());
    (idle, lent, report.lost, report.connections, report.pending)
}

// The base is that of the making where no record was dropped.
#[test]
fn keeps_the_newest_records(rt: HostRuntime) {
    let all = [
        Record::Admitted { at: ms(1), id: 0 },
        Record::Taken {
            at: ms(2),
            id: 0,
            ordered: 0,
        },
        Record::Kept { at: ms(3), id: 0 },
    ];
    for order in [LendingOrder::NewestFirst, LendingOrder::OldestFirst] {
        for (room, lost, idle, lent) in [
            (4, 0, 0, 0),
            (3, 0, 0, 0),
            (2, 1, 1, 0),
            (1, 2, 0, 1),
            (0, 3, 1, 0),
        ] {
            let report = report_of_one_kept(&rt, order, room);
            same_at(&rt, room, report.records.as_slice(), &all[lost..]);
            same_at(&rt, room, report.idle.as_slice(), &[0u64][..]);
            same_at(&rt, room, standing(&rt, &report), (1, 0, lost as u64, 1, 0));
            let (base, since) = (&report.base, ms(lost as u64));
            same_at(&rt, room, (base.at, base.lent.len()), (since, lent));
            same_at(
                &rt,
                room,
                base.idle.as_slice(),
                &[(0u64, ms(1), since)][..idle],
            );
            let (connections, pending) = if lost == 0 { (0, 1) } else { (1, 0) };
            same_at(
                &rt,
                room,
                (base.connections, base.pending),
                (connections, pending),
            );
            assert!(rt; !report.closed && !base.closed);
        }
    }
}

#[test]
fn a_base_with_a_connection_too_many_is_found_out(rt: HostRuntime) {
    let mut report = report_of_one_kept(&rt, LendingOrder::NewestFirst, 2);
    report.base.connections = 2;
    assert!(rt; !does_replay(&rt, &report));
}

// Two connections come in and are closed by a reap; then there is one miss.
fn two_reaped<R: Abort + AllocGlobal>(rt: &R) -> Book<u64> {
    let mut book = book_of(rt, limits(2, None, None, Some(1000), 30_000, 30_000), 4);
    take_all(rt, &mut book, [begin(0), begin(0), number(0), number(0)]);
    take_all(
        rt,
        &mut book,
        [
            admit(0, 0, 70),
            admit(0, 1, 71),
            reap(999),
            reap(1000),
            want(1001),
        ],
    );
    book
}

#[test]
fn reports_what_a_reap_and_a_close_did(rt: HostRuntime) {
    let mut book = two_reaped(&rt);
    let report = report_of(&rt, &book);
    let all = [
        Record::Admitted { at: ms(0), id: 0 },
        Record::Admitted { at: ms(0), id: 1 },
        Record::Reaped {
            at: ms(1000),
            ordered: 2,
        },
        Record::ClosedAll { at: ms(1001) },
    ];
    same(&rt, report.records.as_slice(), &all[..3]);
    same(
        &rt,
        (standing(&rt, &report), report.closed),
        ((0, 0, 0, 0, 2), false),
    );
    // It is closed, and closed again.
    take_all(&rt, &mut book, [close(), close()]);
    let report = report_of(&rt, &book);
    same(&rt, report.records.as_slice(), &all[..]);
    same(
        &rt,
        (standing(&rt, &report), report.closed),
        ((0, 0, 0, 0, 0), true),
    );
}

// Where the heap has no more room, a report is refused; with other memory it is made.
#[test]
fn a_report_takes_memory(rt: HostRuntime) {
    let heap = heap_of(&rt, 8192);
    let book = book_in(&heap, legal(&rt, sized(1)), Duration::ZERO, 16);
    let mut book = book.expect(&rt, "a book");
    let rest = rest_of(&rt, &heap, 0);
    take_all(&rt, &mut book, one_kept());
    assert!(rt; !is_made(book.report()));
    let report = report_in(&book, rt.alloc()).expect(&rt, "a report");
    same(&rt, report.records.len(), 3);
    assert!(rt; does_replay(&rt, &report));
    drop((rest, book));
}

fn is_refused<A: Allocator + Copy>(alloc: A, limits: Limits, room: usize) -> bool {
    !is_made(book_in(alloc, limits, Duration::ZERO, room))
}

#[test]
fn a_huge_room_is_refused_at_the_making(rt: HostRuntime) {
    let limits = legal(&rt, sized(1));
    for room in [usize::MAX, 1 << 60, 1 << 50] {
        assert!(rt; is_refused(rt.alloc(), limits, room), "at {room}");
    }
    let heap = heap_of(&rt, 8192);
    assert!(rt; is_refused(&heap, limits, 1000));
    same(&rt, heap.used(), 0);
    assert!(rt; is_made(book_from_id_in(&heap, limits, 5, 0)));
}
