// What the tests call; each stops the test where it fails.

use core_uses::makers::{answered, book_in, core_in};
use linked_list_allocator::LocalHeap;
use r2d2_core::{Book, Core, Limits, Report, Step};
use std::alloc::{AllocError, Allocator};
use std::fmt::Debug;
use std::process::Abort;
use std::time::Duration;

pub(crate) fn same<R: Abort, T: PartialEq + Debug + Drop>(rt: &R, given: T, wanted: T) {
    assert_eq!(rt; given, wanted);
}

// The same in a row of its number.
pub(crate) fn same_at<R: Abort, T: PartialEq + Debug + Drop>(
    rt: &R,
    number: usize,
    given: T,
    wanted: T,
) {
    assert_eq!(rt; given, wanted, "at {number}");
}

pub(crate) fn legal<R: Abort>(rt: &R, limits: Option<Limits>) -> Limits {
    limits.expect(rt, "limits")
}

pub(crate) fn core_of<R: Abort + AllocGlobal>(rt: &R, limits: Option<Limits>) -> Core<u64> {
    core_in(rt.alloc(), legal(rt, limits)).expect(rt, "a core")
}

// A book that keeps so many records.
pub(crate) fn book_of<R: Abort + AllocGlobal>(
    rt: &R,
    limits: Option<Limits>,
    room: usize,
) -> Book<u64> {
    book_in(rt.alloc(), legal(rt, limits), Duration::ZERO, room).expect(rt, "a book")
}

pub(crate) fn heap_of<R: Abort + AllocGlobal>(rt: &R, size: usize) -> LocalHeap {
    LocalHeap::new(rt.alloc(), size).expect(rt, "a heap")
}

pub(crate) fn is_made<T: Drop>(made: Result<T, AllocError>) -> bool {
    made.is_ok()
}

// What is left of the heap, but for so many bytes.
pub(crate) fn rest_of<'a, R: Abort>(
    rt: &R,
    heap: &'a LocalHeap,
    spared: usize,
) -> Vec<u8, &'a LocalHeap> {
    Vec::with_capacity(heap, heap.free().saturating_sub(spared)).expect(rt, "the rest")
}

// Takes the steps by a book.
pub(crate) fn take_all<R: Abort + AllocGlobal, A: Allocator, const N: usize>(
    rt: &R,
    book: &mut Book<u64, A>,
    steps: [Step<u64>; N],
) {
    for step in steps {
        drop(answered(rt.alloc(), book, step).expect(rt, "an answer"));
    }
}

pub(crate) fn report_of<R: Abort>(rt: &R, book: &Book<u64>) -> Report {
    book.report().expect(rt, "a report")
}

pub(crate) fn does_replay<R: Abort>(rt: &R, report: &Report) -> bool {
    report.replays().expect(rt, "a replay")
}
