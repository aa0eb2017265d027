// Steps at random, from fixed seeds: `run` and a book answer as the plain reading says, and each
// report is as it says.

use crate::checks::{heap_of, rest_of};
use crate::plain::Plain;
use crate::random_steps::{limits, next_step};
use core_uses::makers::{answered, book_in, report_in};
use linked_list_allocator::LocalHeap;
use r2d2_core::run::run;
use r2d2_core::{Book, Limits, Step};
use rand_core::SeedableRng;
use rand_pcg::Pcg32;
use std::alloc::{AllocError, Allocator, Global};
use std::process::Abort;
use std::time::Duration;

const HISTORIES: usize = 2500;

const STEPS: usize = 40;

/// The history of a seed, so far.
#[derive(Drop)]
struct History {
    rng: Pcg32,
    limits: Limits,
    made: Duration,
    plain: Plain,
    steps: Vec<Step<u64>>,
}

// That of a pool which is made so many milliseconds after zero.
fn history_of<R: Abort + AllocGlobal>(rt: &R, seed: usize, made: usize) -> History {
    let mut rng = Pcg32::seed_from_u64(seed as u64);
    let made = Duration::from_millis(made as u64);
    let limits = limits(&mut rng).expect(rt, "limits");
    History {
        rng,
        limits,
        made,
        plain: Plain::new(rt.alloc(), limits, made).expect(rt, "a plain reading"),
        steps: Vec::new(rt.alloc()),
    }
}

impl History {
    // A book of it in that memory, with room for so many records.
    fn book<R: Abort, A: Allocator + Copy>(&self, rt: &R, alloc: A, room: usize) -> Book<u64, A> {
        book_in(alloc, self.limits, self.made, room).expect(rt, "a book")
    }

    // Takes a next step by the book, and says whether it is answered as the plain reading says.
    fn step<A: Allocator>(
        &mut self,
        alloc: Global,
        book: &mut Book<u64, A>,
    ) -> Result<bool, AllocError> {
        let step = next_step(alloc, &mut self.rng, &self.plain)?;
        let answer = answered(alloc, book, step.clone()?)?;
        let is_right = self.plain.answers(&step, answer)?;
        self.steps.push(step)?;
        Ok(is_right)
    }

    // The place of the first step so far that `run` answers otherwise than a plain reading.
    fn first_unlike_by_run(&self, alloc: Global) -> Result<Option<usize>, AllocError> {
        let (core, answers) = run(alloc, self.limits, self.made, self.steps.clone()?)?;
        drop(core);
        let mut plain = Plain::new(alloc, self.limits, self.made)?;
        for (place, (step, answer)) in self.steps.iter().zip(answers).enumerate() {
            if !plain.answers(step, answer)? {
                return Ok(Some(place));
            }
        }
        Ok(None)
    }
}

// The book, which has room for so many records, reports what it has to.
fn reports<R: Abort + AllocGlobal>(rt: &R, history: &History, book: &Book<u64>, room: usize) {
    let report = report_in(book, rt.alloc()).expect(rt, "a report");
    let does_replay = report.replays().expect(rt, "a replay");
    let is_reported = history.plain.is_reported(&report, room);
    drop(report);
    assert!(rt;
        does_replay && is_reported.expect(rt, "a report"),
        "at {room}"
    );
}

fn answers_next<R: Abort + AllocGlobal, A: Allocator>(
    rt: &R,
    history: &mut History,
    book: &mut Book<u64, A>,
) {
    let is_right = history.step(rt.alloc(), book);
    assert!(rt;
        is_right.expect(rt, "an answer"),
        "at {}",
        history.steps.len()
    );
}

fn run_answers<R: Abort + AllocGlobal>(rt: &R, seed: usize, history: &History) {
    let unlike = history.first_unlike_by_run(rt.alloc());
    assert_eq!(rt; unlike.expect(rt, "answers"), None, "at {seed}");
}

#[test]
fn a_hundred_thousand_steps(rt: HostRuntime) {
    for seed in 0..HISTORIES {
        let mut history = history_of(&rt, seed, seed);
        let mut book = history.book(&rt, rt.alloc(), STEPS);
        for _ in 0..STEPS {
            answers_next(&rt, &mut history, &mut book);
        }
        reports(&rt, &history, &book, STEPS);
        run_answers(&rt, seed, &history);
        drop((history, book));
    }
}

// The book has that room for records, and reports after each step.
fn reports_at_each_step<R: Abort + AllocGlobal>(rt: &R, seed: usize, room: usize) {
    let mut history = history_of(rt, seed, seed);
    let mut book = history.book(rt, rt.alloc(), room);
    for _ in 0..STEPS {
        answers_next(rt, &mut history, &mut book);
        reports(rt, &history, &book, room);
    }
    drop((history, book));
}

#[test]
fn each_report_is_right_whatever_was_dropped(rt: HostRuntime) {
    for seed in 0..200 {
        for room in [0usize, 1, 7, 64] {
            reports_at_each_step(&rt, seed, room);
        }
    }
}

// A book that has no more memory answers each step.
fn a_full_book_answers<R: Abort + AllocGlobal>(rt: &R, seed: usize, heap: &LocalHeap) {
    let mut history = history_of(rt, seed, 0);
    let mut book = history.book(rt, heap, STEPS);
    let rest = rest_of(rt, heap, 0);
    assert_eq!(rt; heap.free(), 0);
    for _ in 0..STEPS {
        answers_next(rt, &mut history, &mut book);
    }
    drop((history, rest, book));
}

#[test]
fn a_book_needs_no_memory_after_its_making(rt: HostRuntime) {
    for seed in 0..50 {
        let heap = heap_of(&rt, 1 << 14);
        a_full_book_answers(&rt, seed, &heap);
    }
}
