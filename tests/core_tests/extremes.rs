// What no line of a script can say: the greatest moment, which is no whole number of milliseconds,
// and the last ids.

use crate::checks::{legal, same};
use core_uses::machine::{Machine, lines_of};
use core_uses::makers::{book_from_id_in, core_from_id_in};
use core_uses::steps::{admit, begin, fail, ms, number, put_back, sized, take};
use pool_lines::program::line::Line;
use r2d2_core::run::run;
use r2d2_core::schedule::delay;
use r2d2_core::{LendingOrder, LimitSettings, Limits, Step};
use std::alloc::{AllocError, Global};
use std::process::Abort;
use std::str;
use std::time::Duration;

// One connection, and a second for each length of time that has to be given.
fn brief() -> LimitSettings {
    LimitSettings {
        max_size: 1,
        min_idle: None,
        max_lifetime: None,
        idle_timeout: None,
        connection_timeout: ms(1000),
        reap_every: ms(1000),
        order: LendingOrder::NewestFirst,
    }
}

// The lines of the steps, and a look at the state.
fn lines(alloc: Global, steps: Vec<Step<u64>>) -> Result<Vec<Line>, AllocError> {
    let mut lines = Vec::new(alloc);
    for step in steps {
        lines.push(Line::Step(step))?;
    }
    lines.push(Line::State)?;
    Ok(lines)
}

// A core and a book of those limits, whose ids begin at the first one, answer the steps so.
fn answers<R: Abort + AllocGlobal, const N: usize>(
    rt: &R,
    limits: Option<Limits>,
    first_id: u64,
    steps: [Step<u64>; N],
    wanted: &str,
) {
    let (alloc, limits) = (rt.alloc(), legal(rt, limits));
    let steps = Vec::from_array(alloc, steps).expect(rt, "a list");
    let again = lines(alloc, steps.clone().expect(rt, "a list")).expect(rt, "lines");
    let steps = lines(alloc, steps).expect(rt, "lines");
    let mut core = core_from_id_in(alloc, limits, first_id).expect(rt, "a core");
    let mut book = book_from_id_in(alloc, limits, first_id, 0).expect(rt, "a book");
    for written in [
        lines_of(alloc, &mut core, steps),
        lines_of(alloc, &mut book, again),
    ] {
        let written = written.expect(rt, "answers");
        same(
            rt,
            str::from_utf8(written.as_slice()).expect(rt, "a text"),
            wanted,
        );
    }
}

#[test]
fn uses_ids_up(rt: HostRuntime) {
    let (last, steps) = (
        u64::MAX - 1,
        [
            begin(0),
            begin(0),
            number(0),
            number(0),
            fail(0, 0),
            begin(0),
        ],
    );
    let wanted = "open 0\nopen 0\nnumbered 18446744073709551614\nrefused IdsUsedUp\nretry 400\n\
        wait 400\nstate 0 0 2\n";
    answers(&rt, sized(2), last, steps, wanted);
}

#[test]
fn stops_at_the_greatest_moment(rt: HostRuntime) {
    let now = Duration::MAX;
    let failing = Step::Fail {
        now,
        tries: 0,
        text: None,
    };
    let wanted = "open 0\nretry 18446744073709551615999.999999\nopen 1\nstate 0 0 1\n";
    answers(
        &rt,
        sized(1),
        0,
        [Step::Begin { now }, failing, Step::Begin { now }],
        wanted,
    );
    let limits = LimitSettings {
        max_lifetime: Some(ms(1)),
        reap_every: now,
        ..brief()
    }
    .limits();
    let wanted = "open 0\nreap\nreap\nstate 0 0 1\n";
    answers(
        &rt,
        limits,
        0,
        [Step::Begin { now }, begin(0), begin(0)],
        wanted,
    );
}

#[test]
fn lengths_up_to_the_greatest_moment(rt: HostRuntime) {
    let now = Duration::MAX;
    let back = Step::PutBack {
        now,
        id: 0,
        value: 7,
        broken: false,
    };
    let limits = LimitSettings {
        max_lifetime: Some(now),
        ..brief()
    }
    .limits();
    let wanted = "open 0\nnumbered 0\nadmitted\ntaken 0 7 ordered 0\n\
        gone 0 age 18446744073709551615999.999999 ordered 1\nstate 0 0 1\n";
    answers(
        &rt,
        limits,
        0,
        [begin(0), number(0), admit(0, 0, 7), take(0), back],
        wanted,
    );
    let kept = "reaped ordered 0\ntaken 0 7 ordered 0\nstate 1 0 0\n";
    let reaped = "reaped 0 ordered 1\nempty ordered 0\nstate 0 0 1\n";
    for (admitted, wanted) in [(1, kept), (0, reaped)] {
        let limits = LimitSettings {
            idle_timeout: Some(now),
            ..brief()
        }
        .limits();
        let steps = [
            begin(0),
            number(0),
            admit(admitted, 0, 7),
            Step::Reap { now },
            take(0),
        ];
        let wanted = format!(in rt.alloc(); "open 0\nnumbered 0\nadmitted\n{wanted}");
        answers(&rt, limits, 0, steps, wanted.expect(&rt, "a text").as_str());
    }
}

#[test]
fn the_greatest_numbers_of_strangers(rt: HostRuntime) {
    let bad = Step::FailCheck {
        now: ms(0),
        id: u64::MAX,
        text: None,
    };
    let steps = [
        begin(0),
        number(u32::MAX),
        fail(0, u32::MAX),
        number(0),
        admit(0, u64::MAX, 7),
        bad,
        put_back(0, u64::MAX, 7),
    ];
    let wanted = "open 0\nrefused NoOpening\nrefused NoOpening\nnumbered 0\nrefused NotNumbered\n\
        refused NotLent\nrefused NotLent\nstate 0 0 1\n";
    answers(&rt, sized(1), 0, steps, wanted);
}

#[test]
fn no_steps_at_all(rt: HostRuntime) {
    let steps = Vec::new(rt.alloc());
    let ran = run::<u64>(rt.alloc(), legal(&rt, sized(3)), ms(5), steps);
    let (core, answers) = ran.expect(&rt, "a run");
    same(&rt, (answers.len(), core.state()), (0, (0, 0, 3)));
}

#[test]
fn delays(rt: HostRuntime) {
    let half = Duration::new(9_223_372_036_854_775_807, 999_999_999);
    let cases = [
        (ms(30_000), 0, ms(200)),
        (Duration::from_nanos(1), 1, Duration::ZERO),
        (
            Duration::MAX,
            65,
            Duration::new(7_378_697_629_483_820_646, 400_000_000),
        ),
        (Duration::MAX, 66, half),
        (Duration::MAX, 67, half),
        (Duration::MAX, u32::MAX, half),
    ];
    for (timeout, k, wanted) in cases {
        assert_eq!(rt; delay(timeout, k), wanted, "the delay {k} at {timeout:?}");
    }
}
