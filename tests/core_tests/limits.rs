// What limits say of themselves, what a close leaves, and the caller of `core_uses`.

use crate::checks::{book_of, core_of, legal, same};
use core_uses::caller::{discard, lend, open};
use core_uses::steps::{limits, ms, sized};
use r2d2_core::{Core, LendingOrder, Limits};
use std::process::Abort;
use std::time::Duration;

// The size, the number that is to be idle, how many are wanted, and the order.
fn sizes(limits: Limits) -> (u32, Option<u32>, u32, LendingOrder) {
    (
        limits.max_size(),
        limits.min_idle(),
        limits.wanted(),
        limits.order(),
    )
}

// The longest age and idle time, the timeout of a connection, and the time from reap to reap.
fn lengths(limits: Limits) -> (Option<Duration>, Option<Duration>, Duration, Duration) {
    let longest = (limits.max_lifetime(), limits.idle_timeout());
    (
        longest.0,
        longest.1,
        limits.connection_timeout(),
        limits.reap_every(),
    )
}

#[test]
fn gives_back_what_they_were_made_of(rt: HostRuntime) {
    let given = legal(&rt, limits(5, Some(2), Some(40_000), Some(1000), 700, 30));
    same(
        &rt,
        sizes(given),
        (5, Some(2), 2, LendingOrder::NewestFirst),
    );
    same(
        &rt,
        lengths(given),
        (Some(ms(40_000)), Some(ms(1000)), ms(700), ms(30)),
    );
    // All are wanted idle where no number is given.
    let all = legal(&rt, sized(5));
    same(&rt, sizes(all), (5, None, 5, LendingOrder::NewestFirst));
    same(&rt, lengths(all), (None, None, ms(30_000), ms(30_000)));
}

#[test]
fn a_core_and_a_book_keep_their_limits(rt: HostRuntime) {
    let given = legal(&rt, limits(5, Some(2), None, None, 700, 30));
    let given = Some(given.with_order(LendingOrder::OldestFirst));
    for kept in [
        core_of(&rt, given).limits(),
        book_of(&rt, given, 1).limits(),
    ] {
        same(&rt, sizes(kept), (5, Some(2), 2, LendingOrder::OldestFirst));
        same(&rt, lengths(kept), (None, None, ms(700), ms(30)));
    }
}

#[test]
fn refuses_limits(rt: HostRuntime) {
    for (max_size, min_idle, lifetime, idle, timeout, every) in [
        (0, None, None, None, 30_000, 30_000),
        (5, Some(6), None, None, 30_000, 30_000),
        (5, None, Some(0), None, 30_000, 30_000),
        (5, None, None, Some(0), 30_000, 30_000),
        (5, None, None, None, 0, 30_000),
        (5, None, None, None, 30_000, 0),
    ] {
        let refused = limits(max_size, min_idle, lifetime, idle, timeout, every);
        assert!(rt;
            refused.is_none(),
            "{max_size} {min_idle:?} {lifetime:?} {idle:?} {timeout}"
        );
    }
    assert!(rt; limits(5, Some(5), Some(1), Some(1), 1, 1).is_some());
}

#[test]
fn says_that_it_is_closed(rt: HostRuntime) {
    let (mut core, mut book) = (core_of(&rt, sized(1)), book_of(&rt, sized(1), 1));
    same(&rt, (core.is_closed(), book.is_closed()), (false, false));
    core.close();
    book.close();
    same(&rt, (core.is_closed(), book.is_closed()), (true, true));
}

// What a close hands out.
fn left<R: Abort + AllocGlobal>(rt: &R, core: &mut Core<u64>) -> Vec<(u64, u64)> {
    core.close().collect(rt.alloc()).expect(rt, "a list")
}

#[test]
fn hands_out_what_was_idle(rt: HostRuntime) {
    let mut core = core_of(&rt, sized(1));
    core.begin(ms(0));
    same(&rt, core.number(0).expect(&rt, "an id"), 0);
    assert!(rt; core.admit(ms(1), 0, 73).is_ok());
    same(&rt, left(&rt, &mut core).as_slice(), &[(0u64, 73u64)][..]);
    assert!(rt; left(&rt, &mut core).is_empty());
}

#[test]
fn a_caller_counts_what_is_lent(rt: HostRuntime) {
    let mut core = core_of(&rt, sized(2));
    let mut lent = 0;
    for (value, is_opened) in [(70, true), (71, true), (72, false)] {
        same(&rt, open(&mut core, &lent, ms(0), value), is_opened);
    }
    for found in [Some((1, 71)), Some((0, 70)), None] {
        same(&rt, lend(&mut core, &mut lent, ms(1)), found);
    }
    same(&rt, lent, 2);
    assert!(rt; discard(&mut core, &mut lent, ms(2), 1));
    assert!(rt; !discard(&mut core, &mut lent, ms(2), 1));
    same(&rt, lent, 1);
}
