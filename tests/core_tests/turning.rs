// Reaps after the idle connections have turned round and round.

use crate::checks::{book_of, report_of, same, take_all};
use core_uses::steps::{admit, begin, limits, ms, number};
use r2d2_core::{Book, Released, Take};
use std::alloc::{AllocError, Global};
use std::process::Abort;

// Takes so many at the moment, and gives them back: at even moments the one that was lent first
// comes back first, at odd ones last. It answers how many came back.
fn lend_and_return(
    alloc: Global,
    book: &mut Book<u64>,
    now: u64,
    count: u64,
) -> Result<u64, AllocError> {
    let mut lent = Vec::new(alloc);
    for _ in 0..count {
        if let Take::Found { id, value, .. } = book.take(ms(now), false) {
            lent.push((id, value))?;
        }
    }
    if now % 2 == 1 {
        lent.reverse();
    }
    let mut returned = 0u64;
    for (id, value) in lent {
        if book.put_back(ms(now), id, value, false).is_ok() {
            returned = returned.saturating_add(1);
        }
    }
    Ok(returned)
}

// The ids of those that a reap closes.
fn closed_by_a_reap<R: Abort + AllocGlobal>(rt: &R, book: &mut Book<u64>, now: u64) -> Vec<u64> {
    let room = book.limits().max_size() as usize;
    let mut released: Vec<Released<u64>> = Vec::with_capacity(rt.alloc(), room).expect(rt, "room");
    book.reap(ms(now), &mut released);
    released
        .iter()
        .map(|closed| closed.id)
        .collect(rt.alloc())
        .expect(rt, "ids")
}

fn three<R: Abort + AllocGlobal>(rt: &R) -> Book<u64> {
    let mut book = book_of(rt, limits(3, None, None, Some(600), 30_000, 30_000), 0);
    take_all(
        rt,
        &mut book,
        [
            begin(0),
            begin(0),
            begin(0),
            number(0),
            number(0),
            number(0),
        ],
    );
    take_all(
        rt,
        &mut book,
        [admit(0, 0, 70), admit(0, 1, 71), admit(0, 2, 72)],
    );
    book
}

// Of the three one, two or three at a time are lent and given back, a thousand in all.
fn return_a_thousand<R: Abort + AllocGlobal>(rt: &R, book: &mut Book<u64>) {
    let mut left = 1000u64;
    for now in 1..=500u64 {
        let count = (1 + now % 3).min(left);
        let returned = lend_and_return(rt.alloc(), book, now, count).expect(rt, "returns");
        left = left.saturating_sub(returned);
    }
    assert_eq!(rt; left, 0);
}

// The newest is lent first, and a return is the newest: so 1 is idle since 497, and 0 and then 2
// since 500.
#[test]
fn reaps_after_a_thousand_returns(rt: HostRuntime) {
    let mut book = three(&rt);
    return_a_thousand(&rt, &mut book);
    same(
        &rt,
        report_of(&rt, &book).idle.as_slice(),
        &[1u64, 0, 2][..],
    );
    let none: &[u64] = &[];
    for (now, closed, idle) in [
        (1096, none, &[1u64, 0, 2][..]),
        (1097, &[1], &[0, 2]),
        (1100, &[0, 2], none),
    ] {
        same(
            &rt,
            closed_by_a_reap(&rt, &mut book, now).as_slice(),
            closed,
        );
        same(&rt, report_of(&rt, &book).idle.as_slice(), idle);
    }
    same(&rt, (book.idle(), book.pending()), (0, 3));
}
