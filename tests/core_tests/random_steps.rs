// Limits and steps at random.

use crate::plain::Plain;
use r2d2_core::{LendingOrder, LimitSettings, Limits, Step};
use rand_core::Rng;
use rand_pcg::Pcg32;
use std::alloc::{AllocError, Global};
use std::time::Duration;

// A number below a bound, which is positive.
fn below(rng: &mut Pcg32, bound: u32) -> u32 {
    rng.next_u32() % bound.max(1)
}

fn chance(rng: &mut Pcg32, one_in: u32) -> bool {
    below(rng, one_in) == 0
}

// A length of time: short ones, and the extremes.
fn length(rng: &mut Pcg32) -> Duration {
    match below(rng, 8) {
        0 => Duration::from_nanos(1),
        1 => Duration::MAX,
        2 => Duration::from_secs(1),
        _ => Duration::from_millis(u64::from(below(rng, 40)).saturating_add(1)),
    }
}

fn maybe_length(rng: &mut Pcg32) -> Option<Duration> {
    if chance(rng, 2) {
        Some(length(rng))
    } else {
        None
    }
}

/// Legal limits, with either lending order.
pub(crate) fn limits(rng: &mut Pcg32) -> Option<Limits> {
    let max_size = below(rng, 5).saturating_add(1);
    let min_idle = if chance(rng, 2) {
        Some(below(rng, max_size.saturating_add(1)))
    } else {
        None
    };
    let (life, idle) = (maybe_length(rng), maybe_length(rng));
    let order = if chance(rng, 2) {
        LendingOrder::NewestFirst
    } else {
        LendingOrder::OldestFirst
    };
    LimitSettings {
        max_size,
        min_idle,
        max_lifetime: life,
        idle_timeout: idle,
        connection_timeout: length(rng),
        reap_every: length(rng),
        order,
    }
    .limits()
}

// Mostly a little after the latest moment; now and then before it, or as late as can be.
fn moment(rng: &mut Pcg32, latest: Duration) -> Duration {
    let some = Duration::from_millis(u64::from(below(rng, 30)));
    match below(rng, 200) {
        0 => Duration::MAX,
        1 => Duration::MAX.saturating_sub(some),
        2..20 => latest.saturating_sub(some),
        20..40 => latest,
        _ => latest.saturating_add(some),
    }
}

// Mostly one of the list, and now and then any other.
fn one_of(rng: &mut Pcg32, ids: &[u64]) -> u64 {
    let count = u32::try_from(ids.len()).unwrap_or(u32::MAX);
    let place = below(rng, count) as usize;
    match ids.get(place) {
        Some(id) if !chance(rng, 8) => *id,
        _ if chance(rng, 4) => u64::MAX - 1,
        _ => u64::from(below(rng, 20)),
    }
}

// Mostly those of an opening in work.
fn tries(rng: &mut Pcg32, in_work: &[u32]) -> u32 {
    match below(rng, 16) {
        0 => u32::MAX,
        1 => 99,
        2 => below(rng, 4),
        _ => in_work.first().copied().unwrap_or(0),
    }
}

fn text(alloc: Global, rng: &mut Pcg32) -> Result<Option<String>, AllocError> {
    if chance(rng, 3) {
        return Ok(None);
    }
    let number = below(rng, 1000);
    Ok(Some(format!(in alloc; "{number}")?))
}

/// A step that may be next.
pub(crate) fn next_step(
    alloc: Global,
    rng: &mut Pcg32,
    pool: &Plain,
) -> Result<Step<u64>, AllocError> {
    let now = moment(rng, pool.latest());
    Ok(match below(rng, 64) {
        0..12 => Step::Take {
            now,
            or_order: chance(rng, 2),
        },
        12..24 => Step::Begin { now },
        24..32 => Step::Number {
            tries: tries(rng, pool.in_work()),
        },
        32..42 => Step::Admit {
            now,
            id: one_of(rng, pool.numbered()),
            value: u64::from(below(rng, 1000)),
        },
        42..57 => return ending(alloc, rng, pool, now),
        57..61 => Step::Reap { now },
        61..63 => Step::TakeError,
        _ if chance(rng, 2) => Step::Close,
        _ => Step::Reap { now },
    })
}

// An opening fails, or a lent one comes to its end or back.
fn ending(
    alloc: Global,
    rng: &mut Pcg32,
    pool: &Plain,
    now: Duration,
) -> Result<Step<u64>, AllocError> {
    let id = one_of(rng, pool.lent_ids()?.as_slice());
    Ok(match below(rng, 15) {
        0..4 => Step::Fail {
            now,
            tries: tries(rng, pool.in_work()),
            text: text(alloc, rng)?,
        },
        4..7 => Step::FailCheck {
            now,
            id,
            text: text(alloc, rng)?,
        },
        _ => Step::PutBack {
            now,
            id,
            value: u64::from(below(rng, 1000)),
            broken: chance(rng, 5),
        },
    })
}
