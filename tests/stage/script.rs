// How the calls of one kind go, one after the other.

use futures::spin::lock;
use std::mem;
use std::sync::Mutex;
use std::sync::atomic::{AtomicU64, Ordering};

/// How one call goes.
#[derive(Clone, Copy)]
pub(crate) struct Outcome {
    pub(crate) goes_well: bool,
    /// By how many seconds the clock moves on meanwhile.
    pub(crate) seconds: u64,
    /// Where it waits to be let go first: which it is of those that do.
    pub(crate) hangs: Option<u64>,
    /// For so many milliseconds it is under way, while the clock is moved by others.
    pub(crate) lasts: u64,
    // Where it is random: one of so many fails.
    odds: u64,
    /// Which call it is, counted from 0.
    pub(crate) number: u64,
}

/// The outcomes of calls of one kind. `+` stands for one that goes well, and `-` for one that
/// fails. Before it may stand how many seconds it takes, and `~` where it hangs until it is let go,
/// or `5~` where it ends once the clock has moved on by 5 ms. `9?` fails at random, once in nine
/// calls. A last `*` repeats the outcome before it for ever, and a last `%` all of them; else each
/// call after the last sign goes well.
#[derive(Drop)]
pub(crate) struct Script {
    // The signs, and how many calls there were as they were set.
    signs: Mutex<(&'static str, u64)>,
    asked: AtomicU64,
    hung: AtomicU64,
    let_go: AtomicU64,
}

impl Script {
    /// Each call goes well.
    pub(crate) fn good() -> Script {
        Script {
            signs: Mutex::new(("", 0)),
            asked: AtomicU64::new(0),
            hung: AtomicU64::new(0),
            let_go: AtomicU64::new(0),
        }
    }

    /// From now on the calls go so.
    pub(crate) fn goes(&self, signs: &'static str) {
        if let Some(mut set) = lock(&self.signs) {
            *set = (signs, self.asked());
        }
    }

    /// How many calls there were.
    pub(crate) fn asked(&self) -> u64 {
        self.asked.load(Ordering::SeqCst)
    }

    /// How many of them came to hang, those among them that were let go.
    pub(crate) fn hung(&self) -> u64 {
        self.hung.load(Ordering::SeqCst)
    }

    /// How many there were since the signs were set.
    pub(crate) fn asked_since(&self) -> u64 {
        let before = lock(&self.signs).map_or(0, |set| set.1);
        self.asked() - before
    }

    /// Whether one hangs now.
    pub(crate) fn hangs(&self) -> bool {
        self.hung() > self.let_go.load(Ordering::SeqCst)
    }

    /// All that hang now go on.
    pub(crate) fn let_go(&self) {
        self.let_go.store(self.hung(), Ordering::SeqCst);
    }

    /// Whether the one that hung as this one goes on.
    pub(crate) fn goes_on(&self, hung: u64) -> bool {
        hung < self.let_go.load(Ordering::SeqCst)
    }

    /// One more call.
    pub(crate) fn next(&self) -> Outcome {
        let Some(set) = lock(&self.signs) else {
            return WELL;
        };
        let number = self.asked.fetch_add(1, Ordering::SeqCst);
        let (signs, since) = *set;
        let mut outcome = nth(signs, number.saturating_sub(since));
        if outcome.hangs.is_some() {
            outcome.hangs = Some(self.hung.fetch_add(1, Ordering::SeqCst));
        }
        if outcome.odds > 0 {
            outcome.goes_well = mixed(number) % outcome.odds > 0;
        }
        outcome.number = number;
        outcome
    }
}

const WELL: Outcome = Outcome {
    goes_well: true,
    seconds: 0,
    hangs: None,
    lasts: 0,
    odds: 0,
    number: 0,
};

// A number that looks random, the same for each call in each run.
fn mixed(number: u64) -> u64 {
    let roll = number.wrapping_add(1).wrapping_mul(0x9e37_79b9_7f4a_7c15);
    let mixed = (roll ^ (roll >> 30)).wrapping_mul(0xbf58_476d_1ce4_e5b9);
    let mixed = (mixed ^ (mixed >> 27)).wrapping_mul(0x94d0_49bb_1331_11eb);
    mixed ^ (mixed >> 31)
}

// The outcome at this place.
fn nth(signs: &str, place: u64) -> Outcome {
    let mut outcome = WELL;
    let mut latest = WELL;
    let mut left = place;
    for sign in signs.bytes() {
        match sign {
            b'~' if outcome.seconds > 0 => outcome.lasts = mem::take(&mut outcome.seconds),
            b'~' => outcome.hangs = Some(0),
            b'*' => return latest,
            b'%' => return nth(signs, place % (place - left)),
            b'+' | b'-' | b'?' => {
                outcome.goes_well = sign == b'+';
                if sign == b'?' {
                    outcome.odds = outcome.seconds;
                    outcome.seconds = 0;
                }
                if left == 0 {
                    return outcome;
                }
                left -= 1;
                latest = outcome;
                outcome = WELL;
            }
            _ => outcome.seconds = outcome.seconds * 10 + u64::from(sign - b'0'),
        }
    }
    WELL
}
