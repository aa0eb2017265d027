// Books that are driven here: by few words, or at random from fixed seeds.

use pool_reports::PoolStatus;
use r2d2_core::{Book, Job, LendingOrder, LimitSettings, Limits, Report, Step, Take};
use rand_core::{Rng, SeedableRng};
use rand_pcg::Pcg32;
use std::alloc::{AllocError, Global};
use std::fmt::Debug;
use std::process::Abort;
use std::test::Fail;
use std::time::Duration;

/// What the tests need of the runtime.
pub(crate) trait Host: AllocGlobal + Abort {}

impl<R: AllocGlobal + Abort> Host for R {}

pub(crate) fn ms(n: u64) -> Duration {
    Duration::from_millis(n)
}

/// What callers met who wait for 30 s at most, with a change.
pub(crate) fn met<F: FnOnce(&mut PoolStatus)>(change: F) -> PoolStatus {
    let mut status = PoolStatus {
        connection_timeout: ms(30_000),
        waiting: 0,
        waiting_since: None,
        timeouts: 0,
        refused: 0,
        failed_openings: 0,
        failed_checks: 0,
        latest_failure: None,
        waits: None,
    };
    change(&mut status);
    status
}

// A book with the moment of what is done to it, the ids that were numbered and not admitted, and
// those that it lent.
#[derive(Drop)]
struct Driven {
    alloc: Global,
    book: Book<u64>,
    now: Duration,
    numbered: Vec<u64>,
    lent: Vec<u64>,
}

// The one at this place of a list, counted round; it leaves the list.
fn pick(list: &mut Vec<u64>, place: u32) -> Option<u64> {
    let place = (place as usize).checked_rem(list.len())?;
    Some(list.remove(place))
}

impl Driven {
    // Of the lent ones the first comes back.
    fn follow(&mut self, deed: &str) -> Result<(), Fail> {
        match (deed, deed.strip_prefix('+')) {
            ("open", _) => drop(self.number().map(|id| self.admit(id))),
            ("take", _) => self.take(true)?,
            ("keep", _) => self.put_back(0, false),
            ("break", _) => self.put_back(0, true),
            ("reap", _) => self.reap()?,
            ("close", _) => drop(self.book.close()),
            (_, Some(later)) => self.now = self.now.saturating_add(ms(later.parse()?)),
            (moment, None) => self.now = ms(moment.parse()?),
        }
        Ok(())
    }

    fn over(alloc: Global, book: Book<u64>, now: Duration) -> Driven {
        let (numbered, lent) = (Vec::new(alloc), Vec::new(alloc));
        Driven {
            alloc,
            book,
            now,
            numbered,
            lent,
        }
    }

    // Begins the next opening that is due, and numbers it.
    fn number(&mut self) -> Option<u64> {
        let Job::Open { tries } = self.book.begin(self.now) else {
            return None;
        };
        self.book.number(tries).ok()
    }

    fn admit(&mut self, id: u64) {
        self.book.admit(self.now, id, id).ok();
    }

    fn take(&mut self, or_order: bool) -> Result<(), AllocError> {
        if let Take::Found { id, .. } = self.book.take(self.now, or_order) {
            self.lent.push(id)?;
        }
        Ok(())
    }

    // Puts the lent one at this place back, counted round.
    fn put_back(&mut self, place: u32, broken: bool) {
        let id = pick(&mut self.lent, place);
        id.map(|id| self.book.put_back(self.now, id, id, broken).ok());
    }

    fn reap(&mut self) -> Result<(), AllocError> {
        let now = self.now;
        self.book.answer(self.alloc, Step::Reap { now }).map(drop)
    }

    // One step at random. Openings are admitted in any order, some steps after they began.
    fn stir(&mut self, rng: &mut Pcg32) -> Result<(), AllocError> {
        let place = rng.next_u32();
        match below(rng, 400) {
            0..100 => {
                let id = self.number();
                self.numbered.extend(id)?;
            }
            100..200 => drop(pick(&mut self.numbered, place).map(|id| self.admit(id))),
            200..290 => self.take(place % 2 == 0)?,
            290..360 => self.put_back(place, place % 4 == 0),
            360..370 => {
                let id = pick(&mut self.lent, place);
                id.map(|id| self.book.fail_check(self.now, id, None).ok());
            }
            370..399 => self.reap()?,
            _ => drop(self.book.close()),
        }
        Ok(())
    }
}

/// What a book reports to which this was done. Before the colon stand the largest size, how many
/// are wanted idle, the room for records, the lifetime, and the idle timeout. A number after it is
/// the millisecond of what is done next, and one with a sign is so many later. What stands between
/// commas is done as often as its end says.
pub(crate) fn played(alloc: Global, text: &str) -> Result<Report, Fail> {
    let (sizes, deeds) = text.split_once(':').ok_or("deeds")?;
    let mut sizes = sizes.split(' ');
    let mut next = || sizes.next().and_then(|size| size.parse::<u32>().ok());
    let (max_size, min_idle, room) = (next(), next(), next());
    let (lifetime, timeout) = (next(), next());
    let settings = LimitSettings {
        max_size: max_size.unwrap_or(0),
        min_idle,
        max_lifetime: lifetime.map(|length| ms(length.into())),
        idle_timeout: timeout.map(|length| ms(length.into())),
        connection_timeout: ms(30_000),
        reap_every: ms(30_000),
        order: LendingOrder::NewestFirst,
    };
    let limits = settings.limits().ok_or("limits")?;
    let book = Book::new(alloc, limits, ms(0), room.unwrap_or(0) as usize)?;
    let mut driven = Driven::over(alloc, book, ms(0));
    for part in deeds.split(',') {
        let (deeds, times) = part.split_once(" x").unwrap_or((part, "1"));
        for _ in 0..times.parse::<u32>()? {
            for deed in deeds.split_whitespace() {
                driven.follow(deed)?;
            }
        }
    }
    Ok(driven.book.report()?)
}

// A number below a bound, which is positive.
fn below(rng: &mut Pcg32, bound: u32) -> u32 {
    rng.next_u32() % bound.max(1)
}

// A length of time: mostly a short one.
fn length(rng: &mut Pcg32, bound: u32) -> Duration {
    match below(rng, 6) {
        0 => Duration::MAX,
        1 => Duration::from_nanos(1),
        _ => ms(u64::from(below(rng, bound)) + 1),
    }
}

fn maybe<T: Drop>(rng: &mut Pcg32, some: T) -> Option<T> {
    if below(rng, 2) == 0 { None } else { Some(some) }
}

// Legal limits, with either lending order.
fn some_limits(rng: &mut Pcg32) -> Result<Limits, Fail> {
    let max_size = below(rng, 8).saturating_add(1);
    let min_idle = below(rng, max_size.saturating_add(1));
    let (lifetime, timeout) = (length(rng, 200), length(rng, 100));
    let settings = LimitSettings {
        max_size,
        min_idle: maybe(rng, min_idle),
        max_lifetime: maybe(rng, lifetime),
        idle_timeout: maybe(rng, timeout),
        connection_timeout: length(rng, 40),
        reap_every: length(rng, 40),
        order: maybe(rng, LendingOrder::OldestFirst).unwrap_or(LendingOrder::NewestFirst),
    };
    Ok(settings.limits().ok_or("limits")?)
}

/// What a book reports after so many steps at random, by a seed, with room for so many records. Now
/// and then a step comes at the last moment that there is, or at the same moment as the one before
/// it. The ids of each third one are long.
pub(crate) fn seeded(alloc: Global, seed: u64, steps: u32, room: usize) -> Result<Report, Fail> {
    let first = if seed % 3 == 0 { u64::MAX - 1000 } else { 0 };
    let rng = &mut Pcg32::seed_from_u64(seed);
    let (limits, begin) = (some_limits(rng)?, ms(below(rng, 50).into()));
    let book = Book::with_first_id(alloc, limits, begin, first, room)?;
    let mut driven = Driven::over(alloc, book, begin);
    for _ in 0..steps {
        match below(rng, 1000) {
            0 => driven.now = Duration::MAX,
            1..200 => {}
            _ => driven.now = driven.now.saturating_add(ms(below(rng, 20).into())),
        }
        driven.stir(rng)?;
    }
    Ok(driven.book.report()?)
}

/// The names of types and the values of what is shown, without those of fields.
pub(crate) fn values<T: Debug>(alloc: Global, of: &T) -> Result<String, AllocError> {
    let (shown, mut text) = (format!(in alloc; "{of:?}")?, String::new(alloc));
    let words = shown.as_str().split([' ', ',', '{', '}', '[', ']']);
    for word in words.filter(|word| !word.is_empty() && !word.ends_with(':')) {
        write!(text, "{}{word}", if text.is_empty() { "" } else { " " })?;
    }
    Ok(text)
}
