// Cases, each from a seed of its own: none stops, takes long, or takes more memory than it may.

use std::env::Env;
use std::fs::Files;
use std::process::Abort;
use std::random::RandomSource;
use std::sync::atomic::{AtomicU64, Ordering};
use std::sync::{Arc, Wait};
use std::test::Fail;
use std::thread::Threads;
use std::time::{Clock, Duration};
use std::{env, fs, thread};

const CASES: u64 = 2000;
/// So many bytes a case may take; far fewer come.
const MOST: u64 = 4_000_000;
/// A case takes a part of a millisecond; this is over when it took so many seconds.
const LONGEST: u64 = 10;
/// In place of the number of the case that is played.
const OVER: u64 = u64::MAX;

/// What the cases need of the runtime.
pub(crate) trait Host: AllocGlobal
    + Abort
    + Clock
    + Env
    + Files
    + Print
    + RandomSource
    + Threads
    + Wait
    + Copy
    + Send
    + 'static {}

impl<R> Host for R
where
    R: AllocGlobal
        + Abort
        + Clock
        + Env
        + Files
        + Print
        + RandomSource
        + Threads
        + Wait
        + Copy
        + Send
        + 'static,
{}

/// Plays cases from a first seed on, which is drawn and told: `CODECS_SEED` plays those from it
/// again.
pub(crate) fn play_each<R: Host, F: Fn(u64) -> Result<(), Fail>>(
    rt: R,
    play: F,
) -> Result<(), Fail> {
    let first = first_seed(rt)?;
    println!(rt; "seeds {first} to {}", first + CASES - 1)?;
    let playing = Arc::new(rt.alloc(), AtomicU64::new(0))?;
    let watched = Arc::try_clone(&playing)?;
    let watch = thread::spawn(&rt, move || watch(rt, first, watched))?;
    let is_measured = gives_memory_back(rt)?;
    let before = most_taken(rt)?;
    for number in 0..CASES {
        playing.store(number, Ordering::SeqCst);
        let seed = first + number;
        play(seed)?;
        let taken = most_taken(rt)? - before;
        assert!(rt;
            !is_measured || taken < MOST,
            "seed {seed} takes {taken} bytes"
        );
    }
    playing.store(OVER, Ordering::SeqCst);
    watch.join(&rt);
    Ok(())
}

fn first_seed<R: Host>(rt: R) -> Result<u64, Fail> {
    if let Ok(seed) = env::var(&rt, "CODECS_SEED") {
        return Ok(seed.as_str().parse::<u64>()?);
    }
    let mut bytes = [0; 8];
    rt.fill_bytes(&mut bytes)?;
    Ok(u64::from_be_bytes(bytes) >> 16)
}

// Ends the run where a case takes too long.
fn watch<R: Host>(rt: R, first: u64, playing: Arc<AtomicU64>) {
    let (mut seen, mut looks) = (OVER, 0);
    for _ in rt.forever() {
        let number = playing.load(Ordering::SeqCst);
        if number == OVER {
            return;
        }
        looks = if number == seen { looks + 1 } else { 0 };
        seen = number;
        if looks > 20 * LONGEST {
            let _ = println!(rt; "seed {} does not end", first + number);
            rt.abort();
        }
        thread::sleep(&rt, Duration::from_millis(50));
    }
}

// The most that the program had of the machine, whether it wrote there or not.
fn most_taken<R: Host>(rt: R) -> Result<u64, Fail> {
    let status = fs::read(&rt, "/proc/self/status")?;
    let status = String::from_utf8(status).map_err(|_| "no text")?;
    for line in status.as_str().lines() {
        if let Some(size) = line.strip_prefix("VmPeak:") {
            let size = size.trim().trim_end_matches(" kB");
            return Ok(size.parse::<u64>()? * 1024);
        }
    }
    Err(Fail::from("no size"))
}

// Whether memory that was given back serves again: with a sanitizer it does not, and what a case
// takes can't be told.
fn gives_memory_back<R: Host>(rt: R) -> Result<bool, Fail> {
    let before = most_taken(rt)?;
    for _ in 0..64 {
        let block: Vec<u8> = Vec::with_capacity(rt.alloc(), MOST as usize / 8)?;
        drop(block);
    }
    Ok(most_taken(rt)? - before < MOST)
}
