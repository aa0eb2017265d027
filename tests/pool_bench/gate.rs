// The gate from which callers start at once.
use r2d2::PoolRuntime;
use std::sync::{Arc, Barrier};
use std::time::Instant;

/// A gate for so many callers, and for the thread that starts them.
pub fn for_callers<R: PoolRuntime>(rt: R, callers: u32) -> Result<Arc<Barrier>, anyhow::Error> {
    let all = callers.saturating_add(1);
    Ok(Arc::new(rt.alloc(), Barrier::new(all as usize))?)
}

/// Waits until all callers are there, reads the clock, and opens the gate: so the time counts from
/// before their first calls.
pub fn open<R: PoolRuntime>(rt: R, gate: &Barrier) -> Result<Instant, anyhow::Error> {
    gate.wait(&rt);
    let begun = Instant::now(&rt);
    gate.wait(&rt);
    Ok(begun?)
}

/// What a caller waits for: that all are there, and that the gate opens.
pub fn pass<R: PoolRuntime>(rt: R, gate: &Barrier) {
    gate.wait(&rt);
    gate.wait(&rt);
}
