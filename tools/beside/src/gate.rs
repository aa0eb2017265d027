// The gate from which callers start at once.
use std::sync::{Arc, Barrier};
use std::time::Instant;

/// A gate for so many callers, and for the thread that starts them.
pub fn for_callers(callers: u32) -> Arc<Barrier> {
    Arc::new(Barrier::new(callers as usize + 1))
}

/// Waits until all callers are there, reads the clock, and opens the gate: so the time counts from
/// before their first calls.
pub fn open(gate: &Barrier) -> Instant {
    gate.wait();
    let begun = Instant::now();
    gate.wait();
    begun
}

/// What a caller waits for: that all are there, and that the gate opens.
pub fn pass(gate: &Barrier) {
    gate.wait();
    gate.wait();
}
