// What no clause says, of values that only this crate makes: printed texts of events and errors,
// and the default bodies.

use super::*;
use crate::event::{
    AcquireEvent, CheckinEvent, CheckoutEvent, ReleaseEvent, ReleaseReason, TimeoutEvent,
};
use std::sync::atomic::{AtomicU64, Ordering};
use std::test::Fail;
use std::time::Duration;

/// Counts what is released, and keeps to the other default bodies.
#[derive(Debug, Drop)]
struct Releases(AtomicU64);

impl HandleEvent for Releases {
    fn handle_release(&self, _event: ReleaseEvent) {
        self.0.fetch_add(1, Ordering::SeqCst);
    }
}

impl CustomizeConnection<u32, &'static str> for Releases {}

#[test]
fn events_and_what_does_nothing(rt: HostRuntime) -> Result<(), Fail> {
    let acquire = AcquireEvent::of(1);
    let release = ReleaseEvent::of(2, Duration::from_millis(1500), ReleaseReason::Idle);
    let checkout = CheckoutEvent::of(3, Duration::from_millis(7), Duration::from_millis(12));
    let timeout = TimeoutEvent::of(Duration::from_millis(123));
    let checkin = CheckinEvent::of(4, Duration::from_secs(3), Duration::from_secs(5));
    let shown = format!(in rt.alloc();
        "{acquire:?} {release:?} {checkout:?} {timeout:?} {checkin:?}"
    )?;
    assert_eq!(rt;
        shown.as_str(),
        "AcquireEvent { id: 1 } ReleaseEvent { id: 2, age: 1.5s, reason: Idle } CheckoutEvent { \
        id: 3, duration: 5ms } TimeoutEvent { timeout: 123ms } CheckinEvent { id: 4, duration: 2s }"
    );
    let releases = Releases(AtomicU64::new(0));
    releases.handle_acquire(acquire);
    releases.handle_checkout(checkout);
    releases.handle_timeout(timeout);
    releases.handle_checkin(checkin);
    assert_eq!(rt; releases.0.load(Ordering::SeqCst), 0);
    NopEventHandler.handle_release(release);

    let mut connection = 7;
    assert_eq!(rt; releases.on_acquire(&mut connection), Ok(()));
    assert_eq!(rt; connection, 7);
    releases.on_release(connection);
    NopErrorHandler.handle_error("blammo");
    Ok(())
}

// What a pool of two shows that are both lent.
fn both_lent() -> Status {
    Status {
        max_size: 2,
        wanted: 2,
        connections: 2,
        idle: 0,
        lent: 2,
        opening: 0,
        workers: None,
        waiting: 3,
        waiting_since: Some(Duration::from_millis(2)),
        failed_openings: 4,
        failed_checks: 5,
        refused: 6,
        timeouts: 7,
        latest_failure: Some(Duration::from_millis(8)),
        closed: false,
    }
}

#[test]
fn error_texts(rt: HostRuntime) -> Result<(), Fail> {
    let (alloc, waited) = (rt.alloc(), Duration::from_secs(6));
    let plain = Error::timeout(alloc, None, both_lent(), waited, None);
    let text = String::from_str(alloc, "blammo")?;
    let told = Error::timeout(alloc, Some(text), both_lent(), waited, Some(2));
    let memory = Error::memory();
    for (error, text) in [
        (&plain, "timed out waiting for connection"),
        (&told, "timed out waiting for connection: blammo"),
        (&memory, "out of memory"),
        (&Error::threads(), "a worker could not be started"),
        (&Error::closed(), "the pool is closed"),
        (&Error::full(), "too many callers are waiting"),
    ] {
        assert_eq!(rt; error.to_string(alloc)?.as_str(), text);
    }
    assert_eq!(rt; (told.status(), told.waited()), (Some(both_lent()), Some(waited)));
    assert_eq!(rt; (told.message(), told.ahead(), plain.ahead()), (Some("blammo"), Some(2), None));
    assert_eq!(rt; (memory.status(), memory.waited()), (None, None));
    let shown = format!(in alloc; "{told:?} {memory:?}")?;
    assert_eq!(rt;
        shown.as_str(),
        "Error { kind: Timeout, message: Some(\"blammo\") } Error { kind: Memory, message: None }"
    );
    Ok(())
}
