// The last ids that there are, a long line, and one without room.

use super::*;
use crate::ErrorKind;
use crate::pool::tests::{Lines, watched};
use pool_state::Look;
use std::sync::atomic::Ordering;
use std::test::Fail;

// The settings of a pool of two, for which one id is left.
fn with_one_id() -> Builder<Lines> {
    Builder::new()
        .max_size(2)
        .connection_timeout(Duration::from_millis(500))
        .first_id(u64::MAX - 1)
}

// The opening that gets no id counts as failed, with no text, and is tried again and again.
#[test]
fn ids_used_up(rt: HostRuntime) -> Result<(), Fail> {
    let lines = Lines::new(rt.alloc(), u64::MAX)?;
    let error = with_one_id().build(rt, lines).err().ok_or("two ids")?;
    assert_eq!(rt; (error.kind(), error.message()), (ErrorKind::Timeout, None));
    let text = error.to_string(rt.alloc())?;
    assert_eq!(rt; text.as_str(), "timed out waiting for connection");

    let lines = Lines::new(rt.alloc(), u64::MAX)?;
    let pool = with_one_id().build_unchecked(rt, lines)?;
    let lent = pool.get_timeout(Duration::from_secs(20))?;
    assert_eq!(rt; lent.lent.id, 18_446_744_073_709_551_614);
    let error = pool.get().err().ok_or("two ids")?;
    assert_eq!(rt; (error.kind(), error.message()), (ErrorKind::Timeout, None));
    for _ in 0..2 {
        let more = lines.opened.load(Ordering::SeqCst) + 1;
        assert!(rt; watched(&rt, lines.opened, more) >= more);
        assert_eq!(rt; pool.state().connections, 1);
    }
    assert!(rt; pool.status().failed_openings > 1);
    Ok(())
}

// So many callers look under one lock, and one more.
#[test]
fn a_line_has_room_for_thousands(rt: HostRuntime) -> Result<(), Fail> {
    let builder = Builder::new().max_size(1).min_idle(Some(0)).fair_queue(Some(3000));
    let pool = builder.build_unchecked(rt, Lines::new(rt.alloc(), u64::MAX)?)?;
    let shared = pool.shared();
    assert_eq!(rt; shared.slots.len(), 3000);
    let mut guarded = shared.guarded.lock(&rt);
    for caller in 0..3001 {
        let (look, to_wake) = guarded.look_in_line(Duration::ZERO, &mut None, true, &mut ());
        shared.wake(to_wake);
        let is_full = match look {
            Look::Full => true,
            Look::Stands(_) | Look::Found { id: _, value: _ } => false,
        };
        assert_eq!(rt; is_full, caller == 3000, "{caller}");
    }
    Ok(())
}

// As many wait as come. One that found a line would be refused at once.
#[test]
fn a_line_without_room_is_none(rt: HostRuntime) -> Result<(), Fail> {
    let builder = Builder::new().max_size(1).fair_queue(Some(1)).max_waiting(None);
    let pool = builder.build_unchecked(rt, Lines::new(rt.alloc(), u64::MAX)?)?;
    let _lent = pool.get()?;
    let error = pool.get_timeout(Duration::from_millis(1)).err().ok_or("two")?;
    assert_eq!(rt; error.kind(), ErrorKind::Timeout);
    Ok(())
}
