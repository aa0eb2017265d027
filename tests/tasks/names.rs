// Handlers, errors and settings are in r2d2_async under the names of r2d2: the same ones.

use r2d2_async::{CustomizeConnection, ErrorKind, HandleError, HandleEvent, LendingOrder};
use std::alloc::AllocError;
use std::test::Fail;

#[derive(Debug, Drop)]
struct Deaf;

impl HandleError<AllocError> for Deaf {
    fn handle_error(&self, _error: AllocError) {}
}

impl HandleEvent for Deaf {}

impl CustomizeConnection<u32, AllocError> for Deaf {}

// What a builder takes.
fn handles<K>(_handler: K) -> bool
where
    K: r2d2::HandleError<AllocError> + r2d2::HandleEvent + r2d2::CustomizeConnection<u32, AllocError>,
{
    true
}

#[test]
fn are_the_same(rt: HostRuntime) -> Result<(), Fail> {
    let (order, kind) = (r2d2::LendingOrder::OldestFirst, r2d2::ErrorKind::Timeout);
    assert!(rt; order == LendingOrder::OldestFirst && kind == ErrorKind::Timeout);
    assert!(rt; handles(Deaf));
    Ok(())
}
