// Pools of connections that cost nothing.
ghost use Rattle.std.specs.Prelude.{◌≡◌, ◌<◌, IfOk};

use r2d2::{Builder, Error, ManageConnection, PlainPool, PoolRuntime};
use std::alloc::AllocError;

/// Opens connections that are nothing at all.
#[derive(Drop)]
pub struct Nothings;

impl ManageConnection for Nothings {
    type Connection = ();

    type Error = AllocError;

    type Extension = ();

    fn connect(&self) -> Result<(), AllocError> {
        Ok(())
    }

    fn is_valid(&self, _connection: &mut ()) -> Result<(), AllocError> {
        Ok(())
    }

    fn has_broken(&self, _connection: &mut ()) -> bool {
        false
    }
}

/// A pool of so many connections, all of them open.
pub fn open_pool<R: PoolRuntime>(
    rt: R,
    max_size: u32,
    test_on_check_out: bool,
) -> Result<PlainPool<Nothings, R>, Error>
    requires { 0 < max_size }
    ensures size { IfOk result (λ pool. pool.max_size ≡ max_size) }
    ensures check { IfOk result (λ pool. pool.test_on_check_out ≡ test_on_check_out) }
{
    Builder::new()
        .max_size(max_size)
        .test_on_check_out(test_on_check_out)
        .build(rt, Nothings)
}
