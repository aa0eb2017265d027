// Pools of connections that cost nothing.
use r2d2::{ManageConnection, Pool};
use std::fmt;

/// Opens connections that are nothing at all.
pub struct Nothings;

impl ManageConnection for Nothings {
    type Connection = ();

    type Error = fmt::Error;

    fn connect(&self) -> Result<(), fmt::Error> {
        Ok(())
    }

    fn is_valid(&self, _connection: &mut ()) -> Result<(), fmt::Error> {
        Ok(())
    }

    fn has_broken(&self, _connection: &mut ()) -> bool {
        false
    }
}

/// A pool of so many connections, all of them open.
pub fn open_pool(max_size: u32, test_on_check_out: bool) -> Pool<Nothings> {
    Pool::builder()
        .max_size(max_size)
        .test_on_check_out(test_on_check_out)
        .build(Nothings)
        .expect("a pool was not built")
}
