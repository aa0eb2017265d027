// Each public name of `r2d2`, called from outside: that it is there, and succeeds on its happy
// path.

mod core_calls;
mod counted_calls;
mod engine_calls;
mod pool_calls;
mod pool_uses;
pub(crate) mod user_types;
mod written_types;
