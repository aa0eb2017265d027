//! Tests of the pool for threads: its engine beside a second book, and its surface as a caller sees
//! it.
#![tactic(auto)]

mod engine;
mod surface;
