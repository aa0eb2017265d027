//! Tests of `pool_metrics`: what is counted over pools of all kinds, in the world of `tests/stage`,
//! and what is printed.
#![tactic(auto)]

mod clock;
mod counting;
mod ear;
mod errors;
mod kinds;
mod manager;
mod measured;
mod play;
mod printing;
mod reasons;
mod report;
mod rows;
mod script;
mod stops;
mod world;
