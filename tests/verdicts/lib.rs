//! Pools whose truth is known, and what their reports say of them: each is the pool for tasks, with
//! its metrics, in the world of `tests/stage`, whose clock the test moves.
#![tactic(auto)]

mod bad;
mod clock;
mod ear;
mod good;
mod kinds;
mod manager;
mod measured;
mod play;
mod rows;
mod script;
mod service;
mod stops;
mod world;
