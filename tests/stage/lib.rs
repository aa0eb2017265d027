//! Tests of what pools of all kinds do, in one small world: each row is written once, and played on
//! each kind of pool that can do it.
#![tactic(auto)]

mod building;
mod cancelling;
mod clock;
mod clocks;
mod closing;
mod ear;
mod evicting;
mod giving_up;
mod growing;
mod in_turn;
mod journal;
mod kinds;
mod lending;
mod lengths;
mod limit;
mod line;
mod manager;
mod outage;
mod passing;
mod play;
mod polls;
mod rows;
mod script;
mod status;
mod stops;
mod stress;
mod telling;
mod trying;
mod turns;
mod waking;
mod workers;
mod world;
