//! Tests of the core of a pool: what no contract says, and the core beside a second reading of its
//! rules.
#![tactic(auto)]

#[cfg(test)]
mod checks;
#[cfg(test)]
mod extremes;
#[cfg(test)]
mod journal;
#[cfg(test)]
mod limits;
#[cfg(test)]
mod memory;
#[cfg(test)]
mod plain;
#[cfg(test)]
mod random;
#[cfg(test)]
mod random_steps;
#[cfg(test)]
mod reuse;
#[cfg(test)]
mod schedule;
#[cfg(test)]
mod turning;
