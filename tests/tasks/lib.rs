//! Tests of a pool for tasks over each of the executors: what no clause says of it.
#![tactic(auto)]

#[cfg(test)]
mod executors;
#[cfg(test)]
mod names;
#[cfg(test)]
mod throng;
