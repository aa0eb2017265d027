//! Tests of `pool_reports`: reports as text, what is said to be wrong with one, what somebody has to
//! look at, and its story, over reports that books made.
#![tactic(auto)]

mod books;
mod errors;
mod reasons;
mod stories;
mod summaries;
mod texts;
