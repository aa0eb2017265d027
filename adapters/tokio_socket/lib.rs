//! What adapters for tasks have in common, whatever they say: a socket of tokio's, how it is
//! opened, and how long a call waits. Nothing here blocks but the look-up of a name. This copy is
//! yours, to be changed.
#![tactic(auto)]

mod dialing;
mod patience;
mod socket;

pub use dialing::Dialing;
pub use patience::Patience;
pub use socket::Socket;
