//! How a session ends as it began.

/// When a connection that comes back is reset, by DISCARD ALL. What a customizer has set is reset
/// too. A transaction that is open is rolled back in each mode.
#[derive(Clone, Copy, Debug, PartialEq, Eq)]
pub enum Reset {
    /// Never: what a session keeps beyond a transaction, as SET does, stays for the next caller.
    Never,
    /// Where a query or its answer was any but those that are known to leave nothing. What a view,
    /// a trigger, a rule, an operator or a default of your own does to the session is not seen.
    IfMarked,
    /// At each return.
    Always,
}
