//! What a check asks, and what has to be answered.

use crate::error::PostgresError;

#[derive(Clone, Copy, PartialEq, Eq)]
pub enum Probe {
    /// For a row that has no other use.
    Alive,
    /// Whether transactions may write.
    ReadWrite,
}

impl Probe {
    /// What is asked. It leaves nothing.
    pub fn query(self) -> &'static str {
        match self {
            Probe::Alive => "SELECT 1",
            Probe::ReadWrite => "SELECT current_setting('transaction_read_only')",
        }
    }

    /// The one value of the one row.
    pub fn answer(self) -> &'static str {
        match self {
            Probe::Alive => "1",
            Probe::ReadWrite => "off",
        }
    }

    /// What another answer means.
    pub fn otherwise(self) -> PostgresError {
        match self {
            Probe::Alive => PostgresError::Protocol,
            Probe::ReadWrite => PostgresError::ReadOnly,
        }
    }
}
