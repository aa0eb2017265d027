//! What a server is asked to see whether it can be used.

#[derive(Clone, Copy, Debug, PartialEq, Eq)]
pub enum Probe {
    /// Whether it answers, by PING.
    Alive,
    /// Whether it is a primary, by ROLE.
    Primary,
}

impl Probe {
    /// What is asked. It leaves nothing.
    pub fn word(self) -> &'static [u8] {
        match self {
            Probe::Alive => b"PING",
            Probe::Primary => b"ROLE",
        }
    }
}
