//! Who a connection is for, and how the server makes sure of that.

ghost use Rattle.std.specs.Prelude.{◌≡◌, ◌⊎◌, IfOk, IsTrue, None};

use crate::error::PostgresError;
use crate::refusal::refused;
use md5::{Digest, Md5};
use postgres_codec::{Asked, Refusal, password};
use std::alloc::{AllocError, Global};

/// Who logs in, and what a server has to ask for.
#[derive(Drop)]
pub struct Login {
    pub user: String,
    pub database: String,
    pub password: Option<String>,
    /// Whether a server that asks for no password is taken too.
    pub is_lenient: bool,
    /// Whether one is taken that asks for it by MD5.
    pub takes_md5: bool,
}

/// How far a login is.
#[derive(Clone, Copy, PartialEq, Eq)]
pub(crate) enum Stage {
    Begun,
    /// By SCRAM: the server is to say what the proof is made of.
    Introduced,
    /// By SCRAM: the server is to prove that it knows the password too.
    Shown,
    /// The server was shown that the client knows the password.
    Proved,
    /// The server has taken it.
    Taken,
}

/// What the server's next message asks for.
#[derive(Clone, Copy)]
pub(crate) enum Step {
    /// Nothing more.
    Take,
    Md5,
    /// The first message of SCRAM.
    Introduce,
    /// The proof of SCRAM.
    Prove,
    /// The server's own proof is there.
    Verify,
}

impl Login {
    // A server, or a proxy before it, may know the password, and repeat it or a part of it: where
    // there is one, its state alone is told.
    pub(crate) fn refused(
        &self,
        alloc: Global,
        refusal: &Refusal,
    ) -> Result<PostgresError, AllocError> {
        Ok(match (refused(alloc, refusal)?, self.password.as_deref()) {
            (PostgresError::Refused { mut state, .. }, Some(password)) => {
                if password.contains(state.as_str()) || state.as_str().contains(password) {
                    state.clear();
                }
                PostgresError::Login { state }
            }
            (error, _) => error,
        })
    }

    // A server that has not shown that it knows the password is taken only as the settings say: by
    // SCRAM it shows that, by MD5 or without a question not.
    pub(crate) fn step(
        &self,
        asked: Asked,
        stage: Stage,
        offers_scram: bool,
    ) -> Result<Step, PostgresError>
        ensures take { IfOk result (λ step. step ≡ Step.Take → (stage ≡ Stage.Proved)
            ⊎ (self.now.password ≡ None) ⊎ IsTrue self.now.is_lenient) }
        ensures md5 { IfOk result (λ step. step ≡ Step.Md5 → IsTrue self.now.takes_md5) }
    {
        match (asked, stage) {
            (Asked::Nothing, Stage::Proved) => Ok(Step::Take),
            (Asked::Nothing, Stage::Begun) if self.password.is_none() || self.is_lenient => Ok(
                Step::Take,
            ),
            (Asked::Nothing, Stage::Begun) => Err(PostgresError::NoProof),
            (Asked::Md5, Stage::Begun) if self.takes_md5 => Ok(Step::Md5),
            (Asked::Md5, Stage::Begun) => Err(PostgresError::Md5),
            (Asked::Sasl, Stage::Begun) if offers_scram => Ok(Step::Introduce),
            (_, Stage::Begun) => Err(PostgresError::UnknownLogin),
            (Asked::SaslGoesOn, Stage::Introduced) => Ok(Step::Prove),
            (Asked::SaslEnds, Stage::Shown) => Ok(Step::Verify),
            _ => Err(PostgresError::Protocol),
        }
    }

    pub(crate) fn password(&self) -> Result<&str, PostgresError> {
        self.password.as_deref().ok_or(PostgresError::NoPassword)
    }

    // The password with the user's name, hashed, and that with the server's salt, hashed again.
    pub(crate) fn hashed(&self, alloc: Global, salt: &[u8]) -> Result<Vec<u8>, PostgresError> {
        let mut hasher = Md5::new();
        hasher.update(self.password()?);
        hasher.update(self.user.as_str());
        let inner = hex::encode(alloc, &hasher.finalize())?;
        let mut hasher = Md5::new();
        hasher.update(inner.as_bytes());
        hasher.update(salt);
        let outer = hex::encode(alloc, &hasher.finalize())?;
        let answer = format!(in alloc; "md5{}", outer.as_str())?;
        Ok(password(alloc, answer.as_bytes())?)
    }
}
