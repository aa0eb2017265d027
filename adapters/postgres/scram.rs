//! The login SCRAM-SHA-256: the server learns that the client knows the password, and shows that
//! it knows it too. A password is taken as it is written: one beyond ASCII has to be normalized
//! (SASLprep) by the caller.

use crate::error::PostgresError;
use base64::engine::general_purpose::STANDARD;
use sha2::{Digest, Sha256};
use std::alloc::{AllocError, Global};

/// The fewest and the most rounds that a server may ask for: its own default are the fewest.
const FEWEST_ROUNDS: u32 = 4096;

const MOST_ROUNDS: u32 = 1_000_000;
/// So many are made at once.
const ROUNDS_A_TIME: u32 = 64;

/// The client's side.
#[derive(Drop)]
pub struct Scram {
    alloc: Global,
    nonce: String,
}

/// The client's last message, and what the server is to reply.
#[derive(Drop)]
pub struct Proof {
    pub message: String,
    pub reply: String,
}

impl Scram {
    /// `random` has to be new each time.
    pub fn new(alloc: Global, random: &[u8]) -> Result<Scram, AllocError> {
        let nonce = STANDARD.encode(alloc, random)?;
        Ok(Scram { alloc, nonce })
    }

    /// The first message. The server knows the user's name already.
    pub fn first(&self) -> Result<String, AllocError> {
        let nonce = &self.nonce;
        format!(in self.alloc; "n,,n=,r={nonce}")
    }

    /// What the server's first message asks for.
    pub fn challenged(&self, challenge: String, password: &str) -> Result<Salting, PostgresError> {
        let (nonce, salt, rounds) = parts_of(challenge.as_str()).ok_or(PostgresError::Protocol)?;
        if !nonce.starts_with(self.nonce.as_str()) || nonce.len() == self.nonce.len() {
            return Err(PostgresError::ForeignNonce);
        }
        if rounds < FEWEST_ROUNDS || rounds > MOST_ROUNDS {
            return Err(PostgresError::Rounds);
        }
        let salt = STANDARD
            .decode(self.alloc, salt.as_bytes())
            .map_err(|_| PostgresError::Protocol)?;
        let nonce = String::from_str(self.alloc, nonce)?;
        let rounds = Rounds::of(self.alloc, password.as_bytes(), salt.as_slice(), rounds)?;
        Ok(Salting {
            challenge,
            nonce,
            rounds,
        })
    }

    /// The answer to it, once its rounds are made.
    pub fn proof(&self, salting: &Salting) -> Result<Proof, AllocError> {
        let (nonce, challenge) = (salting.nonce.as_str(), salting.challenge.as_str());
        let salted = salting.rounds.salted;
        let begun = format!(in self.alloc; "c=biws,r={nonce}")?;
        let all = format!(in self.alloc; "n=,r={},{challenge},{begun}", self.nonce)?;
        let mut client = hmac(&salted, b"Client Key")?;
        let signature = hmac(&Sha256::digest(&client), all.as_bytes())?;
        mix(&mut client, &signature);
        let proof = STANDARD.encode(self.alloc, &client)?;
        let server = hmac(&hmac(&salted, b"Server Key")?, all.as_bytes())?;
        let server = STANDARD.encode(self.alloc, &server)?;
        Ok(Proof {
            message: format!(in self.alloc; "{begun},p={proof}")?,
            reply: format!(in self.alloc; "v={server}")?,
        })
    }
}

// The nonce, the salt and the rounds of `r=..,s=..,i=..`.
fn parts_of(challenge: &str) -> Option<(&str, &str, u32)> {
    let mut parts = challenge.split(',');
    let nonce = parts.next()?.strip_prefix("r=")?;
    let salt = parts.next()?.strip_prefix("s=")?;
    let rounds = parts.next()?.strip_prefix("i=")?.parse().ok()?;
    Some((nonce, salt, rounds))
}

/// An answer that is under way.
#[derive(Drop)]
pub struct Salting {
    challenge: String,
    nonce: String,
    rounds: Rounds,
}

impl Salting {
    /// Makes some rounds. Whether that were the last.
    pub fn go_on(&mut self) -> Result<bool, AllocError> {
        self.rounds.go_on()
    }
}

/// PBKDF2 with one block.
#[derive(Drop)]
struct Rounds {
    password: Keyed,
    latest: [u8; 32],
    salted: [u8; 32],
    left: u32,
}

impl Rounds {
    // The first of them is made.
    fn of(alloc: Global, password: &[u8], salt: &[u8], rounds: u32) -> Result<Rounds, AllocError> {
        let password = Keyed::new(password);
        let mut first = Vec::new(alloc);
        first.extend_from_slice(salt)?;
        first.extend_from_slice(&[0, 0, 0, 1])?;
        let latest = password.of(first.as_slice())?;
        Ok(Rounds {
            password,
            latest,
            salted: latest,
            left: rounds.saturating_sub(1),
        })
    }

    fn go_on(&mut self) -> Result<bool, AllocError> {
        for _ in 0..self.left.min(ROUNDS_A_TIME) {
            self.latest = self.password.of(&self.latest)?;
            mix(&mut self.salted, &self.latest);
        }
        self.left = self.left.saturating_sub(ROUNDS_A_TIME);
        Ok(self.left == 0)
    }
}

/// HMAC with SHA-256 under one key, which the two hashers have taken in.
#[derive(Drop)]
struct Keyed {
    inner: Sha256,
    outer: Sha256,
}

impl Keyed {
    fn new(key: &[u8]) -> Keyed {
        let mut block = [0; 64];
        let shortened = Sha256::digest(key);
        let key = if key.len() > 64 {
            shortened.as_slice()
        } else {
            key
        };
        for (place, byte) in block.iter_mut().zip(key) {
            *place = *byte;
        }
        let mut keyed = Keyed {
            inner: Sha256::new(),
            outer: Sha256::new(),
        };
        keyed.inner.update(&block.map(|byte| byte ^ 0x36));
        keyed.outer.update(&block.map(|byte| byte ^ 0x5c));
        keyed
    }

    fn of(&self, message: &[u8]) -> Result<[u8; 32], AllocError> {
        let mut inner = self.inner.clone()?;
        inner.update(message);
        let mut outer = self.outer.clone()?;
        outer.update(&inner.finalize());
        Ok(outer.finalize())
    }
}

fn hmac(key: &[u8], message: &[u8]) -> Result<[u8; 32], AllocError> {
    Keyed::new(key).of(message)
}

// Leaves the bits that are set in one of the two alone.
fn mix(bytes: &mut [u8], others: &[u8]) {
    for (byte, other) in bytes.iter_mut().zip(others) {
        *byte ^= *other;
    }
}

#[cfg(test)]
mod tests {
    use super::*;
    use std::test::Fail;

    /// The exchange that RFC 7677 shows has the user's name in it, which PostgreSQL leaves out.
    #[test]
    fn salts_as_the_standard_shows(rt: HostRuntime) -> Result<(), Fail> {
        let salt = STANDARD.decode(rt.alloc(), b"W22ZaJ0SNY7soEsUEjb6gQ==")?;
        let mut rounds = Rounds::of(rt.alloc(), b"pencil", salt.as_slice(), 4096)?;
        // (64 of them a time)
        for _ in 0..63 {
            assert_eq!(rt; rounds.go_on()?, false);
        }
        assert_eq!(rt; rounds.go_on()?, true);
        let salted = rounds.salted;
        let all = "n=user,r=rOprNGfwEbeRWgbNEkqO,\
            r=rOprNGfwEbeRWgbNEkqO%hvYDpWUa2RaTCAfuxFIlj)hNlF$k0,s=W22ZaJ0SNY7soEsUEjb6gQ==,i=4096,\
            c=biws,r=rOprNGfwEbeRWgbNEkqO%hvYDpWUa2RaTCAfuxFIlj)hNlF$k0";
        let mut client = hmac(&salted, b"Client Key")?;
        let signature = hmac(&Sha256::digest(&client), all.as_bytes())?;
        mix(&mut client, &signature);
        let proof = STANDARD.encode(rt.alloc(), &client)?;
        assert_eq!(rt;
            proof.as_str(),
            "dHzbZapWIk4jUhN+Ute9ytag9zjfMHgsqmmiz7AndVQ="
        );
        let server = hmac(&hmac(&salted, b"Server Key")?, all.as_bytes())?;
        let server = STANDARD.encode(rt.alloc(), &server)?;
        assert_eq!(rt;
            server.as_str(),
            "6rriTRBi23WpRR/wtup+mMhUZUn/dB5nLTJRsjl95G4="
        );
        Ok(())
    }
}
