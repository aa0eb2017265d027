//! What the words of the command and the environment say.

use anyhow::{Context, bail};
use std::alloc::Global;
use std::env;
use std::net::SocketAddr;
use std::rt::Env;
use std::time::Duration;

/// How many connections are opened at once.
const WORKERS: u32 = 4;

#[derive(Drop)]
pub struct Settings {
    /// Where PostgreSQL is, who logs in, and into which database.
    pub address: String,
    pub user: String,
    pub database: String,
    pub password: Option<String>,
    pub public: SocketAddr,
    pub admin: SocketAddr,
    pub max_size: u32,
    pub max_waiting: u32,
    /// How long one waits for a connection, and as long for an opening, a check and a statement.
    pub timeout: Duration,
}

impl Settings {
    pub fn of<R: Env + Alloc<A = Global>>(rt: &R) -> Result<Settings, anyhow::Error> {
        let mut words = Vec::new(rt.alloc());
        for word in env::args(rt)?.skip(1) {
            words.push(word)?;
        }
        let [address, public, admin] = words.as_slice() else {
            bail!("usage: web_service DATABASE PUBLIC ADMIN, each an address as 127.0.0.1:5432");
        };
        Ok(Settings {
            address: address.clone()?,
            user: text(rt, "PGUSER", "postgres")?,
            database: text(rt, "PGDATABASE", "postgres")?,
            password: env::var(rt, "PGPASSWORD").ok(),
            public: public
                .as_str()
                .parse::<SocketAddr>()
                .context("reading PUBLIC")?,
            admin: admin
                .as_str()
                .parse::<SocketAddr>()
                .context("reading ADMIN")?,
            max_size: number(rt, "POOL_MAX_SIZE", 8)?.max(1),
            max_waiting: number(rt, "POOL_MAX_WAITING", 100)?,
            timeout: Duration::from_millis(u64::from(number(rt, "POOL_TIMEOUT_MS", 2000)?.max(1))),
        })
    }

    /// How many workers the pool is to have.
    pub fn workers(&self) -> u32 {
        self.max_size.min(WORKERS)
    }
}

// The text of a variable of the environment; without such a variable, the other one.
fn text<R: Env + Alloc<A = Global>>(
    rt: &R,
    name: &str,
    otherwise: &str,
) -> Result<String, anyhow::Error> {
    match env::var(rt, name) {
        Ok(text) => Ok(text),
        Err(_) => Ok(String::from_str(rt.alloc(), otherwise)?),
    }
}

fn number<R: Env + Alloc<A = Global>>(
    rt: &R,
    name: &str,
    otherwise: u32,
) -> Result<u32, anyhow::Error> {
    match env::var(rt, name) {
        Ok(text) => text
            .as_str()
            .parse::<u32>()
            .context(format_args!("reading {name}")),
        Err(_) => Ok(otherwise),
    }
}
