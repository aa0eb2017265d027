//! A service of tasks over a pool of connections to a real server, on one thread (tools/try
//! adapters). `redis-MODE ADDRESS [[USER] PASSWORD]`, with a user at database 2, and
//! `postgres-MODE ADDRESS USER [PASSWORD]` have one connection, reset at a return as the mode says,
//! check nothing, wait for half a second, and do what the lines on standard input say; with `calm`
//! in place of `postgres` they wait for ten seconds, with `kept` too, but for a check, where
//! the server keeps two statements, and `postgres-salted` for fifteen. `redis-primary` checks, and
//! takes no replica.
//! `cancel-KIND ADDRESS REQUESTS` asks a server of that kind so often, and gives up each request
//! after three milliseconds; `outage-KIND ADDRESS MILLISECONDS` asks for so long, and nothing waits
//! for longer than 300 of them. With one word it writes itself to that place.
#![tactic(auto)]

mod callers;
mod service;
mod talks;

use self::callers::{Length, throng};
use self::service::{Lending, Lent, Service};
use self::talks::Talks;
use postgres_tasks::PostgresConnectionManager;
use r2d2::PoolRuntime;
use redis_tasks::RedisConnectionManager;
use std::random::RandomSource;
use std::test::Fail;
use std::time::{Duration, Instant};
use std::{env, fs};
use tokio::runtime::LocalRuntime;

fn main(rt: HostRuntime) -> Result<(), Fail> {
    let mut words = Vec::new(rt.alloc());
    for word in env::args(&rt)?.skip(1) {
        words.push(word)?;
    }
    match words.as_slice() {
        [place] => {
            // What `rt try` runs lies there under this name.
            let program = fs::read(&rt, "program")?;
            fs::write(&rt, place.as_str(), program.as_slice())?;
            Ok(())
        }
        [kind, address, rest @ ..] => {
            let (kind, address) = (kind.as_str(), address.as_str());
            let runtime = LocalRuntime::new(&rt)?;
            begin(rt, rt, runtime, kind, address, rest)
        }
        [] => Ok(()),
    }
}

fn begin<R: PoolRuntime + RandomSource + Print + Input>(
    rt: R,
    host: HostRuntime,
    runtime: LocalRuntime,
    kind: &str,
    address: &str,
    rest: &[String],
) -> Result<(), Fail> {
    let (what, name) = kind.split_once('-').unwrap_or((kind, ""));
    match (what, rest) {
        ("cancel" | "outage", [number, ..]) => {
            let length = length(host, what, number.as_str().parse::<u64>()?)?;
            let timeout = Duration::from_millis(if what == "outage" { 300 } else { 5000 });
            if name == "redis" {
                let settings = RedisConnectionManager::new(host, address, timeout)?;
                let manager = redis_tasks::TaskConnectionManager::new(settings, runtime.handle())?;
                return throng(rt, runtime, manager, length);
            }
            let settings = PostgresConnectionManager::new(
                host, address, "trusted", "postgres", timeout,
            )?;
            let manager = postgres_tasks::TaskConnectionManager::new(settings, runtime.handle())?;
            throng(rt, runtime, manager, length)
        }
        ("redis", login) => {
            let ours = of_redis(host, name, address, login, &runtime)?;
            let other = of_redis(host, name, address, login, &runtime)?;
            let lending = Lending {
                checks: name == "primary",
                patience: Duration::from_secs(3),
            };
            serve(rt, Service::new(rt, runtime, ours, other, lending)?)
        }
        (_, login) => {
            let ours = of_postgres(host, kind, address, login, &runtime)?;
            let other = of_postgres(host, kind, address, login, &runtime)?;
            let lending = Lending {
                checks: false,
                patience: Duration::from_secs(if waits_long(kind) { 14 } else { 3 }),
            };
            serve(rt, Service::new(rt, runtime, ours, other, lending)?)
        }
    }
}

fn length(rt: HostRuntime, what: &str, number: u64) -> Result<Length, Fail> {
    if what == "cancel" {
        return Ok(Length {
            requests: number,
            until: None,
            patience: Some(Duration::from_millis(3)),
            get: Duration::from_secs(20),
        });
    }
    Ok(Length {
        requests: u64::MAX,
        until: Instant::now(&rt)?.checked_add(Duration::from_millis(number)),
        patience: None,
        get: Duration::from_millis(300),
    })
}

fn of_redis(
    rt: HostRuntime,
    mode: &str,
    address: &str,
    login: &[String],
    runtime: &LocalRuntime,
) -> Result<redis_tasks::TaskConnectionManager, Fail> {
    let reset = match mode {
        "never" => redis_tasks::Reset::Never,
        "always" => redis_tasks::Reset::Always,
        _ => redis_tasks::Reset::IfMarked,
    };
    let manager = RedisConnectionManager::new(rt, address, Duration::from_millis(500))?;
    let manager = manager.with_reset(reset);
    let manager = match mode {
        "primary" => manager.with_primary_only(),
        _ => manager,
    };
    let manager = match login {
        [] => manager,
        [password] => manager.with_password(password.as_str())?,
        [user, password, ..] => manager
            .with_user(user.as_str(), password.as_str())?
            .with_database(2),
    };
    Ok(redis_tasks::TaskConnectionManager::new(manager, runtime.handle())?)
}

// Those at which a login, or the server, takes long.
fn waits_long(kind: &str) -> bool {
    kind == "postgres-salted" || !kind.starts_with("postgres-")
}

fn reset_of(mode: &str) -> postgres_tasks::Reset {
    match mode {
        "never" => postgres_tasks::Reset::Never,
        "always" => postgres_tasks::Reset::Always,
        _ => postgres_tasks::Reset::IfMarked,
    }
}

fn of_postgres(
    rt: HostRuntime,
    kind: &str,
    address: &str,
    login: &[String],
    runtime: &LocalRuntime,
) -> Result<postgres_tasks::TaskConnectionManager, Fail> {
    let (name, mode) = kind.split_once('-').unwrap_or((kind, ""));
    let timeout = match kind {
        "postgres-salted" => 15_000,
        "postgres-never" | "postgres-if-marked" | "postgres-always" => 500,
        _ => 10_000,
    };
    let user = login.first().map_or("somebody", |user| user.as_str());
    let timeout = Duration::from_millis(timeout);
    let manager = PostgresConnectionManager::new(rt, address, user, "postgres", timeout)?;
    let manager = if name == "kept" {
        let check = Duration::from_millis(500);
        manager
            .with_statements(2)
            .with_timeouts(timeout, check, timeout)
    } else {
        manager
    };
    let manager = manager
        .with_reset(reset_of(mode))
        .with_limits(postgres_tasks::Limits {
            bytes: 64 * 1024,
            rows: 100,
        });
    let manager = match (mode, login) {
        ("lenient", [_, password, ..]) => manager.with_password_if_asked(password.as_str())?,
        ("md5", [_, password, ..]) => manager.with_password(password.as_str())?.with_md5(),
        (_, [_, password, ..]) => manager.with_password(password.as_str())?,
        _ => manager,
    };
    Ok(postgres_tasks::TaskConnectionManager::new(manager, runtime.handle())?)
}

fn serve<M: Talks<Lent<M, R>>, R: PoolRuntime + RandomSource + Print + Input>(
    rt: R,
    service: Service<M, R>,
) -> Result<(), Fail> {
    let mut service = service;
    for line in rt.lines(rt.alloc()) {
        service.obey(line?.as_str())?;
    }
    Ok(())
}
