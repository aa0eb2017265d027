//! A service over a pool of connections to a real server, which lines on standard input drive
//! (tools/try adapters). The words are `redis ADDRESS [[USER] PASSWORD]`, for a user at database 2,
//! or `postgres ADDRESS USER [PASSWORD]`; with one word it writes itself to that place. There are
//! kinds of both: `redis-unchecked` lends without a check, `redis-unchecked-for-an-hour` without
//! one of what came back within it; `redis-never`, `redis-if-marked` and `redis-always` reset at a
//! return as they say, have one connection, check nothing, and wait for half a second; so do those
//! of `postgres`, which take 100 rows and 64 KiB. `postgres-eight` has eight connections, and waits
//! for a second; `redis-primary` and `postgres-primary` refuse a replica, and close what is idle
//! where one is met; `postgres-salted` waits for fifteen; `postgres-lenient` takes a server that asks
//! for no password, `postgres-md5` one that asks for it by MD5. In place of `postgres`, `calm`
//! waits for ten seconds, as does `kept`, whose server keeps two statements for a connection.
//! `redis-url` and `postgres-url` take a URL alone, and say what they refuse.
#![tactic(auto)]

mod service;

use self::service::{App, Checks, Lending};
use postgres::PostgresConnectionManager;
use r2d2::{ManageConnection, PoolRuntime};
use redis::RedisConnectionManager;
use std::test::Fail;
use std::time::Duration;
use std::{env, fs, thread};

const THREADS: u32 = 8;

fn main(rt: HostRuntime) -> Result<(), Fail> {
    let mut words = Vec::new(rt.alloc());
    for word in env::args(&rt)?.skip(1) {
        words.push(word)?;
    }
    match words.as_slice() {
        [place] => {
            // What `rt try` runs lies there under this name.
            let program = fs::read(&rt, "program")?;
            fs::write(&rt, place.as_str(), program.as_slice())?;
            Ok(())
        }
        [kind, url] if kind.as_str() == "redis-url" => {
            let settings = Settings::of(kind.as_str());
            match RedisConnectionManager::from_url(rt, url.as_str(), settings.timeout) {
                Ok(manager) => serve(rt, manager, settings.lending),
                Err(error) => Ok(println!(rt; "= {error}")?),
            }
        }
        [kind, url] if kind.as_str() == "postgres-url" => {
            let settings = Settings::of(kind.as_str());
            match PostgresConnectionManager::from_url(rt, url.as_str(), settings.timeout) {
                Ok(manager) => serve(rt, manager, settings.lending),
                Err(error) => Ok(println!(rt; "= {error}")?),
            }
        }
        [kind, address, rest @ ..] if kind.as_str().starts_with("redis") => {
            let settings = Settings::of(kind.as_str());
            let manager = RedisConnectionManager::new(rt, address.as_str(), settings.timeout)?;
            let manager = settings.of_redis(manager);
            match rest {
                [] => serve(rt, manager, settings.lending),
                [password] => {
                    let manager = manager.with_password(password.as_str())?;
                    serve(rt, manager, settings.lending)
                }
                [user, password, ..] => {
                    let manager = manager.with_user(user.as_str(), password.as_str())?;
                    serve(rt, manager.with_database(2), settings.lending)
                }
            }
        }
        [kind, address, user, rest @ ..] => {
            let settings = Settings::of(kind.as_str());
            let manager = PostgresConnectionManager::new(
                rt,
                address.as_str(),
                user.as_str(),
                "postgres",
                settings.timeout,
            )?;
            let manager = settings.of_postgres(manager);
            match rest {
                [] => serve(rt, manager, settings.lending),
                [password, ..] if kind.as_str() == "postgres-lenient" => {
                    let manager = manager.with_password_if_asked(password.as_str())?;
                    serve(rt, manager, settings.lending)
                }
                [password, ..] => {
                    let manager = manager.with_password(password.as_str())?;
                    let is_md5 = kind.as_str() == "postgres-md5";
                    let manager = if is_md5 { manager.with_md5() } else { manager };
                    serve(rt, manager, settings.lending)
                }
            }
        }
        _ => Ok(()),
    }
}

// How a service of a kind uses its server.
#[derive(Clone, Copy)]
struct Settings {
    lending: Lending,
    mode: Mode,
    timeout: Duration,
    // How many statements a server keeps for a connection.
    statements: usize,
}

/// When it resets.
#[derive(Clone, Copy, PartialEq, Eq)]
enum Mode {
    Never,
    IfMarked,
    Always,
}

impl Settings {
    fn of(kind: &str) -> Settings {
        let (name, rest) = kind.split_once('-').unwrap_or((kind, ""));
        let (checks, mode, timeout, size, patience) = match rest {
            // A server stands still for longer than this.
            "unchecked" => (Checks::Never, Mode::IfMarked, 2000, 4, 20),
            "unchecked-for-an-hour" => (Checks::AfterAnHour, Mode::IfMarked, 10_000, 4, 20),
            "never" => (Checks::Never, Mode::Never, 500, 1, 3),
            "if-marked" => (Checks::Never, Mode::IfMarked, 500, 1, 3),
            "always" => (Checks::Never, Mode::Always, 500, 1, 3),
            "eight" => (Checks::Always, Mode::IfMarked, 1000, 8, 20),
            "primary" => (Checks::AndEvict, Mode::IfMarked, 2000, 4, 5),
            "salted" | "url" => (Checks::Never, Mode::IfMarked, 15_000, 4, 14),
            _ => (Checks::Always, Mode::IfMarked, 10_000, 4, 20),
        };
        Settings {
            lending: Lending {
                checks,
                patience: Duration::from_secs(patience),
                size,
            },
            mode,
            timeout: Duration::from_millis(match name {
                "calm" | "kept" => 10_000,
                _ => timeout,
            }),
            statements: if name == "kept" { 2 } else { 0 },
        }
    }

    fn of_redis(&self, manager: RedisConnectionManager) -> RedisConnectionManager {
        let manager = match self.lending.checks {
            Checks::AndEvict => manager.with_primary_only(),
            _ => manager,
        };
        manager.with_reset(match self.mode {
            Mode::Never => redis::Reset::Never,
            Mode::IfMarked => redis::Reset::IfMarked,
            Mode::Always => redis::Reset::Always,
        })
    }

    fn of_postgres(&self, manager: PostgresConnectionManager) -> PostgresConnectionManager {
        let manager = match self.lending.checks {
            Checks::AndEvict => manager.with_primary_only(),
            _ => manager,
        };
        let manager = manager.with_statements(self.statements);
        let manager = manager.with_reset(match self.mode {
            Mode::Never => postgres::Reset::Never,
            Mode::IfMarked => postgres::Reset::IfMarked,
            Mode::Always => postgres::Reset::Always,
        });
        if self.lending.size > 1 {
            return manager;
        }
        manager.with_limits(postgres::Limits {
            bytes: 64 * 1024,
            rows: 100,
        })
    }
}

fn serve<R: PoolRuntime + Print + Input, M: ManageConnection>(
    rt: R,
    manager: M,
    lending: Lending,
) -> Result<(), Fail>
where
    M::Connection: service::Counting,
{
    let app = App::new(rt, manager, lending)?;
    let mut threads = Vec::new(rt.alloc());
    for number in 0..THREADS {
        let app = app.try_clone()?;
        threads.push(thread::spawn(&rt, move || app.serve(number))?)?;
    }
    for line in rt.lines(rt.alloc()) {
        app.obey(line?.as_str())?;
    }
    app.stop();
    for thread in threads {
        thread.join(&rt)?;
    }
    Ok(())
}
