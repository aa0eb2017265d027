//! A service over HTTP with a pool for tasks of connections to PostgreSQL, on one thread.
//!
//!     web_service DATABASE PUBLIC ADMIN
//!
//! Each is an address, as `127.0.0.1:5432`. At the public one `POST /entries/KEY` writes a row, and
//! counts it, in a transaction, and `GET /entries/KEY` reads it. At the other one `/metrics` is for
//! Prometheus, `/health` says whether a request would be served now, and `POST /drain` ends the
//! service: it takes no more connections, answers what was asked, and ends once all of the pool's
//! connections are back. `PGUSER`, `PGDATABASE`, `PGPASSWORD`, `POOL_MAX_SIZE`, `POOL_MAX_WAITING`
//! and `POOL_TIMEOUT_MS` are settings.
//!
//!     CREATE TABLE entries (key text NOT NULL, number bigserial);
//!     CREATE TABLE totals (slot int PRIMARY KEY, entries bigint NOT NULL);
//!     INSERT INTO totals SELECT slot, 0 FROM generate_series(0, 15) slot;
//!
//! `./vendor --async --postgres --metrics FOLDER` brings what it stands on. These files, ending in
//! `.rt`, are its `src`, and its line of crates.txt, in one, is
//!
//!     web_service: r2d2 r2d2_async postgres_tasks pool_metrics tokio_timer tokio futures
//!         hyper http_body_util bytes anyhow
#![tactic(auto)]

mod answer;
mod app;
mod errand;
mod server;
mod settings;

use self::app::{App, Hooks, Port, Side};
use self::server::{Ending, Server, ending};
use self::settings::Settings;
use anyhow::bail;
use futures::future::join;
use futures::task::{Context, Poll};
use futures::{Future, ready};
use hyper::rt;
use hyper::server::conn::http1;
use postgres_tasks::{PostgresConnectionManager, TaskConnectionManager};
use r2d2::PoolRuntime;
use r2d2_async::Drain;
use std::alloc::AllocError;
use std::hash::RandomState;
use std::io;
use std::net::{Net, SocketAddr};
use std::random::RandomSource;
use std::sync::Arc;
use std::time::Duration;
use tokio::net::TcpListener;
use tokio::runtime::{Handle, LocalRuntime};
use tokio_timer::TokioTimer;

/// How many seconds the end waits for what is lent.
const DRAIN_SECONDS: u64 = 10;

type Draining<R> = Drain<TaskConnectionManager, TokioTimer<R>, Hooks<R>, R>;

/// The life of the public port, and then of the pool. The other port ends after it.
#[derive(Drop)]
struct Life<R: PoolRuntime> {
    public: Server<R>,
    app: Arc<App<R>>,
    drain: Option<Draining<R>>,
    last: server::Ender,
}

impl<R: PoolRuntime> Future for Life<R> {
    /// Whether all connections came back.
    type Output = bool;

    fn poll(&mut self, cx: &mut Context<'_>) -> Poll<bool> {
        if self.drain.is_none() {
            ready!(self.public.poll(cx));
            self.drain = self.app.pool.drain(Duration::from_secs(DRAIN_SECONDS)).ok();
        }
        let came_back = match &mut self.drain {
            Some(drain) => ready!(drain.poll(cx)).is_ok(),
            None => false,
        };
        self.last.tell();
        Poll::Ready(came_back)
    }
}

fn main(rt: HostRuntime) -> Result<(), anyhow::Error> {
    let settings = Settings::of(&rt)?;
    let mut runtime = LocalRuntime::new(&rt)?;
    let manager = TaskConnectionManager::new(manager(rt, &settings)?, runtime.handle())?;
    if !serve(rt, &mut runtime, &settings, manager)? {
        bail!("some connections did not come back");
    }
    println!(rt; "drained")?;
    Ok(())
}

fn manager(rt: HostRuntime, settings: &Settings) -> Result<PostgresConnectionManager, AllocError> {
    let manager = PostgresConnectionManager::new(
        rt,
        settings.address.as_str(),
        settings.user.as_str(),
        settings.database.as_str(),
        settings.timeout,
    )?;
    match &settings.password {
        Some(password) => manager.with_password(password.as_str()),
        None => Ok(manager),
    }
}

// Runs until the end was told. Whether all connections came back.
fn serve<R: PoolRuntime + RandomSource + Net + Print>(
    rt: R,
    runtime: &mut LocalRuntime,
    settings: &Settings,
    manager: TaskConnectionManager,
) -> Result<bool, anyhow::Error> {
    let (ender, public_ending) = ending(rt.alloc())?;
    let (last, admin_ending) = ending(rt.alloc())?;
    let app = App::new(rt, manager, runtime.handle(), settings, ender)?;
    let app = Arc::new(rt.alloc(), app)?;
    let workers = runtime.task_set(&rt)?;
    for _ in 0..settings.workers() {
        workers.spawn(app.pool.worker()?).map_err(io::Error::from)?;
    }
    let (public, admin) = (
        Port::new(Side::Public, &app)?,
        Port::new(Side::Admin, &app)?,
    );
    let public = server_at(
        rt,
        runtime.handle(),
        settings.public,
        public,
        &public_ending,
    )?;
    let admin = server_at(rt, runtime.handle(), settings.admin, admin, &admin_ending)?;
    let life = Life {
        public,
        app,
        drain: None,
        last,
    };
    let (came_back, ()) = runtime.block_on_with(&rt, &workers, join(life, admin))?;
    Ok(came_back)
}

// A port at an address. It says where that is.
fn server_at<R: PoolRuntime + RandomSource + Net + Print>(
    rt: R,
    handle: &Handle,
    address: SocketAddr,
    port: Port<R>,
    ending: &Ending,
) -> Result<Server<R>, anyhow::Error> {
    let listener = TcpListener::bind(&rt, address, handle.reactor())?;
    println!(rt; "listens at {}", listener.local_addr()?)?;
    let clock = rt::TokioTimer::new(rt, handle.time().clone()?);
    let http = http1::Builder::new(rt.alloc(), RandomState::new(&rt)?).timer(clock);
    Ok(Server::new(rt.alloc(), listener, http, port, ending)?)
}
