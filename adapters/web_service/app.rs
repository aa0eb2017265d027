//! What a request needs: the pool, its metrics, and whether the service is to end.

use crate::answer::{Answer, Tally};
use crate::errand::{Answering, Errand};
use crate::server::Ender;
use crate::settings::Settings;
use bytes::Bytes;
use futures::Future;
use http_body_util::Full;
use hyper::body::Incoming;
use hyper::service::Service;
use hyper::{Method, Request, Response, StatusCode};
use pool_metrics::{CountingErrorHandler, Metrics, Reading, write};
use postgres_tasks::TaskConnectionManager;
use r2d2::PoolRuntime;
use r2d2_async::{
    Builder, Get, Handlers, NopConnectionCustomizer, NopErrorHandler, Pool, PooledConnection,
};
use std::alloc::{AllocError, Global};
use std::convert::Infallible;
use std::sync::Arc;
use std::time::Duration;
use tokio::runtime::Handle;
use tokio_timer::TokioTimer;

pub type Hooks<R> = Handlers<
    CountingErrorHandler<NopErrorHandler, R>,
    Metrics<R>,
    NopConnectionCustomizer,
>;

pub type TaskPool<R> = Pool<TaskConnectionManager, TokioTimer<R>, Hooks<R>, R>;

pub type Call<R> = Get<TaskConnectionManager, TokioTimer<R>, Hooks<R>, R>;

pub type Lent<R> = PooledConnection<TaskConnectionManager, TokioTimer<R>, Hooks<R>, R>;

/// How many milliseconds a probe of the health waits for a connection.
const PROBE_MILLIS: u64 = 500;

/// How many milliseconds pass at most between two openings that fail.
const RETRY_MILLIS: u64 = 200;

/// What all requests share.
#[derive(Drop)]
pub struct App<R: PoolRuntime> {
    pub pool: TaskPool<R>,
    pub metrics: Metrics<R>,
    pub tally: Arc<Tally>,
    pub ender: Ender,
    pub rt: R,
}

impl<R: PoolRuntime> App<R> {
    /// A pool that opens nothing yet.
    pub fn new(
        rt: R,
        manager: TaskConnectionManager,
        handle: &Handle,
        settings: &Settings,
        ender: Ender,
    ) -> Result<App<R>, anyhow::Error> {
        let metrics = Metrics::new(rt, settings.max_size)?;
        let builder = Builder::new()
            .max_size(settings.max_size)
            .max_waiting(Some(settings.max_waiting))
            .connection_timeout(settings.timeout)
            .max_retry_delay(Some(Duration::from_millis(RETRY_MILLIS)))
            .evict_idle_on_failed_check(true)
            .error_handler(metrics.around(NopErrorHandler)?)
            .event_handler(metrics.try_clone()?);
        Ok(App {
            pool: Pool::build(builder, rt, manager, TokioTimer::new(rt, handle)?)?,
            metrics,
            tally: Arc::new(rt.alloc(), Tally::new())?,
            ender,
            rt,
        })
    }

    fn alloc(&self) -> Global {
        self.rt.alloc()
    }

    // What Prometheus reads.
    fn page(&self) -> Answer {
        let reading = Reading {
            pool: "entries",
            status: self.pool.status(),
            snapshot: self.metrics.snapshot(),
        };
        let mut page = String::new(self.alloc());
        match write(&[reading], &mut page).and_then(|()| self.tally.write(&mut page)) {
            Ok(()) => Answer::metrics(page),
            Err(_) => Answer::no_memory(),
        }
    }
}

/// Whom a port is for.
#[derive(Clone, Copy, PartialEq, Eq)]
pub enum Side {
    Public,
    Admin,
}

/// What answers the requests of a connection.
#[derive(Drop)]
pub struct Port<R: PoolRuntime> {
    side: Side,
    app: Arc<App<R>>,
}

impl<R: PoolRuntime> Port<R> {
    pub fn new(side: Side, app: &Arc<App<R>>) -> Result<Port<R>, AllocError> {
        Ok(Port {
            side,
            app: Arc::try_clone(app)?,
        })
    }

    pub fn try_clone(&self) -> Result<Port<R>, AllocError> {
        Port::new(self.side, &self.app)
    }

    // Answers at the public port are counted.
    fn tally(&self) -> Option<Arc<Tally>> {
        match self.side {
            Side::Public => Arc::try_clone(&self.app.tally).ok(),
            Side::Admin => None,
        }
    }

    fn known(&self, answer: Answer) -> Answering<R> {
        Answering::known(self.app.alloc(), self.tally(), answer)
    }

    fn known_of(&self, status: StatusCode, text: &'static str) -> Answering<R> {
        self.known(Answer::of(status, text))
    }

    // An entry, which is written or read.
    fn entry(&self, method: &Method, key: &str) -> Answering<R> {
        let errand = match method.as_str() {
            "GET" => Errand::Read,
            "POST" => Errand::Write,
            _ => return self.known_of(StatusCode::METHOD_NOT_ALLOWED, "GET or POST\n"),
        };
        let (app, alloc) = (&self.app, self.app.alloc());
        match (String::from_str(alloc, key), app.pool.get()) {
            (Ok(key), Ok(call)) => Answering::of(alloc, self.tally(), errand, key, call),
            _ => self.known(Answer::no_memory()),
        }
    }

    // Whether a request would be served now.
    fn health(&self) -> Answering<R> {
        let (app, alloc) = (&self.app, self.app.alloc());
        if app.ender.is_told() {
            return self.known_of(StatusCode::SERVICE_UNAVAILABLE, "draining\n");
        }
        match app.pool.get_timeout(Duration::from_millis(PROBE_MILLIS)) {
            Ok(call) => Answering::of(alloc, None, Errand::Probe, String::new(alloc), call),
            Err(_) => self.known(Answer::no_memory()),
        }
    }

    fn admin(&self, method: &str, path: &str) -> Answering<R> {
        match (method, path) {
            ("GET", "/metrics") => self.known(self.app.page()),
            ("GET", "/health") => self.health(),
            ("POST", "/drain") => {
                self.app.ender.tell();
                self.known_of(StatusCode::ACCEPTED, "draining\n")
            }
            _ => self.known_of(StatusCode::NOT_FOUND, "no such page\n"),
        }
    }
}

impl<R: PoolRuntime> Service<Request<Incoming>> for Port<R> {
    type Response = Response<Full<Bytes>>;

    type Error = Infallible;

    type Future = Answering<R>;

    fn call(&self, request: Request<Incoming>) -> Answering<R> {
        let path = request.uri().path();
        match (self.side, path.strip_prefix("/entries/")) {
            (Side::Public, Some(key)) => self.entry(request.method(), key),
            (Side::Public, None) => self.known_of(StatusCode::NOT_FOUND, "no such page\n"),
            (Side::Admin, _) => self.admin(request.method().as_str(), path),
        }
    }
}
