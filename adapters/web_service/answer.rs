//! What a request is answered.

use bytes::Bytes;
use http_body_util::Full;
use hyper::header::{self, HeaderValue};
use hyper::{Response, StatusCode};
use std::alloc::Global;
use std::fmt;
use std::sync::atomic::{AtomicU64, Ordering};

pub type Page = Response<Full<Bytes>>;

const TEXT: &str = "text/plain; charset=utf-8";

const METRICS: &str = "text/plain; version=0.0.4";

/// The status and the text of an answer.
#[derive(Drop)]
pub struct Answer {
    pub status: StatusCode,
    text: Bytes,
    kind: &'static str,
}

impl Answer {
    /// One of these words.
    pub fn of(status: StatusCode, text: &'static str) -> Answer {
        Answer {
            status,
            text: Bytes::from_static(text.as_bytes()),
            kind: TEXT,
        }
    }

    /// One of a text that was made; an error of the service where there is no memory for it.
    pub fn made(status: StatusCode, text: String) -> Answer {
        match Bytes::from_string(text) {
            Ok(text) => Answer {
                status,
                text,
                kind: TEXT,
            },
            Err(_) => Answer::no_memory(),
        }
    }

    /// The page that Prometheus reads.
    pub fn metrics(text: String) -> Answer {
        Answer {
            kind: METRICS,
            ..Answer::made(StatusCode::OK, text)
        }
    }

    pub fn no_memory() -> Answer {
        Answer::of(StatusCode::INTERNAL_SERVER_ERROR, "no memory\n")
    }

    /// As hyper sends it.
    pub fn page(self, alloc: Global) -> Page {
        let Answer { status, text, kind } = self;
        let mut page = Response::new(alloc, Full::new(text));
        *page.status_mut() = status;
        // (An answer without its type is one as well.)
        let _ = page
            .headers_mut()
            .insert(header::CONTENT_TYPE, HeaderValue::from_static(kind));
        page
    }
}

const STATUSES: [u16; 10] = [200, 201, 202, 404, 405, 409, 500, 502, 503, 504];

/// How many answers there were of each status.
#[derive(Drop)]
pub struct Tally {
    counts: [AtomicU64; 10],
}

impl Tally {
    pub fn new() -> Tally {
        let zero = || AtomicU64::new(0);
        Tally {
            counts: [
                zero(),
                zero(),
                zero(),
                zero(),
                zero(),
                zero(),
                zero(),
                zero(),
                zero(),
                zero(),
            ],
        }
    }

    pub fn count(&self, status: StatusCode) {
        let places = STATUSES.iter().zip(self.counts.iter());
        for (known, count) in places {
            if *known == status.as_u16() {
                count.fetch_add(1, Ordering::SeqCst);
            }
        }
    }

    /// Writes them as the metrics are written.
    pub fn write<W: fmt::Write>(&self, out: &mut W) -> fmt::Result {
        writeln!(
            out,
            "# HELP http_answers_total Answers at the public port, by status."
        )?;
        writeln!(out, "# TYPE http_answers_total counter")?;
        for (status, count) in STATUSES.iter().zip(self.counts.iter()) {
            let count = count.load(Ordering::SeqCst);
            writeln!(out, "http_answers_total{{status=\"{status}\"}} {count}")?;
        }
        Ok(())
    }
}
