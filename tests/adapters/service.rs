//! What its threads do, and what the lines say.

use postgres::{PostgresConnection, PostgresError, Row, Session};
use r2d2::{Builder, ErrorKind, ManageConnection, PlainPool, PoolRuntime};
use redis::{Pipeline, RedisConnection, RedisError, Reply};
use std::alloc::{AllocError, Global};
use std::sync::Arc;
use std::sync::atomic::{AtomicU64, Ordering};
use std::test::Fail;
use std::thread;
use std::time::Duration;

/// A connection to what counts for each thread.
pub trait Counting {
    /// The request that adds one to the count of a thread.
    fn request(alloc: Global, thread: u32) -> Result<String, AllocError>;

    /// Sends it, and tells the count; None where that failed.
    fn add_one(&mut self, request: &str) -> Option<u64>;

    /// Goes back to the pool in the middle of what another caller must not see: of a transaction,
    /// or of what else is named.
    fn leave_open(&mut self, what: &str) -> bool;

    /// Counts in a transaction what no thread counts. Whether that was taken in.
    fn transact(&mut self) -> bool;

    /// Whether a request that the server refuses is an error, and the next one is not.
    fn is_refused(&mut self) -> bool;

    /// Sends requests, with a `;` after each but the last, and tells what came of each.
    fn run(&mut self, alloc: Global, requests: &str) -> Result<String, AllocError>;
}

impl Counting for RedisConnection {
    fn request(alloc: Global, thread: u32) -> Result<String, AllocError> {
        format!(in alloc; "{thread}")
    }

    fn add_one(&mut self, request: &str) -> Option<u64> {
        match self.command(&["INCR", request]) {
            Ok(Reply::Number(count)) => u64::try_from(count).ok(),
            _ => None,
        }
    }

    fn leave_open(&mut self, what: &str) -> bool {
        match what {
            "watch" => self.command(&["WATCH", "watched"]).is_ok(),
            "subscribe" => self.command(&["SUBSCRIBE", "news"]).is_ok(),
            "monitor" => self.command(&["MONITOR"]).is_ok(),
            // The server takes words in capitals or not.
            _ => self.command(&["Multi"]).is_ok() && self.command(&["INCR", "0"]).is_ok(),
        }
    }

    fn transact(&mut self) -> bool {
        let is_begun = self.command(&["MULTI"]).is_ok();
        is_begun
            && self.command(&["INCR", "more"]).is_ok()
            && matches!(self.command(&["EXEC"]), Ok(Reply::List(_)))
    }

    fn is_refused(&mut self) -> bool {
        let refused = matches!(self.command(&["NONE"]), Err(RedisError::Refused(_)));
        refused && !self.is_broken() && self.ping().is_ok()
    }

    fn run(&mut self, alloc: Global, requests: &str) -> Result<String, AllocError> {
        let mut told = String::new(alloc);
        for request in requests.split(';') {
            // Commands behind a `&`, with a `,` between them, are a pipeline.
            if let Some(commands) = request.trim().strip_prefix("&") {
                let pipeline = pipeline_of(alloc, commands)?;
                match self.run_all(&pipeline) {
                    Ok(replies) => {
                        for reply in replies.as_slice() {
                            tell_reply(reply, &mut told)?;
                        }
                    }
                    Err(error) => write!(told, "! {error} | ")?,
                }
                continue;
            }
            let words = words_of(alloc, request)?;
            match self.command(words.as_slice()) {
                Ok(reply) => tell_reply(&reply, &mut told)?,
                Err(error) => write!(told, "! {error} | ")?,
            }
        }
        Ok(told)
    }
}

fn words_of<'a>(alloc: Global, request: &'a str) -> Result<Vec<&'a str>, AllocError> {
    let mut words: Vec<&'a str> = Vec::new(alloc);
    for word in request.split_whitespace() {
        words.push(word)?;
    }
    Ok(words)
}

fn pipeline_of(alloc: Global, commands: &str) -> Result<Pipeline, AllocError> {
    let mut pipeline = Pipeline::new(alloc);
    for command in commands.split(',') {
        let words = words_of(alloc, command)?;
        pipeline.command(words.as_slice())?;
    }
    Ok(pipeline)
}

fn tell_reply(reply: &Reply, told: &mut String) -> Result<(), AllocError> {
    match reply.as_text() {
        Some(text) => write!(told, "{} | ", text.trim()),
        None => write!(told, "{reply:?} | "),
    }
}

impl Counting for PostgresConnection {
    fn request(alloc: Global, thread: u32) -> Result<String, AllocError> {
        format!(in alloc; "UPDATE counts SET n = n + 1 WHERE thread = {thread} RETURNING n")
    }

    fn add_one(&mut self, request: &str) -> Option<u64> {
        let rows = self.query(request).ok()?;
        rows.as_slice().first()?.get(0)?.parse::<u64>().ok()
    }

    fn leave_open(&mut self, _what: &str) -> bool {
        self.query("BEGIN; UPDATE counts SET n = n + 1 WHERE thread = 0")
            .is_ok()
    }

    fn transact(&mut self) -> bool {
        self.query("BEGIN; SELECT 1; COMMIT").is_ok()
    }

    fn is_refused(&mut self) -> bool {
        let refused = matches!(self.query("SELECT 1/0"), Err(PostgresError::Refused { .. }));
        refused && self.session() == Session::Idle && self.query("SELECT 1").is_ok()
    }

    // Each may be of several statements.
    fn run(&mut self, alloc: Global, requests: &str) -> Result<String, AllocError> {
        let mut told = String::new(alloc);
        for request in requests.split(";;") {
            if let Err(error) = tell(self, alloc, request.trim(), &mut told) {
                write!(told, "! {error} | ")?;
            }
        }
        Ok(told)
    }
}

// A query behind a `#` tells how many rows it was about, and one behind a `>` how many came one by
// one, and the last. Its values stand behind a ` <- `.
fn tell(
    connection: &mut PostgresConnection,
    alloc: Global,
    request: &str,
    told: &mut String,
) -> Result<(), PostgresError> {
    if let Some(text) = request.strip_prefix(">") {
        let (mut count, mut last) = (0_u64, None);
        connection.each_row(text, |row| {
            count = count.saturating_add(1);
            last = Some(row);
        })?;
        write!(
            told,
            "{count} one by one, the last {:?} | ",
            last.as_ref().map(Row::columns)
        )?;
        return Ok(());
    }
    let (request, is_counted) = match request.strip_prefix("#") {
        Some(request) => (request, true),
        None => (request, false),
    };
    let (text, values) = match request.split_once(" <- ") {
        Some((text, values)) => (text, Some(values_of(alloc, values)?)),
        None => (request, None),
    };
    if is_counted {
        let count = match &values {
            Some(values) => connection.execute_with(text, values.as_slice())?,
            None => connection.execute(text)?,
        };
        write!(told, "{count} rows | ")?;
        return Ok(());
    }
    let rows = match &values {
        Some(values) => connection.query_with(text, values.as_slice())?,
        None => connection.query(text)?,
    };
    write_rows(told, rows.as_slice())?;
    Ok(())
}

// They have a `,` between them.
fn values_of<'a>(alloc: Global, values: &'a str) -> Result<Vec<Option<&'a str>>, AllocError> {
    let mut found: Vec<Option<&'a str>> = Vec::new(alloc);
    for value in values.split(',') {
        found.push((value != "NULL").then_some(value))?;
    }
    Ok(found)
}

fn write_rows(told: &mut String, rows: &[Row]) -> Result<(), AllocError> {
    for row in rows {
        write!(told, "{:?} ", row.columns())?;
    }
    told.push_str("| ")
}

/// What all threads count.
#[derive(Drop)]
struct Counts {
    left: AtomicU64,
    is_over: AtomicU64,
    done: AtomicU64,
    failed: AtomicU64,
    timeouts: AtomicU64,
    closed: AtomicU64,
    /// Answers that were not those of their own request.
    wrong: AtomicU64,
}

fn add_one(count: &AtomicU64) {
    count.fetch_add(1, Ordering::SeqCst);
}

/// When a connection is checked before it is lent.
#[derive(Clone, Copy)]
pub enum Checks {
    Always,
    /// And where one fails, the others that are idle are closed.
    AndEvict,
    /// Where it was idle for an hour.
    AfterAnHour,
    Never,
}

/// How connections are lent.
#[derive(Clone, Copy)]
pub struct Lending {
    pub checks: Checks,
    /// How long a `get` waits.
    pub patience: Duration,
    /// How many connections there are at most.
    pub size: u32,
}

#[derive(Drop)]
pub struct App<M: ManageConnection, R: PoolRuntime> {
    pool: PlainPool<M, R>,
    counts: Arc<Counts>,
    rt: R,
}

impl<M: ManageConnection, R: PoolRuntime + Print> App<M, R>
where
    M::Connection: Counting,
{
    pub fn new(rt: R, manager: M, lending: Lending) -> Result<App<M, R>, Fail> {
        let hour = Duration::from_secs(3600);
        let checks = lending.checks;
        let pool = Builder::new()
            .max_size(lending.size)
            .test_on_check_out(!matches!(checks, Checks::Never))
            .evict_idle_on_failed_check(matches!(checks, Checks::AndEvict))
            .test_if_idle_for(matches!(checks, Checks::AfterAnHour).then_some(hour))
            .connection_timeout(lending.patience)
            .max_retry_delay(Some(Duration::from_millis(200)))
            .build_unchecked(rt, manager)?;
        let zero = || AtomicU64::new(0);
        let counts = Counts {
            left: zero(),
            is_over: zero(),
            done: zero(),
            failed: zero(),
            timeouts: zero(),
            closed: zero(),
            wrong: zero(),
        };
        Ok(App {
            pool,
            counts: Arc::new(rt.alloc(), counts)?,
            rt,
        })
    }

    pub fn try_clone(&self) -> Result<App<M, R>, Fail> {
        Ok(App {
            pool: self.pool.try_clone()?,
            counts: Arc::try_clone(&self.counts)?,
            rt: self.rt,
        })
    }

    pub fn stop(&self) {
        self.counts.is_over.store(1, Ordering::SeqCst);
    }

    /// What a thread does: it counts, and holds each answer against what it may be.
    pub fn serve(&self, thread: u32) -> Result<(), AllocError> {
        let request = M::Connection::request(self.rt.alloc(), thread)?;
        let (mut last, mut unknown) = (None, 0u64);
        for _ in self.rt.forever() {
            if self.counts.is_over.load(Ordering::SeqCst) != 0 {
                break;
            }
            if !self.takes_one() {
                thread::sleep(&self.rt, Duration::from_millis(1));
                continue;
            }
            match self.counted(request.as_str()) {
                None => unknown += 1,
                Some(count) => {
                    if let Some(last) = last {
                        if count <= last || count > last + unknown + 1 {
                            add_one(&self.counts.wrong);
                        }
                    }
                    last = Some(count);
                    unknown = 0;
                    add_one(&self.counts.done);
                }
            }
        }
        Ok(())
    }

    fn takes_one(&self) -> bool {
        let left = self.counts.left.load(Ordering::SeqCst);
        left > 0
            && self
                .counts
                .left
                .compare_exchange(left, left - 1, Ordering::SeqCst, Ordering::SeqCst)
                .is_ok()
    }

    fn counted(&self, request: &str) -> Option<u64> {
        match self.pool.get() {
            Ok(mut connection) => {
                let count = connection.add_one(request);
                if count.is_none() {
                    add_one(&self.counts.failed);
                }
                count
            }
            Err(error) if error.kind() == ErrorKind::Closed => {
                add_one(&self.counts.closed);
                None
            }
            Err(error) => {
                add_one(&self.counts.timeouts);
                let _ = println!(self.rt; "# {error}");
                None
            }
        }
    }

    /// Does what a line says, and answers it with a line.
    pub fn obey(&self, line: &str) -> Result<(), Fail> {
        let (word, rest) = line.split_once(' ').unwrap_or((line, "0"));
        let number = rest.parse::<u64>().unwrap_or(0);
        match word {
            "go" => {
                self.counts.left.fetch_add(number, Ordering::SeqCst);
                println!(self.rt; "= going")?;
            }
            "evict" => println!(self.rt; "= {}", self.pool.evict()?)?,
            "open" => match self.pool.get() {
                Ok(mut connection) => println!(self.rt; "= {}", connection.leave_open(rest))?,
                Err(error) => println!(self.rt; "= {error}")?,
            },
            "transact" => match self.pool.get() {
                Ok(mut connection) => println!(self.rt; "= {}", connection.transact())?,
                Err(error) => println!(self.rt; "= {error}")?,
            },
            "refuse" => match self.pool.get() {
                Ok(mut connection) => println!(self.rt; "= {}", connection.is_refused())?,
                Err(error) => println!(self.rt; "= {error}")?,
            },
            "run" => match self.pool.get() {
                Ok(mut connection) => {
                    println!(self.rt; "= {}", connection.run(self.rt.alloc(), rest)?)?
                }
                Err(error) => println!(self.rt; "= {error}")?,
            },
            "get" => match self.pool.get() {
                Ok(_) => println!(self.rt; "= lent")?,
                Err(error) => println!(self.rt; "= {error}")?,
            },
            "drain" => match self.pool.drain(Duration::from_millis(number)) {
                Ok(()) => println!(self.rt; "= drained")?,
                Err(status) => println!(self.rt; "= {} are lent", status.lent)?,
            },
            _ => self.tell()?,
        }
        Ok(())
    }

    fn tell(&self) -> Result<(), Fail> {
        let (counts, status) = (&*self.counts, self.pool.status());
        let read = |count: &AtomicU64| count.load(Ordering::SeqCst);
        println!(self.rt;
            "= left={} done={} failed={} timeouts={} closed={} wrong={} idle={} lent={}",
            read(&counts.left),
            read(&counts.done),
            read(&counts.failed),
            read(&counts.timeouts),
            read(&counts.closed),
            read(&counts.wrong),
            status.idle,
            status.lent
        )?;
        Ok(())
    }
}
