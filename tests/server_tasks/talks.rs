//! What is said to each kind of server, over what was lent, and how that is told.

use futures::task::{Context, Poll};
use futures::{Future, ready};
use postgres_tasks::{Commands as Queries, Executed, PostgresError, Queried, Row, Session};
use r2d2_async::ManageConnection;
use redis_tasks::{Commands, Exchange, ExchangeOfAll, Pipeline, RedisError, Reply};
use std::alloc::{AllocError, Global};
use std::ops::{Deref, DerefMut};

/// A connection of no pool.
#[derive(Drop)]
pub struct Owned<C>(pub C);

impl<C: Drop> Deref for Owned<C> {
    type Target = C;

    fn deref(&self) -> &C {
        &self.0
    }
}

impl<C: Drop> DerefMut for Owned<C> {
    fn deref_mut(&mut self) -> &mut C {
        &mut self.0
    }
}

/// A kind of server.
pub trait Server: ManageConnection {
    /// What comes of a request over a connection of no pool.
    type ToldAlone: Future<Output = (Owned<Self::Connection>, Result<String, AllocError>)>;

    fn tell_alone(
        alloc: Global,
        connection: Self::Connection,
        request: &str,
    ) -> Result<Self::ToldAlone, AllocError>;

    /// What stands between two requests of a line.
    fn separator() -> &'static str;

    /// A request whose answer has this number, and how that is told.
    fn echo(alloc: Global, number: u64) -> Result<(String, String), AllocError>;

    /// Whether nothing more is to be said over it.
    fn is_broken(connection: &Self::Connection) -> bool;
}

/// One to which requests are sent over what was lent.
pub trait Talks<L>: Server {
    /// What was lent, and what came of a request: an error stands behind a `! `.
    type Told: Future<Output = (L, Result<String, AllocError>)>;

    fn tell(alloc: Global, lent: L, request: &str) -> Result<Self::Told, AllocError>;
}

impl Server for redis_tasks::TaskConnectionManager {
    type ToldAlone = RedisTold<Owned<redis_tasks::TaskConnection>>;

    fn tell_alone(
        alloc: Global,
        connection: redis_tasks::TaskConnection,
        request: &str,
    ) -> Result<Self::ToldAlone, AllocError> {
        RedisTold::of(alloc, Owned(connection), request)
    }

    fn separator() -> &'static str {
        ";"
    }

    fn echo(alloc: Global, number: u64) -> Result<(String, String), AllocError> {
        let told = format!(in alloc; "{number}")?;
        Ok((format!(in alloc; "ECHO {number}")?, told))
    }

    fn is_broken(connection: &redis_tasks::TaskConnection) -> bool {
        connection.is_broken()
    }
}

impl<L: DerefMut<Target = redis_tasks::TaskConnection> + Drop> Talks<L>
    for redis_tasks::TaskConnectionManager {
    type Told = RedisTold<L>;

    fn tell(alloc: Global, lent: L, request: &str) -> Result<RedisTold<L>, AllocError> {
        RedisTold::of(alloc, lent, request)
    }
}

#[derive(Drop)]
enum AskedOfRedis<L> {
    One(Exchange<L>),
    All(ExchangeOfAll<L>),
}

#[derive(Drop)]
pub struct RedisTold<L> {
    alloc: Global,
    asked: AskedOfRedis<L>,
}

impl<L: DerefMut<Target = redis_tasks::TaskConnection> + Drop> RedisTold<L> {
    // Commands behind a `&`, with a `,` between them, are a pipeline.
    fn of(alloc: Global, lent: L, request: &str) -> Result<RedisTold<L>, AllocError> {
        let asked = match request.trim().strip_prefix("&") {
            Some(commands) => AskedOfRedis::All(lent.run_all(pipeline_of(alloc, commands)?)),
            None => AskedOfRedis::One(lent.command(words_of(alloc, request)?.as_slice())),
        };
        Ok(RedisTold { alloc, asked })
    }
}

fn words_of<'a>(alloc: Global, request: &'a str) -> Result<Vec<&'a str>, AllocError> {
    let mut words: Vec<&'a str> = Vec::new(alloc);
    for word in request.split_whitespace() {
        words.push(word)?;
    }
    Ok(words)
}

fn pipeline_of(alloc: Global, commands: &str) -> Result<Pipeline, AllocError> {
    let mut pipeline = Pipeline::new(alloc);
    for command in commands.split(',') {
        pipeline.command(words_of(alloc, command)?.as_slice())?;
    }
    Ok(pipeline)
}

impl<L: DerefMut<Target = redis_tasks::TaskConnection> + Drop> Future for RedisTold<L> {
    type Output = (L, Result<String, AllocError>);

    fn poll(&mut self, cx: &mut Context<'_>) -> Poll<Self::Output> {
        match &mut self.asked {
            AskedOfRedis::One(exchange) => {
                let (lent, reply) = ready!(exchange.poll(cx));
                Poll::Ready((lent, told_of_redis(self.alloc, reply)))
            }
            AskedOfRedis::All(exchange) => {
                let (lent, replies) = ready!(exchange.poll(cx));
                Poll::Ready((lent, told_of_all(self.alloc, replies)))
            }
        }
    }
}

fn told_of_redis(alloc: Global, reply: Result<Reply, RedisError>) -> Result<String, AllocError> {
    match reply {
        Ok(reply) => told_of_reply(alloc, &reply),
        Err(error) => format!(in alloc; "! {error}"),
    }
}

fn told_of_all(
    alloc: Global,
    replies: Result<Vec<Reply>, RedisError>,
) -> Result<String, AllocError> {
    let mut told = String::new(alloc);
    match replies {
        Ok(replies) => {
            for (place, reply) in replies.as_slice().iter().enumerate() {
                let gap = if place > 0 { " | " } else { "" };
                write!(told, "{gap}{}", told_of_reply(alloc, reply)?)?;
            }
        }
        Err(error) => write!(told, "! {error}")?,
    }
    Ok(told)
}

fn told_of_reply(alloc: Global, reply: &Reply) -> Result<String, AllocError> {
    match reply.as_text() {
        Some(text) => String::from_str(alloc, text.trim()),
        None => format!(in alloc; "{reply:?}"),
    }
}

impl Server for postgres_tasks::TaskConnectionManager {
    type ToldAlone = PostgresTold<Owned<postgres_tasks::TaskConnection>>;

    fn tell_alone(
        alloc: Global,
        connection: postgres_tasks::TaskConnection,
        request: &str,
    ) -> Result<Self::ToldAlone, AllocError> {
        PostgresTold::of(alloc, Owned(connection), request)
    }

    fn separator() -> &'static str {
        ";;"
    }

    fn echo(alloc: Global, number: u64) -> Result<(String, String), AllocError> {
        let told = format!(in alloc; "[Some(\"{number}\")]")?;
        Ok((format!(in alloc; "SELECT {number}")?, told))
    }

    fn is_broken(connection: &postgres_tasks::TaskConnection) -> bool {
        connection.session() == Session::Broken
    }
}

impl<L: DerefMut<Target = postgres_tasks::TaskConnection> + Drop> Talks<L>
    for postgres_tasks::TaskConnectionManager {
    type Told = PostgresTold<L>;

    fn tell(alloc: Global, lent: L, request: &str) -> Result<PostgresTold<L>, AllocError> {
        PostgresTold::of(alloc, lent, request)
    }
}

#[derive(Drop)]
enum Asked<L> {
    Rows(Queried<L>),
    Count(Executed<L>),
}

#[derive(Drop)]
pub struct PostgresTold<L> {
    alloc: Global,
    asked: Asked<L>,
}

impl<L: DerefMut<Target = postgres_tasks::TaskConnection> + Drop> PostgresTold<L> {
    // A query behind a `#` tells how many rows it was about. Its values stand behind a ` <- `.
    fn of(alloc: Global, lent: L, request: &str) -> Result<PostgresTold<L>, AllocError> {
        let (request, is_counted) = match request.trim().strip_prefix("#") {
            Some(request) => (request, true),
            None => (request.trim(), false),
        };
        let (text, values) = match request.split_once(" <- ") {
            Some((text, values)) => (text, Some(values_of(alloc, values)?)),
            None => (request, None),
        };
        let asked = match (is_counted, &values) {
            (true, Some(values)) => Asked::Count(lent.execute_with(text, values.as_slice())),
            (true, None) => Asked::Count(lent.execute(text)),
            (false, Some(values)) => Asked::Rows(lent.query_with(text, values.as_slice())),
            (false, None) => Asked::Rows(lent.query(text)),
        };
        Ok(PostgresTold { alloc, asked })
    }
}

impl<L: DerefMut<Target = postgres_tasks::TaskConnection> + Drop> Future for PostgresTold<L> {
    type Output = (L, Result<String, AllocError>);

    fn poll(&mut self, cx: &mut Context<'_>) -> Poll<Self::Output> {
        match &mut self.asked {
            Asked::Rows(queried) => {
                let (lent, rows) = ready!(queried.poll(cx));
                Poll::Ready((lent, told_of_rows(self.alloc, rows)))
            }
            Asked::Count(executed) => {
                let (lent, count) = ready!(executed.poll(cx));
                Poll::Ready((lent, told_of_count(self.alloc, count)))
            }
        }
    }
}

// They have a `,` between them.
fn values_of<'a>(alloc: Global, values: &'a str) -> Result<Vec<Option<&'a str>>, AllocError> {
    let mut found: Vec<Option<&'a str>> = Vec::new(alloc);
    for value in values.split(',') {
        found.push((value != "NULL").then_some(value))?;
    }
    Ok(found)
}

fn told_of_rows(
    alloc: Global,
    rows: Result<Vec<Row>, PostgresError>,
) -> Result<String, AllocError> {
    let mut told = String::new(alloc);
    match rows {
        Ok(rows) => {
            for (place, row) in rows.as_slice().iter().enumerate() {
                let gap = if place > 0 { " " } else { "" };
                write!(told, "{gap}{:?}", row.columns())?;
            }
        }
        Err(error) => write!(told, "! {error}")?,
    }
    Ok(told)
}

fn told_of_count(alloc: Global, count: Result<u64, PostgresError>) -> Result<String, AllocError> {
    match count {
        Ok(count) => format!(in alloc; "{count} rows"),
        Err(error) => format!(in alloc; "! {error}"),
    }
}
