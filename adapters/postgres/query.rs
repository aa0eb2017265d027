//! What is asked.

ghost use Rattle.std.specs.Prelude.{◌≡◌, IfOk, None};
ghost use Rattle.postgres_codec.specs.Requests.{Bytes, query_made, query_with_made, bytes_of};

use crate::error::PostgresError;
use crate::mark;
use crate::statements::Asked;
use postgres_codec::Mark;
use std::alloc::Global;

/// A request that may be sent, and what its words tell of what it leaves.
#[derive(Drop)]
pub struct Query {
    pub request: Vec<u8>,
    pub mark: Mark,
    /// What `Statements` knows it by.
    pub asked: Option<Asked>,
}

impl Query {
    /// Nothing, before anything is asked.
    pub fn none(alloc: Global) -> Query
        ensures { result.asked ≡ None }
    {
        Query {
            request: Vec::new(alloc),
            mark: Mark::Plain,
            asked: None,
        }
    }

    /// One of these words, or several with `;` between them.
    pub fn of(alloc: Global, text: &str) -> Result<Query, PostgresError>
        ensures bytes { IfOk result (λ query. query_made text.now ≡ Bytes query.request.items) }
        ensures alone { IfOk result (λ query. query.asked ≡ None) }
    {
        Ok(Query {
            request: postgres_codec::query(alloc, text)?,
            mark: mark::of_query(text),
            asked: None,
        })
    }

    /// One that leaves nothing.
    pub fn plain(alloc: Global, text: &str) -> Result<Query, PostgresError>
        ensures bytes { IfOk result (λ query. query_made text.now ≡ Bytes query.request.items) }
        ensures alone { IfOk result (λ query. query.asked ≡ None) }
        ensures mark { IfOk result (λ query. query.mark ≡ Mark.Plain) }
    {
        Ok(Query {
            request: postgres_codec::query(alloc, text)?,
            mark: Mark::Plain,
            asked: None,
        })
    }

    /// One with values for its parameters. Refused is a zero byte in the text, more than 65,535
    /// values, and what is longer than a server takes.
    pub fn with(alloc: Global, text: &str, values: &[Option<&str>]) -> Result<Query, PostgresError>
        ensures bytes { IfOk result (λ query.
            query_with_made text.now (bytes_of values.now) ≡ Bytes query.request.items) }
        ensures alone { IfOk result (λ query. query.asked ≡ None) }
    {
        Ok(Query {
            request: postgres_codec::query_with(alloc, text, values)?,
            mark: mark::of_query(text),
            asked: None,
        })
    }
}
