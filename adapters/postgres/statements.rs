//! The statements that the server keeps for a connection.

ghost use Rattle.std.specs.Prelude.{◌≡◌, ◌<◌, ◌≤◌, ◌++◌, ◌∷◌, ℕ, List, [], length, slice_get};
ghost use Rattle.std.specs.Prelude.{slice_set, is_ok, None, Some, IfNone, IfOk, IfSome, IsFalse};
ghost use Rattle.std.specs.Prelude.{IsSome, IsSomeAnd, IsTrue, OnOk};
ghost use Rattle.std.specs.String.{string_bytes};
ghost use Rattle.postgres_codec.specs.Requests.{Bytes, bytes_of, prepare_made, prepared_made};
ghost use Rattle.postgres_codec.specs.Requests.{query_with_made};

use crate::answer::Answer;
use crate::error::PostgresError;
use crate::mark;
use crate::query::Query;
use postgres_codec::{Mark, close, prepare, prepared};
use sha2::{Digest, Sha256};
use std::alloc::{AllocError, Global};

/// So many bytes of a digest name a statement.
const NAMED_BY: usize = 16;
/// The state of a refusal where the server keeps no statement of a name.
const UNKNOWN: &str = "26000";

/// The statements with values that the server keeps for a connection: those that were sent last, of
/// which there are no more than there is room for.
#[derive(Drop)]
pub struct Statements {
    alloc: Global,
    room: usize,
    kept: Vec<Box<Statement>>,
    // How many were sent.
    sent: u64,

    ghost within: { length kept.items ≤ room },
}

/// What the server keeps, or may keep.
#[derive(Drop)]
pub struct Statement {
    text: String,
    // It tells of the text alone: so it is no other's, wherever connections share a server's.
    name: String,
    mark: Mark,
    // Whether the server has it for sure.
    is_kept: bool,
    // The number of the request that was sent last.
    last: u64,
}

/// The statement of a query: its place, and where it is to be kept there from now on, itself.
#[derive(Drop)]
pub struct Asked {
    place: usize,
    new: Option<Box<Statement>>,
}

impl Statement {
    // One that the server has not yet.
    fn of(alloc: Global, text: &str) -> Result<Statement, AllocError>
        ensures text { IfOk result (λ it. string_bytes it.text ≡ text.now) }
        ensures kept { IfOk result (λ it. IsFalse it.is_kept) }
    {
        let mut name = String::from_str(alloc, "pool_")?;
        for byte in Sha256::digest(text.as_bytes()).iter().take(NAMED_BY) {
            write!(name, "{byte:02x}")?;
        }
        Ok(Statement {
            text: String::from_str(alloc, text)?,
            name,
            mark: mark::of_query(text),
            is_kept: false,
            last: 0,
        })
    }

    // Whether the server keeps it, and it is of this text.
    fn is_of(&self, text: &str) -> bool
        ensures { IsTrue result → string_bytes self.now.text ≡ text.now }
    {
        self.is_kept && self.text.as_str() == text
    }
}

impl Statements {
    /// None yet, and room for so many.
    pub fn new(alloc: Global, room: usize) -> Statements
        ensures none { result.kept.items ≡ [] }
        ensures room { result.room ≡ room }
    {
        Statements {
            alloc,
            room,
            kept: Vec::new(alloc),
            sent: 0,
        }
    }

    /// A query with values: by the statement that the server keeps of this text, or so that it keeps
    /// one from then on. Where there is no room it keeps none. The errors are those of `Query::with`.
    pub fn ask(&self, text: &str, values: &[Option<&str>]) -> Result<Query, PostgresError>
        ensures without { self.now.room ≡ 0 → IfOk result (λ query. (query.asked ≡ None)
            × (query_with_made text.now (bytes_of values.now) ≡ Bytes query.request.items)) }
        // A statement that is kept is asked for this text alone.
        ensures known { IfOk result (λ query. IfSome query.asked (λ asked. IfNone asked.new
            (IsSomeAnd (slice_get self.now.kept.items asked.place) (λ it.
            (string_bytes it.value.text ≡ text.now)
            × (prepared_made (string_bytes it.value.name) (bytes_of values.now)
            ≡ Bytes query.request.items))))) }
        ensures asked { 0 < self.now.room → IfOk result (λ query. IsSome query.asked) }
        ensures new { IfOk result (λ query. IfSome query.asked (λ asked. IfSome asked.new (λ it.
            (string_bytes it.value.text ≡ text.now) × IsFalse it.value.is_kept))) }
        ensures prepared { IfOk result (λ query. IfSome query.asked (λ asked. IfSome asked.new
            (λ it. (closed : List ℕ) × (made : List ℕ) × (query.request.items ≡ closed ++ made)
            × (prepare_made (string_bytes it.value.name) text.now (bytes_of values.now)
            ≡ Bytes made)))) }
    {
        if self.room == 0 {
            return Query::with(self.alloc, text, values);
        }
        let place = self.place_of(text);
        match self.known(place, text) {
            Some(known) => Ok(Query {
                request: prepared(self.alloc, known.name.as_str(), values)?,
                mark: known.mark,
                asked: Some(Asked { place, new: None }),
            }),
            None => self.prepare(place, text, values),
        }
    }

    // The statement in this place, where the server keeps it and it is of this text.
    fn known(&self, place: usize, text: &str) -> Option<&Box<Statement>>
        ensures place { IfSome result (λ it. slice_get self.now.kept.items place ≡ Some it.now) }
        ensures text { IfSome result (λ it. string_bytes it.now.value.text ≡ text.now) }
    {
        let known = self.kept.as_slice().get(place)?;
        if known.is_of(text) { Some(known) } else { None }
    }

    // Where it is, or is to be: behind all others, or in place of the one that was sent first.
    fn place_of(&self, text: &str) -> usize {
        let (mut place, mut last) = (self.kept.len(), u64::MAX);
        let is_full = place >= self.room;
        for (other, it) in self.kept.as_slice().iter().enumerate() {
            if it.text.as_str() == text {
                return other;
            }
            if is_full && it.last < last {
                (place, last) = (other, it.last);
            }
        }
        place
    }

    // The server is to forget what it keeps in this place, and what it may keep under this name.
    fn prepare(
        &self,
        place: usize,
        text: &str,
        values: &[Option<&str>],
    ) -> Result<Query, PostgresError>
        ensures asked { IfOk result (λ query. IsSomeAnd query.asked (λ asked.
            (asked.place ≡ place) × IsSomeAnd asked.new (λ it.
            (string_bytes it.value.text ≡ text.now) × IsFalse it.value.is_kept))) }
        ensures bytes { IfOk result (λ query. IfSome query.asked (λ asked. IfSome asked.new (λ it.
            (closed : List ℕ) × (made : List ℕ) × (query.request.items ≡ closed ++ made)
            × (prepare_made (string_bytes it.value.name) text.now (bytes_of values.now)
            ≡ Bytes made)))) }
    {
        let new = Box::new(self.alloc, Statement::of(self.alloc, text)?)?;
        let mut request = close(self.alloc, new.name.as_str())?;
        if let Some(former) = self.kept.as_slice().get(place) {
            let other = close(self.alloc, former.name.as_str())?;
            request.extend_from_slice(other.as_slice())?;
        }
        let query = prepare(self.alloc, new.name.as_str(), text, values)?;
        request.extend_from_slice(query.as_slice())?;
        Ok(Query {
            request,
            mark: new.mark,
            asked: Some(Asked {
                place,
                new: Some(new),
            }),
        })
    }

    /// This query is about to be sent. The error is lack of memory, after which it can't be.
    pub fn send(&mut self, query: &mut Query) -> Result<(), AllocError>
        ensures request { query.new.request ≡ query.old.request }
        ensures mark { query.new.mark ≡ query.old.mark }
        ensures other { query.old.asked ≡ None → self.new ≡ self.old }
        ensures new { IfSome query.old.asked (λ asked. IfSome asked.new (λ new. OnOk result
            (asked.place < length self.old.kept.items → IsSomeAnd
            (slice_get self.new.kept.items asked.place) (λ it.
            (it.value.text ≡ new.value.text) × (it.value.name ≡ new.value.name))))) }
        ensures room { self.new.room ≡ self.old.room }
    {
        let Some(asked) = &mut query.asked else {
            return Ok(());
        };
        self.sent = self.sent.saturating_add(1);
        if let Some(new) = asked.new.take() {
            self.put(asked.place, new)?;
        }
        if asked.place < self.kept.len() {
            self.kept[asked.place].last = self.sent;
        }
        Ok(())
    }

    // In place of another one, or behind all others, where there is room.
    fn put(&mut self, place: usize, new: Box<Statement>) -> Result<(), AllocError>
        ensures instead { place < length self.old.kept.items → OnOk result
            (self.new.kept.items ≡ slice_set self.old.kept.items place new) }
        ensures behind { place ≡ length self.old.kept.items → place < self.old.room →
            OnOk result (self.new.kept.items ≡ self.old.kept.items ++ new ∷ []) }
        ensures room { self.new.room ≡ self.old.room }
    {
        if place < self.kept.len() {
            self.kept[place] = new;
        } else if self.kept.len() < self.room {
            self.kept.push(new)?;
        }
        Ok(())
    }

    /// This is its answer. What was refused is prepared anew the next time, since it may be for
    /// what the tables were when it was prepared; all is, where the server keeps none of its name.
    pub fn answered(&mut self, query: &Query, answer: &Answer)
        ensures kept { IfSome query.now.asked (λ asked.
            IfSome (slice_get self.new.kept.items asked.place) (λ it.
            it.value.is_kept ≡ is_ok answer.now.rows)) }
        ensures other { query.now.asked ≡ None → self.new ≡ self.old }
        ensures room { self.new.room ≡ self.old.room }
    {
        let Some(asked) = &query.asked else {
            return;
        };
        if is_unknown(answer) {
            self.doubt();
        }
        if asked.place < self.kept.len() {
            self.kept[asked.place].is_kept = answer.rows.is_ok();
        }
    }

    // The server may have none of them.
    fn doubt(&mut self)
        ensures { self.new.room ≡ self.old.room }
    {
        for it in self.kept.as_mut_slice() {
            it.is_kept = false;
        }
    }

    /// The server is asked to forget them all.
    pub fn forget(&mut self)
        ensures none { self.new.kept.items ≡ [] }
        ensures room { self.new.room ≡ self.old.room }
    {
        self.kept = Vec::new(self.alloc);
    }
}

// Whether the server keeps no statement of the name that was asked for.
fn is_unknown(answer: &Answer) -> bool {
    match &answer.rows {
        Err(error) => error.state() == Some(UNKNOWN),
        Ok(_) => false,
    }
}
