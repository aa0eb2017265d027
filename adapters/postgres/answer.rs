//! What the server answers to a query.

ghost use Rattle.std.specs.Prelude.{◌≢◌, IfOk};

use crate::error::PostgresError;
use crate::refusal::refused;
use postgres_codec::{Conversation, Mark, Message, Status};
use std::alloc::Global;

/// How much one answer may have.
#[derive(Clone, Copy, Debug, PartialEq, Eq)]
pub struct Limits {
    /// The bytes of all that the server says, and 32 for each value.
    pub bytes: usize,
    pub rows: usize,
}

/// What the server last said of a connection.
#[derive(Clone, Copy, Debug, PartialEq, Eq)]
pub enum Session {
    Idle,
    InTransaction,
    /// A statement of the transaction failed: until it is rolled back the server refuses all else.
    InFailedTransaction,
    /// A query has not had its answer, and never will; or nobody is logged in.
    Broken,
}

impl Session {
    /// How the server is once it is ready for a query.
    pub(crate) fn of(status: Status) -> Session
        ensures { result ≢ Session.Broken }
    {
        match status {
            Status::Idle => Session::Idle,
            Status::InTransaction => Session::InTransaction,
            Status::InFailedTransaction => Session::InFailedTransaction,
        }
    }
}

/// The columns of a row, as text, or None for NULL.
#[derive(Debug, Drop)]
pub struct Row {
    columns: Vec<Option<String>>,
}

impl Row {
    /// The text of a column, counted from 0; None if it is NULL, or if there is no such column.
    pub fn get(&self, column: usize) -> Option<&str> {
        match self.columns.as_slice().get(column) {
            Some(Some(text)) => Some(text.as_str()),
            _ => None,
        }
    }

    /// All of them.
    pub fn columns(&self) -> &[Option<String>] {
        self.columns.as_slice()
    }

    // The row of these values, which are to be text.
    fn of(alloc: Global, values: Vec<Option<Vec<u8>>>) -> Result<Row, PostgresError> {
        let mut columns = Vec::new(alloc);
        for value in values {
            columns.push(match value {
                Some(bytes) => Some(text_of(bytes)?),
                None => None,
            })?;
        }
        Ok(Row { columns })
    }
}

/// The text that bytes are.
pub fn text_of(bytes: Vec<u8>) -> Result<String, PostgresError> {
    match String::from_utf8(bytes) {
        Ok(text) => Ok(text),
        Err(_) => Err(PostgresError::Protocol),
    }
}

/// The rows of a query, or the server's refusal.
pub type Rows = Result<Vec<Row>, PostgresError>;

/// These, how many rows the statements returned or changed, in which session they left the
/// connection, and what they left on it.
#[derive(Drop)]
pub struct Answer {
    pub rows: Rows,
    pub affected: u64,
    pub session: Session,
    pub mark: Mark,
}

/// What has come of an answer.
#[derive(Drop)]
pub struct Reading {
    alloc: Global,
    rows: Vec<Row>,
    refused: Option<PostgresError>,
    affected: u64,
}

impl Reading {
    /// Nothing yet.
    pub fn new(alloc: Global) -> Reading {
        Reading {
            alloc,
            rows: Vec::new(alloc),
            refused: None,
            affected: 0,
        }
    }

    /// Takes in what came. The answer, once the server is ready again, or says that this is the
    /// end; then another one may be read.
    pub fn go_on(
        &mut self,
        talk: &mut Conversation,
        limits: Limits,
    ) -> Result<Option<Answer>, PostgresError> {
        for _ in 0..u64::MAX {
            let Some(message) = talk.next()? else {
                return Ok(None);
            };
            if let Some(session) = self.take(message, limits)? {
                return Ok(Some(self.answer(session, talk.take_mark())));
            }
        }
        Err(PostgresError::Protocol)
    }

    fn answer(&mut self, session: Session, mark: Mark) -> Answer {
        let read = std::mem::replace(self, Reading::new(self.alloc));
        Answer {
            rows: read.refused.map_or(Ok(read.rows), Err),
            affected: read.affected,
            session,
            mark,
        }
    }

    // Takes a message in. The session, where it is the last one.
    fn take(&mut self, message: Message, limits: Limits) -> Result<Option<Session>, PostgresError> {
        match message {
            Message::Ready(status) => return Ok(Some(Session::of(status))),
            Message::Row(_) if self.rows.len() >= limits.rows => {
                return Err(PostgresError::TooMuch);
            }
            Message::Row(values) => self.rows.push(Row::of(self.alloc, values)?)?,
            Message::Complete(done) => self.affected = self.affected.saturating_add(done.rows),
            Message::Refusal(refusal) => {
                self.refused = Some(refused(self.alloc, &refusal)?);
                if refusal.ends() {
                    return Ok(Some(Session::Broken));
                }
            }
            Message::Setting | Message::Notification | Message::Notice | Message::Passed => {}
            Message::Login(..) | Message::Key(_) => return Err(PostgresError::Protocol),
        }
        Ok(None)
    }
}
