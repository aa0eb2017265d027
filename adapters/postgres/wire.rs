//! What is said over the socket: requests, and the server's messages.

use crate::answer::{Answer, Limits, Reading};
use crate::error::PostgresError;
use crate::socket::Socket;
use crate::standing::must_be_taken;
use deadline::Deadline;
use postgres_codec::{Conversation, Message};
use std::alloc::Global;

const PIECE: usize = 16 * 1024;

#[derive(Drop)]
pub struct Wire {
    alloc: Global,
    socket: Socket,
    pub talk: Conversation,
    // What a read writes to.
    piece: Vec<u8>,
}

impl Wire {
    /// Opens the socket. An answer may have so many bytes.
    pub fn open(
        rt: HostRuntime,
        address: &str,
        limit: usize,
        deadline: Deadline,
    ) -> Result<Wire, PostgresError> {
        let mut piece = Vec::new(rt.alloc());
        piece.resize(PIECE, 0)?;
        Ok(Wire {
            alloc: rt.alloc(),
            socket: Socket::open(rt, address, deadline)?,
            talk: Conversation::new(rt.alloc(), limit),
            piece,
        })
    }

    /// Sends a request, which has an end of its own.
    pub fn ask(&mut self, request: &[u8], deadline: Deadline) -> Result<(), PostgresError> {
        self.talk.expect();
        self.send(request, deadline)
    }

    /// Sends requests that are expected, or a step of a login.
    pub fn send(&mut self, bytes: &[u8], deadline: Deadline) -> Result<(), PostgresError> {
        self.socket.send(bytes, deadline)
    }

    /// Waits for the next message.
    pub fn receive(&mut self, deadline: Deadline) -> Result<Message, PostgresError> {
        for _ in 0..u64::MAX {
            if let Some(message) = self.talk.next()? {
                return Ok(message);
            }
            self.feed(deadline)?;
        }
        Err(PostgresError::Protocol)
    }

    /// Waits for the next answer.
    pub fn answer(&mut self, limits: Limits, deadline: Deadline) -> Result<Answer, PostgresError> {
        let mut reading = Reading::new(self.alloc);
        for _ in 0..u64::MAX {
            if let Some(answer) = reading.go_on(&mut self.talk, limits)? {
                return Ok(answer);
            }
            self.feed(deadline)?;
        }
        Err(PostgresError::Protocol)
    }

    /// Reads the answers to a reset, which are so many.
    pub fn end_reset(
        &mut self,
        count: usize,
        limits: Limits,
        deadline: Deadline,
    ) -> Result<(), PostgresError> {
        for _ in 0..count {
            must_be_taken(self.answer(limits, deadline)?)?;
        }
        Ok(())
    }

    // Waits for bytes.
    fn feed(&mut self, deadline: Deadline) -> Result<(), PostgresError> {
        let count = self.socket.receive(self.piece.as_mut_slice(), deadline)?;
        let came = self.piece.as_slice().get(..count);
        self.talk.feed(came.ok_or(PostgresError::Protocol)?)?;
        Ok(())
    }

    /// Fails where a request has not ended, or bytes came that nobody asked for.
    pub fn must_be_quiet(&mut self, deadline: Deadline) -> Result<(), PostgresError> {
        if !self.talk.is_settled() {
            return Err(PostgresError::Unasked);
        }
        self.socket.must_be_quiet(deadline)
    }

    /// Asks the server, over a connection of its own, to end the query that runs on this one, whose
    /// key this is. The server closes that one once it was asked.
    pub fn cancel(
        &self,
        key: &[u8],
        asking: Deadline,
        answer: Deadline,
    ) -> Result<(), PostgresError> {
        let mut socket = self.socket.beside(asking)?;
        let request = postgres_codec::cancel(self.alloc, key)?;
        socket.send(request.as_slice(), asking)?;
        let mut byte = [0; 1];
        socket.receive(&mut byte, answer)?;
        Ok(())
    }
}
