//! What is said over the socket: requests, and their answers.

ghost use Rattle.std.specs.Prelude.{◌≡◌, ◌<◌, IfOk, OnOk, length};
ghost use Rattle.redis_codec.specs.Sessions.{plain};

use crate::error::RedisError;
use crate::pipeline::Pipeline;
use crate::socket::Socket;
use crate::standing::must_be_a_word;
use deadline::Deadline;
use redis_codec::{Conversation, Item, Limits};
use std::alloc::Global;

const PIECE: usize = 16 * 1024;

#[derive(Drop)]
pub struct Wire {
    socket: Socket,
    pub talk: Conversation,
    // What a read writes to.
    piece: Vec<u8>,
}

impl Wire {
    pub fn open(
        rt: HostRuntime,
        address: &str,
        limits: Limits,
        deadline: Deadline,
    ) -> Result<Wire, RedisError> {
        let mut piece = Vec::new(rt.alloc());
        piece.resize(PIECE, 0)?;
        Ok(Wire {
            socket: Socket::open(rt, address, deadline)?,
            talk: Conversation::new(rt.alloc(), limits)?,
            piece,
        })
    }

    /// Sends a request.
    pub fn ask(&mut self, words: &[&[u8]], deadline: Deadline) -> Result<(), RedisError> {
        let request = self.talk.ask(words)?;
        self.socket.send(request.as_slice(), deadline)
    }

    /// Sends the requests of a pipeline.
    pub fn ask_all(&mut self, pipeline: &Pipeline, deadline: Deadline) -> Result<(), RedisError> {
        pipeline.expect_by(&mut self.talk)?;
        self.socket.send(pipeline.bytes(), deadline)
    }

    /// Sends requests that were asked.
    pub fn send(&mut self, requests: &[u8], deadline: Deadline) -> Result<(), RedisError>
        ensures { self.new.talk ≡ self.old.talk }
    {
        self.socket.send(requests, deadline)
    }

    /// Waits for the answer to the request that waits for the longest.
    pub fn receive(&mut self, deadline: Deadline) -> Result<Vec<Item>, RedisError> {
        for _ in 0..u64::MAX {
            if let Some(items) = self.talk.answer()? {
                return Ok(items);
            }
            let count = self.socket.receive(self.piece.as_mut_slice(), deadline)?;
            let came = self.piece.as_slice().get(..count);
            self.talk.feed(came.ok_or(RedisError::Protocol)?)?;
        }
        Err(RedisError::Protocol)
    }

    /// Waits for so many answers.
    pub fn receive_all(
        &mut self,
        alloc: Global,
        count: usize,
        deadline: Deadline,
    ) -> Result<Vec<Vec<Item>>, RedisError>
        ensures { IfOk result (λ answers. length answers.items ≡ count) }
    {
        let mut answers = Vec::new(alloc);
        for _ in 0..u64::MAX {
            if answers.len() == count {
                return Ok(answers);
            }
            answers.push(self.receive(deadline)?)?;
        }
        Err(RedisError::Protocol)
    }

    /// Reads the answers to a reset, which are so many words.
    pub fn end_reset(&mut self, count: usize, deadline: Deadline) -> Result<(), RedisError>
        ensures plain { OnOk result (0 < count → self.new.talk.session ≡ plain) }
        ensures none { count ≡ 0 → self.new.talk ≡ self.old.talk }
    {
        if count == 0 {
            return Ok(());
        }
        for _ in 0..count {
            must_be_a_word(self.receive(deadline)?)?;
        }
        self.talk.begin();
        Ok(())
    }

    /// Fails where an answer is owed, or bytes came that nobody asked for.
    pub fn must_be_quiet(&mut self, deadline: Deadline) -> Result<(), RedisError>
        ensures { self.new.talk ≡ self.old.talk }
    {
        if !self.talk.is_settled() {
            return Err(RedisError::Unasked);
        }
        self.socket.must_be_quiet(deadline)
    }
}
