//! Commands that go out together.

ghost use Rattle.std.specs.Prelude.{◌≡◌, length};

use redis_codec::{Command, Conversation};
use std::alloc::{AllocError, Global};

/// Commands that go out in one write, as soon as a connection is given them. Their replies come in
/// the same order.
#[derive(Drop)]
pub struct Pipeline {
    alloc: Global,
    bytes: Vec<u8>,
    commands: Vec<Command>,
}

impl Pipeline {
    /// One of no command.
    pub fn new(alloc: Global) -> Pipeline
        ensures { length result.commands.items ≡ 0 }
    {
        Pipeline {
            alloc,
            bytes: Vec::new(alloc),
            commands: Vec::new(alloc),
        }
    }

    /// Adds a command, as `&["INCR", "visits"]`. The error is lack of memory, and adds nothing.
    pub fn command(&mut self, words: &[&str]) -> Result<(), AllocError> {
        let mut bytes: Vec<&[u8]> = Vec::new(self.alloc);
        for word in words {
            bytes.push(word.as_bytes())?;
        }
        self.call(bytes.as_slice())
    }

    /// The same with words of any bytes, as `&[b"SET", key, value]`.
    pub fn call(&mut self, words: &[&[u8]]) -> Result<(), AllocError> {
        let request = redis_codec::request(self.alloc, words)?;
        self.commands.reserve(1)?;
        self.bytes.extend_from_slice(request.as_slice())?;
        self.commands.push_reserved(Command::of(words));
        Ok(())
    }

    /// How many commands it has.
    pub fn len(&self) -> usize
        ensures { result ≡ length self.now.commands.items }
    {
        self.commands.len()
    }

    /// Whether it has none.
    pub fn is_empty(&self) -> bool {
        self.commands.is_empty()
    }

    /// What is sent.
    pub fn bytes(&self) -> &[u8] {
        self.bytes.as_slice()
    }

    /// An answer to each is waited for from now on.
    pub fn expect_by(&self, talk: &mut Conversation) -> Result<(), AllocError> {
        for command in self.commands.as_slice() {
            talk.expect(*command)?;
        }
        Ok(())
    }
}
