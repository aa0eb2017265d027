//! What a server replies.

use crate::error::RedisError;
use redis_codec::Item;
use std::alloc::{AllocError, Global};

/// A reply. The lists within one another are no more than the manager's limits allow.
#[derive(Debug, Drop)]
pub enum Reply {
    /// A word, as `OK`.
    Status(String),
    Number(i64),
    /// Any bytes.
    Value(Vec<u8>),
    /// There is no such value, or the transaction was given up.
    Nothing,
    /// A list, as the reply to EXEC. A map is the list of its keys, each with its value behind it.
    List(Vec<Reply>),
    /// A command of a transaction that was refused.
    Refused(String),
}

impl Reply {
    /// The text of a word, or of a value that is UTF-8.
    pub fn as_text(&self) -> Option<&str> {
        match self {
            Reply::Status(text) => Some(text.as_str()),
            Reply::Value(bytes) => str::from_utf8(bytes.as_slice()).ok(),
            _ => None,
        }
    }

    /// The replies of a list.
    pub fn as_list(&self) -> Option<&[Reply]> {
        match self {
            Reply::List(replies) => Some(replies.as_slice()),
            _ => None,
        }
    }

    /// The value behind a key, of a map.
    pub fn get(&self, key: &str) -> Option<&Reply> {
        for pair in self.as_list()?.chunks(2) {
            if let [name, value] = pair {
                if name.as_text() == Some(key) {
                    return Some(value);
                }
            }
        }
        None
    }

    /// The reply of these parts.
    pub fn of(alloc: Global, items: Vec<Item>) -> Result<Reply, RedisError> {
        // The last part is taken first, so that the replies of a list are there before the list.
        let mut items = items;
        items.reverse();
        let mut replies = Vec::new(alloc);
        for item in items {
            let reply = match item {
                Item::List(count) => Reply::List(last(alloc, &mut replies, count)?),
                item => leaf(alloc, item)?,
            };
            replies.push(reply)?;
        }
        replies.pop().ok_or(RedisError::Protocol)
    }
}

// The replies that were made last, the latest first.
fn last(alloc: Global, made: &mut Vec<Reply>, count: usize) -> Result<Vec<Reply>, RedisError> {
    let mut list = Vec::new(alloc);
    for _ in 0..count {
        list.push(made.pop().ok_or(RedisError::Protocol)?)?;
    }
    Ok(list)
}

fn leaf(alloc: Global, item: Item) -> Result<Reply, RedisError> {
    match item {
        Item::Word(text) => Ok(Reply::Status(escaped(alloc, text.as_slice())?)),
        Item::Refusal(text) => Ok(Reply::Refused(escaped(alloc, text.as_slice())?)),
        Item::Number(text) => Ok(Reply::Number(number(text.as_slice())?)),
        Item::Value(bytes) => Ok(Reply::Value(bytes)),
        Item::Nothing | Item::List(_) => Ok(Reply::Nothing),
    }
}

fn number(text: &[u8]) -> Result<i64, RedisError> {
    let text = str::from_utf8(text).map_err(|_| RedisError::Protocol)?;
    text.parse().map_err(|_| RedisError::Protocol)
}

/// A server's text, which may go to a log or a terminal: without control characters, and UTF-8.
pub(crate) fn escaped(alloc: Global, bytes: &[u8]) -> Result<String, AllocError> {
    let mut text = String::new(alloc);
    match str::from_utf8(bytes) {
        Ok(own) => {
            for letter in own.chars() {
                push_letter(&mut text, letter)?;
            }
        }
        Err(_) => {
            for byte in bytes {
                push_byte(&mut text, *byte)?;
            }
        }
    }
    Ok(text)
}

fn push_letter(text: &mut String, letter: char) -> Result<(), AllocError> {
    if letter.is_control() {
        write!(text, "\\u{{{:x}}}", letter as u32)
    } else {
        text.push(letter)
    }
}

fn push_byte(text: &mut String, byte: u8) -> Result<(), AllocError> {
    if byte.is_ascii_graphic() || byte == b' ' {
        text.push(char::from(byte))
    } else {
        write!(text, "\\x{byte:02x}")
    }
}
