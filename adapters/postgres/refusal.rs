//! What the server refuses with.

use crate::error::PostgresError;
use postgres_codec::Refusal;
use std::alloc::{AllocError, Global};

/// The error that it is.
pub fn refused(alloc: Global, refusal: &Refusal) -> Result<PostgresError, AllocError> {
    Ok(PostgresError::Refused {
        state: String::from_str(alloc, state_in(refusal.state.as_slice()))?,
        text: escaped(alloc, refusal.text.as_slice())?,
    })
}

// A SQLSTATE is five digits and capitals; anything else is none.
fn state_in(state: &[u8]) -> &str {
    let is_one = state.len() == 5
        && state
            .iter()
            .all(|byte| byte.is_ascii_digit() || byte.is_ascii_uppercase());
    if is_one {
        str::from_utf8(state).unwrap_or("")
    } else {
        ""
    }
}

// A server's text, which may go to a log or a terminal: without control characters, and UTF-8.
fn escaped(alloc: Global, bytes: &[u8]) -> Result<String, AllocError> {
    let mut text = String::new(alloc);
    match str::from_utf8(bytes) {
        Ok(own) => {
            for letter in own.chars() {
                push_letter(&mut text, letter)?;
            }
        }
        Err(_) => {
            for byte in bytes {
                push_byte(&mut text, *byte)?;
            }
        }
    }
    Ok(text)
}

fn push_letter(text: &mut String, letter: char) -> Result<(), AllocError> {
    if letter.is_control() {
        write!(text, "\\u{{{:x}}}", letter as u32)
    } else {
        text.push(letter)
    }
}

fn push_byte(text: &mut String, byte: u8) -> Result<(), AllocError> {
    if byte.is_ascii_graphic() || byte == b' ' {
        text.push(char::from(byte))
    } else {
        write!(text, "\\x{byte:02x}")
    }
}
