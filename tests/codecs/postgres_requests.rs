// What is asked of PostgreSQL, read back as a server reads it: each length counts bytes.

use crate::cases::play_each;
use crate::drawing::Draw;
use postgres_codec::{RequestError, close, prepare, prepared, query, query_with};
use std::alloc::AllocError;
use std::test::Fail;

/// What is left of bytes of which those in front were read.
#[derive(Drop)]
struct Rest<'a>(&'a [u8]);

impl<'a> Rest<'a> {
    fn take(&mut self, count: usize) -> Option<&'a [u8]> {
        let found = self.0.get(..count)?;
        self.0 = self.0.get(count..)?;
        Some(found)
    }

    fn is(&mut self, wanted: &[u8]) -> bool {
        self.take(wanted.len()) == Some(wanted)
    }

    fn number(&mut self) -> Option<u32> {
        match self.take(4)? {
            [a, b, c, d] => Some(u32::from_be_bytes([*a, *b, *c, *d])),
            _ => None,
        }
    }

    // The body of the next message, which is to be of this kind.
    fn body(&mut self, kind: u8) -> Option<Rest<'a>> {
        if !self.is(&[kind]) {
            return None;
        }
        let length = self.number()?;
        Some(Rest(self.take(length.checked_sub(4)? as usize)?))
    }

    fn is_text(&mut self, words: &str) -> bool {
        self.is(words.as_bytes()) && self.is(&[0])
    }

    fn is_value(&mut self, value: Option<&str>) -> bool {
        match (self.number(), value) {
            (Some(u32::MAX), None) => true,
            (Some(length), Some(value)) => {
                length as usize == value.len() && self.is(value.as_bytes())
            }
            _ => false,
        }
    }
}

fn is_query(words: &str, bytes: &[u8]) -> Option<bool> {
    let mut rest = Rest(bytes);
    let mut body = rest.body(b'Q')?;
    Some(body.is_text(words) && body.0.is_empty() && rest.0.is_empty())
}

// The words of a statement of this name, and values for it.
fn is_named(name: &str, words: &str, values: &[Option<&str>], bytes: &[u8]) -> Option<bool> {
    let mut rest = Rest(bytes);
    let mut parse = rest.body(b'P')?;
    let is_parsed = parse.is_text(name) && parse.is_text(words) && parse.is(&[0, 0]);
    Some(is_parsed && parse.0.is_empty() && is_bound(name, values, rest.0)?)
}

// Values for the statement of this name.
fn is_bound(name: &str, values: &[Option<&str>], bytes: &[u8]) -> Option<bool> {
    let mut rest = Rest(bytes);
    let mut bind = rest.body(b'B')?;
    let count = (values.len() as u16).to_be_bytes();
    let is_head = bind.is_text("") && bind.is_text(name) && bind.is(&[0, 0]);
    let mut is_bound = is_head && bind.is(&count);
    for value in values {
        is_bound = is_bound && bind.is_value(*value);
    }
    is_bound = is_bound && bind.is(&[0, 0]) && bind.0.is_empty();
    let is_run = rest.body(b'E')?.is(&[0; 5]) && rest.body(b'S')?.0.is_empty();
    Some(is_bound && is_run && rest.0.is_empty())
}

fn is_close(name: &str, bytes: &[u8]) -> Option<bool> {
    let mut rest = Rest(bytes);
    let mut body = rest.body(b'C')?;
    Some(body.is(b"S") && body.is_text(name) && body.0.is_empty() && rest.0.is_empty())
}

fn drawn_values(draw: &mut Draw) -> Result<Vec<Option<String>>, AllocError> {
    let mut values = Vec::new(draw.alloc);
    for _ in 0..draw.below(6) {
        values.push(if draw.one_in(4) {
            None
        } else {
            Some(draw.text(20)?)
        })?;
    }
    Ok(values)
}

#[test]
fn drawn_queries(rt: HostRuntime) -> Result<(), Fail> {
    play_each(rt, |seed| {
        let draw = &mut Draw::of(rt.alloc(), seed);
        let (words, values) = (draw.text(40)?, drawn_values(draw)?);
        let mut bound: Vec<Option<&str>> = Vec::new(rt.alloc());
        for value in values.iter() {
            bound.push(value.as_deref())?;
        }
        let plain = query(rt.alloc(), words.as_str()).map_err(|_| "no query")?;
        let with = query_with(rt.alloc(), words.as_str(), bound.as_slice());
        let with = with.map_err(|_| "no query with values")?;
        let is_plain = is_query(words.as_str(), plain.as_slice());
        let is_with = is_named("", words.as_str(), bound.as_slice(), with.as_slice());
        draw.must(rt, "a query is read back", is_plain == Some(true));
        draw.must(rt, "its values are read back", is_with == Some(true));
        Ok(())
    })
}

#[test]
fn drawn_statements(rt: HostRuntime) -> Result<(), Fail> {
    play_each(rt, |seed| {
        let draw = &mut Draw::of(rt.alloc(), seed);
        let (alloc, name, words) = (rt.alloc(), draw.text(20)?, draw.text(40)?);
        let values = drawn_values(draw)?;
        let mut bound: Vec<Option<&str>> = Vec::new(alloc);
        for value in values.iter() {
            bound.push(value.as_deref())?;
        }
        let (name, words, bound) = (name.as_str(), words.as_str(), bound.as_slice());
        let kept = prepare(alloc, name, words, bound).map_err(|_| "none to keep")?;
        let again = prepared(alloc, name, bound).map_err(|_| "none again")?;
        let closed = close(alloc, name).map_err(|_| "none to forget")?;
        let is_kept = is_named(name, words, bound, kept.as_slice());
        let is_again = is_bound(name, bound, again.as_slice());
        draw.must(rt, "a statement is read back", is_kept == Some(true));
        draw.must(rt, "its new values are read back", is_again == Some(true));
        let is_closed = is_close(name, closed.as_slice());
        draw.must(
            rt,
            "what is forgotten is read back",
            is_closed == Some(true),
        );
        Ok(())
    })
}

#[test]
fn zeros_in_names(rt: HostRuntime) -> Result<(), Fail> {
    let alloc = rt.alloc();
    let zero = Err(RequestError::ZeroByte);
    assert_eq!(rt; prepare(alloc, "a\0", "SELECT 1", &[]).map(|_| ()), zero);
    assert_eq!(rt; prepare(alloc, "a", "SELECT\0", &[]).map(|_| ()), zero);
    assert_eq!(rt; prepared(alloc, "\0", &[]).map(|_| ()), zero);
    assert_eq!(rt; close(alloc, "\0a").map(|_| ()), zero);
    Ok(())
}
