// What is asked of Redis, read back as a server reads it: each length counts bytes.

use crate::cases::play_each;
use crate::drawing::Draw;
use redis_codec::request;
use std::alloc::{AllocError, Global};
use std::test::Fail;

// The number in front of a line's end, behind this letter, and what comes after it.
fn number_at(kind: u8, bytes: &[u8]) -> Option<(usize, &[u8])> {
    let bytes = bytes.strip_prefix(&[kind])?;
    let end = bytes.iter().position(|byte| *byte == b'\r')?;
    let number = str::from_utf8(bytes.get(..end)?)
        .ok()?
        .parse::<usize>()
        .ok()?;
    Some((number, bytes.get(end..)?.strip_prefix(b"\r\n")?))
}

fn word_at(bytes: &[u8]) -> Option<(&[u8], &[u8])> {
    let (length, bytes) = number_at(b'$', bytes)?;
    let word = bytes.get(..length)?;
    Some((word, bytes.get(length..)?.strip_prefix(b"\r\n")?))
}

// Whether a request is of these words, and of nothing else.
fn is_of(words: &[Vec<u8>], bytes: &[u8]) -> bool {
    let Some((count, mut rest)) = number_at(b'*', bytes) else {
        return false;
    };
    for word in words {
        match word_at(rest) {
            Some((found, after)) if found == word.as_slice() => rest = after,
            _ => return false,
        }
    }
    count == words.len() && rest.is_empty()
}

fn drawn_words(draw: &mut Draw) -> Result<Vec<Vec<u8>>, AllocError> {
    let mut words = Vec::new(draw.alloc);
    for _ in 0..draw.below(6) {
        words.push(if draw.one_in(2) {
            draw.bytes(200)?
        } else {
            draw.text(20)?.into_bytes()
        })?;
    }
    Ok(words)
}

fn made(alloc: Global, words: &[Vec<u8>]) -> Result<Vec<u8>, AllocError> {
    let mut slices: Vec<&[u8]> = Vec::new(alloc);
    for word in words {
        slices.push(word.as_slice())?;
    }
    request(alloc, slices.as_slice())
}

#[test]
fn drawn_requests(rt: HostRuntime) -> Result<(), Fail> {
    play_each(rt, |seed| {
        let draw = &mut Draw::of(rt.alloc(), seed);
        let words = drawn_words(draw)?;
        let bytes = made(rt.alloc(), words.as_slice())?;
        draw.must(
            rt,
            "it is read back",
            is_of(words.as_slice(), bytes.as_slice()),
        );
        Ok(())
    })
}
