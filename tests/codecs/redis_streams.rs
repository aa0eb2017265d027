// What Redis, or one who speaks like it, answers.

use crate::cases::{Host, play_each};
use crate::drawing::Draw;
use crate::reading::{End, PIECE, Pieces, Reader, read, taken};
use redis_codec::{CodecError, Conversation, Fault, Item, Limits};
use std::alloc::AllocError;
use std::mem;
use std::test::Fail;

/// What the adapter allows, and far more than comes.
const WIDE: Limits = Limits {
    bytes: 16 * 1024 * 1024,
    parts: 1024 * 1024,
    depth: 32,
};
/// What is asked, and what of it a session keeps.
const ASKED: [&[u8]; 6] = [b"GET", b"MULTI", b"EXEC", b"SUBSCRIBE", b"SELECT", b"RESET"];
/// Lengths that lie.
const LIES: [&[u8]; 14] = [
    b"",
    b"0",
    b"1",
    b"-1",
    b"-2",
    b"+1",
    b"1e3",
    b"\xd9\xa3",
    b"2147483648",
    b"15000000",
    b"16777217",
    b"999999999999999999",
    b"18446744073709551616",
    b"0000000000000000000000000000000000000002",
];
/// What an answer without an end begins with, and what goes on for ever.
const ENDLESS: [(&[u8], &[u8]); 16] = [
    (b"*1000\r\n", b":1\r\n"),
    (b"*1000\r\n", b"$-1\r\n"),
    (b"%1000\r\n", b"+x\r\n_\r\n"),
    (b"*1000\r\n", b"$0\r\n\r\n"),
    (b"*1000\r\n", b"*0\r\n"),
    (b"", b"*1\r\n"),
    (b"", b"%9\r\n*2\r\n"),
    (b"+", b"x"),
    (b":", b"9"),
    (b"-ERR ", b"\n"),
    (b"$", b"0"),
    (b"$1000000\r\n", b"x"),
    (b"*2\r\n$1000000\r\n", b"\r\n"),
    (b"_", b"_"),
    // (each part is short, but for what says nothing)
    (
        b"*1000\r\n",
        b"$00000000000000000000000000000000000000000000000000000000000000\r\n\r\n",
    ),
    (
        b"*1000\r\n",
        b"_all of this stands for nothing, and so does all that comes later\r\n",
    ),
];
/// What a part takes at most beside its text.
const PART: usize = 32;

/// Answers, and what they mean.
#[derive(Drop)]
struct Script {
    bytes: Vec<u8>,
    answers: Vec<Vec<Item>>,
    // Where the digits of a length stand, and how many they are.
    lengths: Vec<(usize, usize)>,
    // The most that one of the answers takes.
    most: Limits,
}

/// An answer, as far as it is made.
#[derive(Drop)]
struct Answer {
    items: Vec<Item>,
    weight: usize,
    depth: usize,
}

impl Script {
    // So many answers.
    fn of(draw: &mut Draw, count: usize) -> Result<Script, AllocError> {
        let mut script = Script {
            bytes: Vec::new(draw.alloc),
            answers: Vec::new(draw.alloc),
            lengths: Vec::new(draw.alloc),
            most: Limits {
                bytes: 0,
                parts: 0,
                depth: 0,
            },
        };
        for _ in 0..count {
            let mut answer = Answer {
                items: Vec::new(draw.alloc),
                weight: 0,
                depth: 0,
            };
            script.answer(draw, &mut answer, 1)?;
            script.most = Limits {
                bytes: script.most.bytes.max(answer.weight),
                parts: script.most.parts.max(answer.items.len()),
                depth: script.most.depth.max(answer.depth),
            };
            script.answers.push(answer.items)?;
        }
        Ok(script)
    }

    // An answer, within so many lists and one.
    fn answer(
        &mut self,
        draw: &mut Draw,
        answer: &mut Answer,
        level: usize,
    ) -> Result<(), AllocError> {
        match draw.below(if level < 6 { 10 } else { 7 }) {
            0 | 1 => self.words(draw, answer)?,
            2 => {
                let sign = if draw.one_in(2) { "-" } else { "" };
                let text = format!(in draw.alloc; "{sign}{}", draw.number() / 2)?.into_bytes();
                self.line(b':', text.as_slice())?;
                answer.weight += text.len();
                answer.items.push(Item::Number(text))?;
            }
            3 => {
                self.bytes
                    .extend_from_slice(draw.of_these(&[b"$-1\r\n", b"*-1\r\n", b"_\r\n"]))?;
                answer.items.push(Item::Nothing)?;
            }
            4 => {
                let text = draw.text(20)?.into_bytes();
                self.value(draw, answer, text)?;
            }
            5 | 6 => {
                let bytes = draw.bytes(30)?;
                self.value(draw, answer, bytes)?;
            }
            _ => self.list(draw, answer, level)?,
        }
        Ok(())
    }

    // A word, or a refusal.
    fn words(&mut self, draw: &mut Draw, answer: &mut Answer) -> Result<(), AllocError> {
        let text = draw.bytes_without(b'\r', 12)?;
        let is_refused = draw.one_in(2);
        self.line(if is_refused { b'-' } else { b'+' }, text.as_slice())?;
        answer.weight += text.len();
        answer.items.push(if is_refused {
            Item::Refusal(text)
        } else {
            Item::Word(text)
        })?;
        Ok(())
    }

    fn value(
        &mut self,
        draw: &Draw,
        answer: &mut Answer,
        bytes: Vec<u8>,
    ) -> Result<(), AllocError> {
        self.length(draw, b'$', bytes.len())?;
        self.bytes.extend_from_slice(bytes.as_slice())?;
        self.bytes.extend_from_slice(b"\r\n")?;
        answer.weight += bytes.len();
        answer.items.push(Item::Value(bytes))?;
        Ok(())
    }

    fn list(
        &mut self,
        draw: &mut Draw,
        answer: &mut Answer,
        level: usize,
    ) -> Result<(), AllocError> {
        let count = draw.below(4);
        let (kind, answers) = match draw.below(3) {
            0 => (b'*', count),
            1 => (b'~', count),
            _ => (b'%', 2 * count),
        };
        self.length(draw, kind, count)?;
        answer.items.push(Item::List(answers))?;
        if count > 0 {
            answer.depth = answer.depth.max(level);
        }
        for _ in 0..answers {
            self.answer(draw, answer, level + 1)?;
        }
        Ok(())
    }

    fn line(&mut self, kind: u8, text: &[u8]) -> Result<(), AllocError> {
        self.bytes.push(kind)?;
        self.bytes.extend_from_slice(text)?;
        self.bytes.extend_from_slice(b"\r\n")
    }

    fn length(&mut self, draw: &Draw, kind: u8, length: usize) -> Result<(), AllocError> {
        let digits = format!(in draw.alloc; "{length}")?;
        self.lengths.push((self.bytes.len() + 1, digits.len()))?;
        self.line(kind, digits.as_bytes())
    }
}

/// One who asked, and keeps what is answered.
#[derive(Drop)]
struct Caller {
    talk: Conversation,
    answers: Vec<Vec<Item>>,
}

impl Reader for Caller {
    fn feed(&mut self, piece: &[u8]) -> Result<(), AllocError> {
        self.talk.feed(piece)
    }

    fn take(&mut self) -> Result<(), End> {
        match self.talk.answer() {
            Ok(Some(items)) => self.answers.push(items).map_err(|_| End::Memory),
            Ok(None) => Err(End::Quiet),
            Err(CodecError::Memory) => Err(End::Memory),
            Err(CodecError::Fault(Fault::Malformed)) => Err(End::Malformed),
            Err(CodecError::Fault(Fault::TooMuch)) => Err(End::TooMuch),
            Err(CodecError::Unasked) => Err(End::Unasked),
        }
    }
}

// One who asked so often. What is asked, the seed says.
fn caller(draw: &mut Draw, limits: Limits, count: usize) -> Result<Caller, AllocError> {
    let mut talk = Conversation::new(draw.alloc, limits)?;
    for number in 0..count {
        let word = ASKED.get(number % ASKED.len()).copied().unwrap_or(b"GET");
        drop(talk.ask(&[word, b"it"])?);
    }
    Ok(Caller {
        talk,
        answers: Vec::new(draw.alloc),
    })
}

/// What came of the same bytes in two ways: alike.
fn read_in_two_ways<R: Host>(
    rt: R,
    draw: &mut Draw,
    limits: Limits,
    count: usize,
    bytes: &[u8],
) -> Result<(Caller, End), Fail> {
    let mut whole = caller(draw, limits, count)?;
    let (end, _) = read(&mut whole, bytes, Pieces::Whole, draw)?;
    let how = if draw.one_in(2) {
        Pieces::EachByte
    } else {
        Pieces::Drawn
    };
    let mut pieced = caller(draw, limits, count)?;
    let (again, _) = read(&mut pieced, bytes, how, draw)?;
    draw.must(rt, "it ends alike in pieces", again == end);
    draw.must(
        rt,
        "the answers are the same in pieces",
        whole.answers == pieced.answers,
    );
    let are_alike = whole.talk.session() == pieced.talk.session();
    draw.must(rt, "the session is the same in pieces", are_alike);
    Ok((whole, end))
}

// A sound server is read as it is meant, where the limits just allow it, and nobody else's bytes
// are taken after it.
fn sound<R: Host>(rt: R, draw: &mut Draw) -> Result<(), Fail> {
    let count = 1 + draw.below(4);
    let script = Script::of(draw, count)?;
    // (what announces a length is within the limits too)
    let limits = Limits {
        bytes: script.most.bytes + 64,
        ..script.most
    };
    let (mut caller, end) = read_in_two_ways(rt, draw, limits, count, script.bytes.as_slice())?;
    draw.must(rt, "a sound server is understood", end == End::Quiet);
    draw.must(
        rt,
        "the answers are what was meant",
        caller.answers == script.answers,
    );
    draw.must(rt, "nothing is owed", caller.talk.is_settled());
    caller.feed(b"+")?;
    draw.must(
        rt,
        "a byte more is unasked",
        taken(&mut caller) == End::Unasked,
    );
    Ok(())
}

// With one less of a limit it is refused.
fn one_too_many<R: Host>(rt: R, draw: &mut Draw) -> Result<(), Fail> {
    let count = 1 + draw.below(4);
    let script = Script::of(draw, count)?;
    let most = Limits {
        bytes: script.most.bytes + 64,
        ..script.most
    };
    let limits = match draw.below(3) {
        0 if script.most.bytes > 0 => Limits {
            bytes: script.most.bytes - 1,
            ..most
        },
        1 if script.most.depth > 0 => Limits {
            depth: script.most.depth - 1,
            ..most
        },
        _ => Limits {
            parts: script.most.parts - 1,
            ..most
        },
    };
    let (_, end) = read_in_two_ways(rt, draw, limits, count, script.bytes.as_slice())?;
    draw.must(rt, "one too many is refused", end == End::TooMuch);
    Ok(())
}

// What has no end is refused before more came than the limits allow.
fn endless<R: Host>(rt: R, draw: &mut Draw) -> Result<(), Fail> {
    let limits = Limits {
        bytes: 1000 + draw.below(1000),
        parts: 1 + draw.below(60),
        depth: draw.below(8),
    };
    let place = draw.below(ENDLESS.len());
    let (begin, piece) = ENDLESS.get(place).copied().unwrap_or((b"+", b"x"));
    let allowed = limits.bytes + PART * limits.parts;
    let mut bytes = Vec::from_slice(draw.alloc, begin)?;
    while bytes.len() < 2 * allowed + 2 * piece.len() {
        bytes.extend_from_slice(piece)?;
    }
    let mut caller = caller(draw, limits, 1)?;
    let how = if draw.one_in(2) {
        Pieces::EachByte
    } else {
        Pieces::Drawn
    };
    let (end, came) = read(&mut caller, bytes.as_slice(), how, draw)?;
    draw.must(
        rt,
        "it is refused",
        end != End::Quiet && caller.answers.is_empty(),
    );
    let is_within = came <= allowed + piece.len() + PIECE;
    draw.must(rt, "it is refused in time", is_within);
    Ok(())
}

// A length lies: nothing is taken for it that does not come.
fn lying<R: Host>(rt: R, draw: &mut Draw) -> Result<(), Fail> {
    let count = 1 + draw.below(3);
    let mut script = Script::of(draw, count)?;
    let lengths = mem::replace(&mut script.lengths, Vec::new(draw.alloc));
    let place = draw.below(lengths.len());
    let (at, length) = lengths.as_slice().get(place).copied().unwrap_or((1, 0));
    let lie = draw.of_these(&LIES);
    let bytes = draw.spliced(script.bytes.as_slice(), at, length, lie)?;
    let limits = if draw.one_in(2) { WIDE } else { script.most };
    let _ = read_in_two_ways(rt, draw, limits, count, bytes.as_slice())?;
    Ok(())
}

fn broken<R: Host>(rt: R, draw: &mut Draw) -> Result<(), Fail> {
    let count = 1 + draw.below(3);
    let script = Script::of(draw, count)?;
    let bytes = if draw.one_in(3) {
        draw.bytes(200)?
    } else {
        draw.mutated(script.bytes.as_slice())?
    };
    let limits = if draw.one_in(2) { WIDE } else { script.most };
    let _ = read_in_two_ways(rt, draw, limits, count, bytes.as_slice())?;
    Ok(())
}

#[test]
fn drawn_answers(rt: HostRuntime) -> Result<(), Fail> {
    play_each(rt, |seed| {
        let draw = &mut Draw::of(rt.alloc(), seed);
        match draw.below(8) {
            0 | 1 => sound(rt, draw),
            2 => one_too_many(rt, draw),
            3 => endless(rt, draw),
            4 | 5 => lying(rt, draw),
            _ => broken(rt, draw),
        }
    })
}
