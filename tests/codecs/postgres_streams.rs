// What PostgreSQL, or one who speaks like it, says.

use crate::cases::{Host, play_each};
use crate::drawing::Draw;
use crate::reading::{End, PIECE, Pieces, Reader, read, taken};
use postgres_codec::{
    Asked, CodecError, Conversation, Done, Fault, Mark, Message, Refusal, Status,
};
use std::alloc::AllocError;
use std::mem;
use std::test::Fail;

/// What the adapter allows, and far more than comes.
const WIDE: usize = 16 * 1024 * 1024;
/// What a value takes beside its bytes.
const VALUE: usize = 32;
/// A kind and a length, which tell how much comes.
const HEAD: usize = 5;
/// The ends of statements, how many rows each tells, and what it leaves.
const DONE: [(&[u8], u64, Mark); 10] = [
    (b"SELECT 3", 3, Mark::Plain),
    (b"UPDATE 0", 0, Mark::Plain),
    (b"DELETE 18446744073", 18446744073, Mark::Plain),
    (b"INSERT 0 4", 4, Mark::Marked),
    (b"BEGIN", 0, Mark::Plain),
    (b"RELEASE", 0, Mark::Plain),
    (b"SET", 0, Mark::Marked),
    (b"CREATE TABLE", 0, Mark::Marked),
    (b"MERGE 2", 2, Mark::Marked),
    (b"LOAD", 0, Mark::Lasting),
];
/// What a length says that lies.
const LIES: [u32; 10] = [
    0,
    1,
    3,
    4,
    5,
    15_000_000,
    0x0100_0000,
    0x7fff_ffff,
    0xffff_fffe,
    0xffff_ffff,
];

/// What a server says, and what it means.
#[derive(Drop)]
struct Script {
    bytes: Vec<u8>,
    messages: Vec<Message>,
    // Where a length stands, and in how many bytes.
    lengths: Vec<(usize, usize)>,
    // What an answer takes: the latest, and the most.
    cost: usize,
    most: usize,
}

impl Script {
    // So many answers.
    fn of(draw: &mut Draw, count: usize) -> Result<Script, AllocError> {
        let mut script = Script {
            bytes: Vec::new(draw.alloc),
            messages: Vec::new(draw.alloc),
            lengths: Vec::new(draw.alloc),
            cost: 0,
            most: 0,
        };
        for _ in 0..count {
            script.cost = 0;
            for _ in 0..draw.below(8) {
                script.message(draw)?;
            }
            script.ready(draw)?;
            script.most = script.most.max(script.cost);
        }
        Ok(script)
    }

    fn message(&mut self, draw: &mut Draw) -> Result<(), AllocError> {
        match draw.below(8) {
            0 | 1 => self.row(draw),
            2 => self.complete(draw),
            3 => self.refusal(draw),
            4 => self.login(draw),
            5 => {
                let key = draw.bytes(12)?;
                self.push(b'K', key.as_slice(), Message::Key(key.clone()?))
            }
            6 => {
                let body = draw.bytes(20)?;
                match draw.below(3) {
                    0 => self.push(b'S', body.as_slice(), Message::Setting),
                    1 => self.push(b'A', body.as_slice(), Message::Notification),
                    _ => self.push(b'N', body.as_slice(), Message::Notice),
                }
            }
            _ => {
                let kind = draw.of_these(&[b"T", b"I", b"1", b"2", b"3"]);
                let body = draw.bytes(6)?;
                self.push(
                    kind.first().copied().unwrap_or(b'I'),
                    body.as_slice(),
                    Message::Passed,
                )
            }
        }
    }

    fn ready(&mut self, draw: &mut Draw) -> Result<(), AllocError> {
        match draw.below(3) {
            0 => self.push(b'Z', b"I", Message::Ready(Status::Idle)),
            1 => self.push(b'Z', b"T", Message::Ready(Status::InTransaction)),
            _ => self.push(b'Z', b"E", Message::Ready(Status::InFailedTransaction)),
        }
    }

    fn push(&mut self, kind: u8, body: &[u8], message: Message) -> Result<(), AllocError> {
        self.bytes.push(kind)?;
        self.lengths.push((self.bytes.len(), 4))?;
        self.bytes
            .extend_from_slice(&(body.len() as u32 + 4).to_be_bytes())?;
        self.bytes.extend_from_slice(body)?;
        self.cost += HEAD + body.len();
        self.messages.push(message)?;
        Ok(())
    }

    // A row, in which NULL is apart from an empty value.
    fn row(&mut self, draw: &mut Draw) -> Result<(), AllocError> {
        let count = draw.below(6);
        let mut body = Vec::from_slice(draw.alloc, &(count as u16).to_be_bytes())?;
        let mut values = Vec::new(draw.alloc);
        let begin = self.bytes.len() + HEAD;
        self.lengths.push((begin, 2))?;
        for _ in 0..count {
            self.lengths.push((begin + body.len(), 4))?;
            if draw.one_in(4) {
                body.extend_from_slice(&[0xff; 4])?;
                values.push(None)?;
                continue;
            }
            let value = if draw.one_in(2) {
                draw.bytes(20)?
            } else {
                draw.text(9)?.into_bytes()
            };
            body.extend_from_slice(&(value.len() as u32).to_be_bytes())?;
            body.extend_from_slice(value.as_slice())?;
            values.push(Some(value))?;
        }
        self.cost += VALUE * count;
        self.push(b'D', body.as_slice(), Message::Row(values))
    }

    fn complete(&mut self, draw: &mut Draw) -> Result<(), AllocError> {
        let place = draw.below(DONE.len());
        let (tag, rows, mark) = DONE
            .get(place)
            .copied()
            .unwrap_or((b"SET", 0, Mark::Marked));
        let mut body = Vec::from_slice(draw.alloc, tag)?;
        body.push(0)?;
        self.push(
            b'C',
            body.as_slice(),
            Message::Complete(Done { rows, mark }),
        )
    }

    // Fields in any order, among others; the severity is the one that has no language.
    fn refusal(&mut self, draw: &mut Draw) -> Result<(), AllocError> {
        let (severity, state) = (draw.bytes_without(0, 6)?, draw.bytes_without(0, 5)?);
        let (text, other) = (draw.bytes_without(0, 20)?, draw.bytes_without(0, 20)?);
        let mut body = Vec::new(draw.alloc);
        let fields = [
            (b'V', &severity),
            (b'C', &state),
            (b'M', &text),
            (b'S', &other),
        ];
        let first = draw.below(fields.len());
        for number in 0..fields.len() {
            if let Some((letter, field)) = fields.get((first + number) % fields.len()) {
                body.push(*letter)?;
                body.extend_from_slice(field.as_slice())?;
                body.push(0)?;
            }
        }
        body.push(0)?;
        self.push(
            b'E',
            body.as_slice(),
            Message::Refusal(Refusal {
                severity,
                state,
                text,
            }),
        )
    }

    fn login(&mut self, draw: &mut Draw) -> Result<(), AllocError> {
        let (number, asked) = match draw.below(6) {
            0 => (0, Asked::Nothing),
            1 => (5, Asked::Md5),
            2 => (10, Asked::Sasl),
            3 => (11, Asked::SaslGoesOn),
            4 => (12, Asked::SaslEnds),
            _ => (7 + 256 * draw.below(1000) as u32, Asked::Other),
        };
        let text = draw.bytes(20)?;
        let mut body = Vec::from_slice(draw.alloc, &number.to_be_bytes())?;
        body.extend_from_slice(text.as_slice())?;
        self.push(b'R', body.as_slice(), Message::Login(asked, text))
    }
}

/// One who asked, and keeps what is said.
#[derive(Drop)]
struct Caller {
    talk: Conversation,
    messages: Vec<Message>,
}

impl Reader for Caller {
    fn feed(&mut self, piece: &[u8]) -> Result<(), AllocError> {
        self.talk.feed(piece)
    }

    fn take(&mut self) -> Result<(), End> {
        match self.talk.next() {
            Ok(Some(message)) => self.messages.push(message).map_err(|_| End::Memory),
            Ok(None) => Err(End::Quiet),
            Err(CodecError::Memory) => Err(End::Memory),
            Err(CodecError::Fault(Fault::Malformed)) => Err(End::Malformed),
            Err(CodecError::Fault(Fault::TooMuch)) => Err(End::TooMuch),
            Err(CodecError::Unasked) => Err(End::Unasked),
        }
    }
}

// One who asked so often.
fn caller(draw: &Draw, limit: usize, count: usize) -> Caller {
    let mut talk = Conversation::new(draw.alloc, limit);
    for _ in 0..count {
        talk.expect();
    }
    Caller {
        talk,
        messages: Vec::new(draw.alloc),
    }
}

/// What came of the same bytes in two ways: alike.
fn read_in_two_ways<R: Host>(
    rt: R,
    draw: &mut Draw,
    limit: usize,
    count: usize,
    bytes: &[u8],
) -> Result<(Caller, End), Fail> {
    let mut whole = caller(draw, limit, count);
    let (end, _) = read(&mut whole, bytes, Pieces::Whole, draw)?;
    let how = if draw.one_in(2) {
        Pieces::EachByte
    } else {
        Pieces::Drawn
    };
    let mut pieced = caller(draw, limit, count);
    let (again, _) = read(&mut pieced, bytes, how, draw)?;
    draw.must(rt, "it ends alike in pieces", again == end);
    draw.must(
        rt,
        "the messages are the same in pieces",
        whole.messages == pieced.messages,
    );
    let are_alike = whole.talk.take_mark() == pieced.talk.take_mark();
    draw.must(rt, "the mark is the same in pieces", are_alike);
    Ok((whole, end))
}

// A sound server is read as it is meant, where the limit just allows it, and nothing is taken after
// that.
fn sound<R: Host>(rt: R, draw: &mut Draw) -> Result<(), Fail> {
    let count = 1 + draw.below(3);
    let script = Script::of(draw, count)?;
    let (mut caller, end) = read_in_two_ways(
        rt,
        draw,
        script.most,
        count,
        script.bytes.as_slice(),
    )?;
    draw.must(rt, "a sound server is understood", end == End::Quiet);
    draw.must(
        rt,
        "the messages are what was meant",
        caller.messages == script.messages,
    );
    draw.must(rt, "nothing is owed", caller.talk.is_settled());
    caller.feed(b"N")?;
    draw.must(
        rt,
        "a byte more is unasked",
        taken(&mut caller) == End::Unasked,
    );
    Ok(())
}

// With one less of the limit it is refused.
fn one_too_many<R: Host>(rt: R, draw: &mut Draw) -> Result<(), Fail> {
    let count = 1 + draw.below(3);
    let script = Script::of(draw, count)?;
    let bytes = script.bytes.as_slice();
    let (_, end) = read_in_two_ways(rt, draw, script.most - 1, count, bytes)?;
    draw.must(rt, "one too many is refused", end == End::TooMuch);
    Ok(())
}

// What has no end is refused before more came than the limit allows.
fn endless<R: Host>(rt: R, draw: &mut Draw) -> Result<(), Fail> {
    let limit = 100 + draw.below(2000);
    let mut script = Script::of(draw, 0)?;
    for _ in 0..1 + draw.below(3) {
        script.message(draw)?;
    }
    let mut bytes = Vec::new(draw.alloc);
    while bytes.len() < 2 * limit {
        bytes.extend_from_slice(script.bytes.as_slice())?;
    }
    // (also one message that goes on and on)
    if draw.one_in(3) {
        bytes.clear();
        bytes.extend_from_slice(&[b'N', 0, 0, 0x80, 0])?;
        bytes.resize(2 * limit, b'x')?;
    }
    let mut caller = caller(draw, limit, 1);
    let how = if draw.one_in(2) {
        Pieces::EachByte
    } else {
        Pieces::Drawn
    };
    let (end, came) = read(&mut caller, bytes.as_slice(), how, draw)?;
    draw.must(rt, "it is refused", end == End::TooMuch);
    draw.must(rt, "it is refused in time", came <= limit + HEAD + PIECE);
    Ok(())
}

// A length lies: nothing is taken for it that does not come.
fn lying<R: Host>(rt: R, draw: &mut Draw) -> Result<(), Fail> {
    let count = 1 + draw.below(3);
    let mut script = Script::of(draw, count)?;
    let lengths = mem::replace(&mut script.lengths, Vec::new(draw.alloc));
    let place = draw.below(lengths.len());
    let (at, size) = lengths.as_slice().get(place).copied().unwrap_or((1, 4));
    let lie = LIES
        .get(draw.below(LIES.len()))
        .copied()
        .unwrap_or(0)
        .to_be_bytes();
    let lie = lie.get(4 - size..).unwrap_or(b"");
    let is_count = size == 2 && script.bytes.as_slice().get(at..at + 2) != Some(lie);
    let bytes = draw.spliced(script.bytes.as_slice(), at, size, lie)?;
    let limit = if draw.one_in(2) { WIDE } else { script.most };
    let (_, end) = read_in_two_ways(rt, draw, limit, count, bytes.as_slice())?;
    let is_refused = matches!(end, End::Malformed | End::TooMuch);
    draw.must(
        rt,
        "a row has as many values as it says",
        !is_count || is_refused,
    );
    Ok(())
}

fn broken<R: Host>(rt: R, draw: &mut Draw) -> Result<(), Fail> {
    let count = 1 + draw.below(3);
    let script = Script::of(draw, count)?;
    let bytes = if draw.one_in(3) {
        draw.bytes(200)?
    } else {
        draw.mutated(script.bytes.as_slice())?
    };
    let limit = if draw.one_in(2) { WIDE } else { script.most };
    let _ = read_in_two_ways(rt, draw, limit, count, bytes.as_slice())?;
    Ok(())
}

#[test]
fn drawn_messages(rt: HostRuntime) -> Result<(), Fail> {
    play_each(rt, |seed| {
        let draw = &mut Draw::of(rt.alloc(), seed);
        match draw.below(8) {
            0 | 1 => sound(rt, draw),
            2 => one_too_many(rt, draw),
            3 => endless(rt, draw),
            4 | 5 => lying(rt, draw),
            _ => broken(rt, draw),
        }
    })
}
