// Tests of the text: reads and writes that fail, long lines, and what waits for what. What a line
// says and what is answered is proved, and the stories of a pool are the worked rows.

use super::Fault;
use std::alloc::Global;
use std::cell::Cell;
use std::io::{self, BufWriter, ErrorKind, Read, Write};
use std::str;
use std::test::Fail;

const SCRIPT: &str = "limits 1 - - - 30000 30000\nstate\nbegin 0\njump\n";

const ANSWERS: &str = "state 0 0 1\nopen 0\n";

// Serves an input to a writer, through a buffer as the program does.
fn serve<R: Read + Drop, W: Write + Drop>(alloc: Global, input: R, output: W) -> Result<(), Fault> {
    let mut output = BufWriter::new(alloc, output).map_err(|_| Fault::Memory)?;
    super::serve(alloc, input, &mut output)
}

/// One side of a talk: it says its pieces, fails at those that are errors, and notes how much was
/// answered before each.
#[derive(Drop)]
struct Speaker<'a>(&'a [Result<&'a str, ErrorKind>], &'a Cell<usize>, Vec<usize>);

impl Read for Speaker<'_> {
    fn read(&mut self, buf: &mut [u8]) -> io::Result<usize> {
        let Speaker(pieces, answered, notes) = self;
        notes.push(answered.get())?;
        let Some((piece, rest)) = pieces.split_first() else {
            return Ok(0);
        };
        *pieces = rest;
        let text = piece.map_err(|error| io::Error::from(error))?.as_bytes();
        buf[..text.len()].copy_from_slice(text);
        Ok(text.len())
    }
}

/// The other side, which takes three bytes at a time and counts them.
#[derive(Drop)]
struct Listener<'a>(&'a Cell<usize>);

impl Write for Listener<'_> {
    fn write(&mut self, buf: &[u8]) -> io::Result<usize> {
        let count = buf.len().min(3);
        self.0.set(self.0.get() + count);
        Ok(count)
    }

    fn flush(&mut self) -> io::Result<()> {
        Ok(())
    }
}

// The script comes byte by byte, and one read fails, before the byte at the cut.
#[test]
fn a_failed_read_is_told_after_the_answers_before_it(rt: HostRuntime) -> Result<(), Fail> {
    for (cut, error, output, fault) in [
        (0usize, ErrorKind::BrokenPipe, "", Fault::Read),
        (3, ErrorKind::BrokenPipe, "", Fault::Read),
        (30, ErrorKind::Other, "", Fault::Read),
        (33, ErrorKind::Other, "state 0 0 1\n", Fault::Read),
        (43, ErrorKind::UnexpectedEof, ANSWERS, Fault::Read),
        (43, ErrorKind::OutOfMemory, ANSWERS, Fault::Memory),
        (44, ErrorKind::Interrupted, ANSWERS, Fault::NotAStep(4)),
    ] {
        let bytes = (0..SCRIPT.len()).map(|at| Ok(&SCRIPT[at..at + 1]));
        let mut pieces: Vec<Result<&str, ErrorKind>> = bytes.collect(rt.alloc())?;
        pieces.insert(cut, Err(error))?;
        let (answered, mut written) = (Cell::new(0), Vec::new(rt.alloc()));
        let speaker = Speaker(pieces.as_slice(), &answered, Vec::new(rt.alloc()));
        let got = serve(rt.alloc(), speaker, &mut written);
        assert_eq!(rt; str::from_utf8(written.as_slice())?, output, "cut at {cut}");
        assert_eq!(rt; got, Err(fault), "cut at {cut}");
    }
    Ok(())
}

// A writer fails at each byte in turn.
#[test]
fn a_failed_write_comes_before_a_later_fault(rt: HostRuntime) -> Result<(), Fail> {
    for room in 0..=ANSWERS.len() {
        let mut kept = [0u8; ANSWERS.len()];
        let got = serve(rt.alloc(), SCRIPT.as_bytes(), &mut kept[..room]);
        assert_eq!(rt; str::from_utf8(&kept[..room])?, &ANSWERS[..room]);
        let full = (room < ANSWERS.len()).then_some(Fault::Write);
        assert_eq!(rt; got, Err(full.unwrap_or(Fault::NotAStep(4))), "with room {room}");
    }
    Ok(())
}

#[test]
fn answers_go_out_before_a_read_that_may_wait(rt: HostRuntime) -> Result<(), Fail> {
    let lines = "limits 1 - - - 30000 30000\n";
    let pieces = [lines, "state\n", "begin 0\nsta", "te\nbegin 0\n"].map(Ok);
    let answered = &Cell::new(0);
    let mut speaker = Speaker(&pieces, answered, Vec::new(rt.alloc()));
    let got = serve(rt.alloc(), &mut speaker, Listener(answered));
    assert_eq!(rt; got, Ok(()));
    assert_eq!(rt; speaker.2.as_slice(), [0, 0, 12, 19, 39].as_slice());
    Ok(())
}

#[test]
fn lines_and_texts_of_ten_megabytes(rt: HostRuntime) -> Result<(), Fail> {
    let before = "limits 1 - - - 30000 30000\nbegin 0\n";
    let long = "x".repeat(rt.alloc(), 10_000_000)?;
    let told = format!(in rt.alloc(); "open 0\nretry 400\nerror {long}\nerror none\n")?;
    for (front, back, outcome, output) in [
        ("", "\nstate\n", Err(Fault::NotAStep(3)), "open 0\n"),
        ("fail 0 0 ", "\nerror\nerror\n", Ok(()), told.as_str()),
    ] {
        let input = format!(in rt.alloc(); "{before}{front}{long}{back}")?;
        let mut written = Vec::new(rt.alloc());
        let got = serve(rt.alloc(), input.as_str().as_bytes(), &mut written);
        assert_eq!(rt; got, outcome);
        assert!(rt; written.as_slice() == output.as_bytes());
    }
    Ok(())
}
