// Streams that are read, in whatever pieces.

use crate::drawing::Draw;
use std::alloc::AllocError;

/// How the reading of a stream ended.
#[derive(Clone, Copy, Debug, PartialEq, Eq)]
pub(crate) enum End {
    /// More may come.
    Quiet,
    Memory,
    Malformed,
    TooMuch,
    Unasked,
}

/// One who reads a stream, and keeps what it took.
pub(crate) trait Reader {
    fn feed(&mut self, piece: &[u8]) -> Result<(), AllocError>;

    /// Takes what is whole. The error is why nothing is.
    fn take(&mut self) -> Result<(), End>;
}

/// The longest piece that is drawn.
pub(crate) const PIECE: usize = 40;

/// In which pieces bytes come.
#[derive(Clone, Copy, PartialEq, Eq)]
pub(crate) enum Pieces {
    Whole,
    EachByte,
    Drawn,
}

/// Reads bytes, and takes what is whole after each piece. How it ended; how many came before.
pub(crate) fn read<R: Reader>(
    reader: &mut R,
    bytes: &[u8],
    pieces: Pieces,
    draw: &mut Draw,
) -> Result<(End, usize), AllocError> {
    let mut rest = bytes;
    while !rest.is_empty() {
        let length = match pieces {
            Pieces::Whole => rest.len(),
            Pieces::EachByte => 1,
            Pieces::Drawn => 1 + draw.below(rest.len().min(PIECE)),
        };
        let (piece, after) = rest.split_at(length);
        reader.feed(piece)?;
        rest = after;
        let end = taken(reader);
        if end != End::Quiet {
            return Ok((end, bytes.len() - rest.len()));
        }
    }
    Ok((End::Quiet, bytes.len()))
}

/// Takes all that is whole, and says why no more is. What failed once fails again.
pub(crate) fn taken<R: Reader>(reader: &mut R) -> End {
    let end = all_taken(reader);
    match reader.take() {
        Err(again) if again == end => end,
        // (no other end is this one)
        _ => End::Memory,
    }
}

fn all_taken<R: Reader>(reader: &mut R) -> End {
    for _ in 0..u64::MAX {
        if let Err(end) = reader.take() {
            return end;
        }
    }
    End::Quiet
}
