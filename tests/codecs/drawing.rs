// Bytes and choices that are drawn, all from one seed.

use rand_core::{Rng, SeedableRng};
use rand_pcg::Pcg32;
use std::alloc::{AllocError, Global};
use std::process::Abort;

/// Bytes that protocols are made of.
const TELLING: &[u8] = b"\r\n\r\n\0\0\xff\xff+-:$*%~_0123456789ZDCERKSANTIQ ";

#[derive(Drop)]
pub(crate) struct Draw {
    pub alloc: Global,
    seed: u64,
    rng: Pcg32,
}

impl Draw {
    pub fn of(alloc: Global, seed: u64) -> Draw {
        Draw {
            alloc,
            seed,
            rng: Pcg32::seed_from_u64(seed),
        }
    }

    /// Stops where something does not hold of what was drawn.
    pub fn must<R: Abort + Copy>(&self, rt: R, what: &str, holds: bool) {
        assert!(rt; holds, "seed {}: {what}", self.seed);
    }

    /// A number below a bound, which is positive.
    pub fn below(&mut self, bound: usize) -> usize {
        self.rng.next_u32() as usize % bound.max(1)
    }

    pub fn one_in(&mut self, count: usize) -> bool {
        self.below(count) == 0
    }

    pub fn number(&mut self) -> u64 {
        self.rng.next_u64() >> self.below(64)
    }

    /// One of these.
    pub fn of_these<'a>(&mut self, texts: &[&'a [u8]]) -> &'a [u8] {
        let place = self.below(texts.len());
        texts.get(place).copied().unwrap_or(b"")
    }

    /// Any byte: those that protocols are made of come as often as all others.
    pub fn byte(&mut self) -> u8 {
        let (place, any) = (self.below(TELLING.len()), self.below(256));
        match TELLING.get(place) {
            Some(byte) if any % 2 == 0 => *byte,
            _ => any as u8,
        }
    }

    pub fn bytes(&mut self, most: usize) -> Result<Vec<u8>, AllocError> {
        let mut bytes = Vec::new(self.alloc);
        for _ in 0..self.below(most + 1) {
            bytes.push(self.byte())?;
        }
        Ok(bytes)
    }

    /// Bytes of which none is this one.
    pub fn bytes_without(&mut self, left_out: u8, most: usize) -> Result<Vec<u8>, AllocError> {
        let mut bytes = Vec::new(self.alloc);
        for _ in 0..self.below(most + 1) {
            let byte = self.byte();
            bytes.push(if byte == left_out { b'x' } else { byte })?;
        }
        Ok(bytes)
    }

    /// A text with letters of one byte to four.
    pub fn text(&mut self, most: usize) -> Result<String, AllocError> {
        let mut text = String::new(self.alloc);
        for _ in 0..self.below(most + 1) {
            text.push_str(match self.below(6) {
                0 => "\u{e9}",
                1 => "\u{20ac}",
                2 => "\u{1f600}",
                3 => "'",
                4 => "\r\n",
                _ => "a",
            })?;
        }
        Ok(text)
    }

    /// These bytes with some changed, left out or put in, or without their end.
    pub fn mutated(&mut self, bytes: &[u8]) -> Result<Vec<u8>, AllocError> {
        let mut changed = Vec::from_slice(self.alloc, bytes)?;
        for _ in 0..1 + self.below(4) {
            let place = self.below(changed.len() + 1);
            let byte = self.byte();
            match (self.below(4), changed.as_mut_slice().get_mut(place)) {
                (0, Some(there)) => *there = byte,
                (1, Some(there)) => *there ^= 1 << (byte % 8),
                (2, Some(_)) => drop(changed.remove(place)),
                (3, _) if self.one_in(8) => changed.truncate(place),
                _ => changed.insert(place, byte)?,
            }
        }
        Ok(changed)
    }

    /// These bytes with others in the place of some of them.
    pub fn spliced(
        &mut self,
        bytes: &[u8],
        place: usize,
        length: usize,
        others: &[u8],
    ) -> Result<Vec<u8>, AllocError> {
        let mut spliced = Vec::from_slice(self.alloc, bytes.get(..place).unwrap_or(bytes))?;
        spliced.extend_from_slice(others)?;
        spliced.extend_from_slice(bytes.get(place + length..).unwrap_or(b""))?;
        Ok(spliced)
    }
}
