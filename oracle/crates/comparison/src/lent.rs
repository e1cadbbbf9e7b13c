//! Buffers lent to a call, with a pattern in them and around them, so that every byte written can be told.

use std::fmt::LowerHex;

const GUARD: usize = 24;

/// What a lent place holds before a call.
pub trait Pattern: Copy + PartialEq + LowerHex {
    fn pattern(i: usize) -> Self;
}

impl Pattern for u8 {
    fn pattern(i: usize) -> u8 {
        (i as u8).wrapping_mul(151) ^ 0x5a ^ (i >> 8) as u8
    }
}

impl Pattern for u32 {
    fn pattern(i: usize) -> u32 {
        0x5a5a_0000 + i as u32
    }
}

/// An output, of bytes or of other numbers.
pub struct Output<T = u8> {
    pattern: Vec<T>,
    buffer: Vec<T>,
}

impl<T> Default for Output<T> {
    fn default() -> Self {
        Output { pattern: Vec::new(), buffer: Vec::new() }
    }
}

impl<T: Pattern> Output<T> {
    pub fn lend(&mut self, len: usize) -> &mut [T] {
        let whole = len + 2 * GUARD;
        while self.pattern.len() < whole {
            self.pattern.push(T::pattern(self.pattern.len()));
        }
        self.buffer.clear();
        self.buffer.extend_from_slice(&self.pattern[..whole]);
        &mut self.buffer[GUARD..GUARD + len]
    }

    /// These were written at the front, and nothing else.
    pub fn holds(&self, written: &[T]) -> Result<(), String> {
        let end = GUARD + written.len();
        let as_expected = |i: usize| if (GUARD..end).contains(&i) { written[i - GUARD] } else { self.pattern[i] };
        let same = self.buffer[GUARD..end] == *written
            && self.buffer[..GUARD] == self.pattern[..GUARD]
            && self.buffer[end..] == self.pattern[end..self.buffer.len()];
        if same {
            return Ok(());
        }
        let i = (0..self.buffer.len()).find(|&i| self.buffer[i] != as_expected(i)).unwrap();
        let (at, is, not) = (i as i64 - GUARD as i64, self.buffer[i], as_expected(i));
        Err(format!("place {at} of the output is {is:#04x}, not {not:#04x}"))
    }
}

/// A scratch of 64-bit places.
#[derive(Default)]
pub struct Scratch(Vec<u64>);

fn place_pattern(i: usize) -> u64 {
    0x5a5a_0000_0000_0000 + i as u64
}

impl Scratch {
    pub fn lend(&mut self, places: usize) -> &mut [u64] {
        self.0.clear();
        self.0.extend((0..places + 2).map(place_pattern));
        &mut self.0[1..1 + places]
    }

    pub fn holds(&self, written: &[u64]) -> Result<(), String> {
        for (i, &place) in self.0.iter().enumerate() {
            let expected = match i.checked_sub(1).and_then(|i| written.get(i)) {
                Some(&position) => position,
                None => place_pattern(i),
            };
            if place != expected {
                return Err(format!("place {} of the scratch is {place:#x}, not {expected:#x}", i as i64 - 1));
            }
        }
        Ok(())
    }
}

/// A file at another alignment than its allocation's.
#[derive(Default)]
pub struct Input(Vec<u8>);

impl Input {
    pub fn hold(&mut self, file: &[u8]) -> &[u8] {
        let offset = 1 + file.len() % 8;
        self.0.clear();
        self.0.resize(offset, 0x41);
        self.0.extend_from_slice(file);
        &self.0[offset..]
    }
}
