//! Slices lent to the archive out of the middle of larger buffers, so that a write beside them or
//! into what is lent to be read shows.

// Each test program uses a part of this module.
#![allow(dead_code)]

use crate::generator::random::Random;

/// A slice in the middle of a buffer of arbitrary contents, and what the buffer held at first.
pub struct Lent<T> {
    buffer: Vec<T>,
    before: Vec<T>,
    from: usize,
    length: usize,
}

impl<T: Copy + PartialEq> Lent<T> {
    /// Lends these contents, with four to eleven guard words before and behind.
    pub fn new(random: &mut Random, contents: &[T], mut guard: impl FnMut(u64) -> T) -> Lent<T> {
        let from = random.between(4, 11);
        let behind = random.between(4, 11);
        let mut buffer: Vec<T> = (0..from).map(|_| guard(random.word())).collect();
        buffer.extend_from_slice(contents);
        buffer.extend((0..behind).map(|_| guard(random.word())));
        Lent {
            before: buffer.clone(),
            buffer,
            from,
            length: contents.len(),
        }
    }

    /// The slice to read.
    pub fn slice(&self) -> &[T] {
        &self.buffer[self.from..self.from + self.length]
    }

    /// The slice to write.
    pub fn slice_mut(&mut self) -> &mut [T] {
        &mut self.buffer[self.from..self.from + self.length]
    }

    /// Whether the slice and all around it are as they were.
    pub fn is_unchanged(&self) -> bool {
        self.buffer == self.before
    }

    /// Whether all around the slice is as it was.
    pub fn is_unchanged_around(&self) -> bool {
        let behind = self.from + self.length;
        self.buffer[..self.from] == self.before[..self.from]
            && self.buffer[behind..] == self.before[behind..]
    }

    /// Makes the buffer what it was at first.
    pub fn restore(&mut self) {
        self.buffer.copy_from_slice(&self.before);
    }
}

/// Lends bytes.
pub fn lend_bytes(random: &mut Random, contents: &[u8]) -> Lent<u8> {
    Lent::new(random, contents, |word| word as u8)
}

/// Lends 32-bit numbers.
pub fn lend_numbers(random: &mut Random, contents: &[u32]) -> Lent<u32> {
    Lent::new(random, contents, |word| word as u32)
}
