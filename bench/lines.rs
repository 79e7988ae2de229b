//! The output of bench/yardstick.rs: lines, written in pieces.

use std::io::{self, Write};

const PIECE: usize = 1 << 16;
/// More than any line has.
const MOST_LINE: usize = 512;

/// Two digits for each number below 100.
const PAIRS: [[u8; 2]; 100] = {
    let (mut pairs, mut n) = ([[b'0'; 2]; 100], 0);
    while n < 100 {
        pairs[n] = [b'0' + n as u8 / 10, b'0' + n as u8 % 10];
        n += 1;
    }
    pairs
};

/// Lines that go to standard output.
pub struct Lines {
    bytes: Vec<u8>,
    length: usize,
    /// Whether a write has failed.
    failed: bool,
}

impl Lines {
    /// No line yet.
    pub fn new() -> Self {
        Lines { bytes: vec![0; PIECE], length: 0, failed: false }
    }

    /// Room for so many bytes after those that are there.
    #[inline]
    fn room(&mut self, length: usize) -> &mut [u8] {
        self.length += length;
        &mut self.bytes[self.length - length..self.length]
    }

    /// Appends a word.
    #[inline]
    pub fn put(&mut self, word: &str) {
        self.room(word.len()).copy_from_slice(word.as_bytes());
    }

    /// Appends a number.
    #[inline]
    pub fn number(&mut self, mut n: u32) {
        let digits = n.checked_ilog10().map_or(1, |most| most as usize + 1);
        let mut rest = self.room(digits);
        while let [front @ .., _, _] = rest {
            let length = front.len();
            rest[length..].copy_from_slice(&PAIRS[n as usize % 100]);
            n /= 100;
            rest = &mut rest[..length];
        }
        if let [first] = rest {
            *first = b'0' + n as u8;
        }
    }

    /// Appends words, one right after the other.
    pub fn put_all(&mut self, words: &[&str]) {
        words.iter().for_each(|word| self.put(word));
    }

    /// Appends a word with its spaces, and a number.
    #[inline]
    pub fn pair(&mut self, word: &str, n: u32) {
        self.put(word);
        self.number(n);
    }

    /// Appends bytes in hexadecimal.
    pub fn hex(&mut self, bytes: &[u8]) {
        let digit = |four: u8| b"0123456789abcdef"[usize::from(four)];
        for (two, byte) in self.room(2 * bytes.len()).chunks_exact_mut(2).zip(bytes) {
            two.copy_from_slice(&[digit(byte >> 4), digit(byte & 15)]);
        }
    }

    /// Ends a line, and writes a piece where there is no room for another line.
    #[inline]
    pub fn end(&mut self) {
        self.put("\n");
        if self.length > PIECE - MOST_LINE {
            self.flush();
        }
    }

    /// Writes what is there.
    fn flush(&mut self) {
        self.failed = self.failed || io::stdout().write_all(&self.bytes[..self.length]).is_err();
        self.length = 0;
    }

    /// Writes what is left; says whether all was written.
    pub fn finish(mut self) -> bool {
        self.flush();
        !self.failed && io::stdout().flush().is_ok()
    }
}
