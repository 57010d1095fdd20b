//! The search for the end of a run of separators: what it is given, what it
//! answers, and a plain count to hold it to.

use std::fmt;

#[derive(Clone, Copy)]
pub struct Search<'a> {
    pub buffer: &'a [u8],
    pub separator: u8,
    pub at: usize,
}

/// Where the run ends, and the steps to there: over eight bytes, and over one.
#[derive(Clone, Copy, PartialEq, Eq)]
pub struct RunEnd {
    pub end: usize,
    pub eights: usize,
    pub ones: usize,
}

impl Search<'_> {
    /// By document 02: over k separators k / 8 steps, rounded down, over eight
    /// bytes, and the rest over one. A separator of 0 stands for none.
    pub fn counted(&self) -> RunEnd {
        let is_separator = |&&byte: &&u8| self.separator != 0 && byte == self.separator;
        let from_here = self.buffer.iter().skip(self.at);
        RunEnd::of(self.at, from_here.take_while(is_separator).count())
    }
}

impl RunEnd {
    /// Of so many separators from a place on.
    pub fn of(at: usize, separators: usize) -> Self {
        Self {
            end: at + separators,
            eights: separators / 8,
            ones: separators % 8,
        }
    }
}

/// A byte that is a separator but for one of its eight bits.
pub fn one_bit_off(separator: u8, bit: u64) -> u8 {
    separator ^ 1 << bit
}

impl fmt::Display for Search<'_> {
    fn fmt(&self, out: &mut fmt::Formatter<'_>) -> fmt::Result {
        write!(
            out,
            "separator 0x{:02X}, \"{}\", from {}",
            self.separator,
            self.buffer.escape_ascii(),
            self.at
        )
    }
}

impl fmt::Display for RunEnd {
    fn fmt(&self, out: &mut fmt::Formatter<'_>) -> fmt::Result {
        write!(
            out,
            "(end {}, {} eights, {} ones)",
            self.end, self.eights, self.ones
        )
    }
}
