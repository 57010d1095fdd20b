//! Take to the end over a column of cells: what the call is given, and what it
//! answers.

use std::fmt;

use super::answer::Answer;
use super::call::SPECIAL;
use crate::word::Word;

/// Cells that lie one after the other in a buffer.
#[derive(Clone, Copy)]
pub struct Column<'a> {
    pub word: Word,
    pub buffer: &'a [u8],
    /// Where each cell ends. These may be any numbers: one before the last end
    /// or past the buffer counts as that bound.
    pub ends: &'a [usize],
    pub reader: u8,
}

/// What the call answers: sums over all cells.
#[derive(Clone, Copy, PartialEq, Eq, Default)]
pub struct Sums {
    /// 0, or why the call was refused.
    pub number: u32,
    pub taken: usize,
    pub passed: usize,
    /// Of the reader's count behind each cell.
    pub digits: usize,
}

impl<'a> Column<'a> {
    pub fn cells(&self) -> impl Iterator<Item = &'a [u8]> {
        let Self { buffer, ends, .. } = *self;
        let mut start = 0;
        ends.iter().map(move |&end| {
            let end = end.clamp(start, buffer.len());
            let cell = &buffer[start..end];
            start = end;
            cell
        })
    }
}

impl Sums {
    /// With the answer for one more cell, which was taken to its end.
    pub fn and(self, cell: &Answer, reader: u8) -> Self {
        let digits = match reader {
            SPECIAL => 0,
            reader => cell.state.counts[usize::from(reader)],
        };
        Self {
            number: self.number,
            taken: self.taken + cell.taken,
            passed: self.passed + cell.passed,
            digits: self.digits + digits,
        }
    }
}

impl fmt::Display for Column<'_> {
    fn fmt(&self, out: &mut fmt::Formatter<'_>) -> fmt::Result {
        write!(
            out,
            "reader {}, {}, \"{}\", ends {:?}",
            self.reader,
            self.word,
            self.buffer.escape_ascii(),
            self.ends
        )
    }
}

impl fmt::Display for Sums {
    fn fmt(&self, out: &mut fmt::Formatter<'_>) -> fmt::Result {
        write!(
            out,
            "(number {}, taken {}, passed {}, digits {})",
            self.number, self.taken, self.passed, self.digits
        )
    }
}
