//! Records out of an input that is read in large blocks.

use std::io::{self, Read};

use crate::script::records;

const BLOCK: usize = 65_536;

/// No record is longer.
const LONGEST: usize = 17;

pub struct Input<R> {
    source: R,
    buffer: Vec<u8>,
    /// What is read and not yet used: from `start` to `end`.
    start: usize,
    end: usize,
    at_end: bool,
}

impl<R: Read> Input<R> {
    pub fn new(source: R) -> Self {
        Self {
            source,
            buffer: vec![0; BLOCK],
            start: 0,
            end: 0,
            at_end: false,
        }
    }

    /// The next record, which is cut short where the input is.
    #[inline]
    pub fn next_record(&mut self) -> io::Result<Option<&[u8]>> {
        if self.end - self.start < LONGEST && !self.at_end {
            self.refill()?;
        }
        let rest = &self.buffer[self.start..self.end];
        let length = records::length(rest);
        self.start += length;
        Ok((length > 0).then(|| &rest[..length]))
    }

    /// Moves what is left to the front and reads until there is a whole record
    /// behind it or the input ends.
    fn refill(&mut self) -> io::Result<()> {
        self.buffer.copy_within(self.start..self.end, 0);
        self.end -= self.start;
        self.start = 0;
        while self.end < LONGEST && !self.at_end {
            let read = self.source.read(&mut self.buffer[self.end..])?;
            self.end += read;
            self.at_end = read == 0;
        }
        Ok(())
    }
}
