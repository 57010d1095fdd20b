//! Cells of a few kinds in one buffer, drawn before the clock starts.

use crate::readers::call::INTEGER;
use crate::readers::column::Column;
use crate::rng::Rng;
use crate::word::Word;

/// A buffer, and its cells both as parts and as the ends that a column has.
pub struct Cells<'a> {
    buffer: &'a [u8],
    pub parts: Vec<&'a [u8]>,
    ends: Vec<usize>,
}

/// So many cells, each of one of the kinds.
pub fn draw<'a>(rng: &mut Rng, kinds: &'a [Vec<u8>], cells: usize) -> Vec<&'a [u8]> {
    let kinds: Vec<&[u8]> = kinds.iter().map(Vec::as_slice).collect();
    (0..cells).map(|_| rng.pick(&kinds)).collect()
}

impl<'a> Cells<'a> {
    /// The buffer is made of cells of these lengths.
    pub fn cut(buffer: &'a [u8], lengths: impl Iterator<Item = usize>) -> Self {
        let mut cells = Self {
            buffer,
            parts: Vec::new(),
            ends: Vec::new(),
        };
        let mut start = 0;
        for length in lengths {
            cells.parts.push(&buffer[start..start + length]);
            start += length;
            cells.ends.push(start);
        }
        cells
    }

    pub fn column(&self, word: Word) -> Column<'_> {
        Column {
            word,
            buffer: self.buffer,
            ends: &self.ends,
            reader: INTEGER,
        }
    }

    pub fn bytes(&self) -> usize {
        self.buffer.len()
    }
}
