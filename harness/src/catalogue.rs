//! The catalogue of school sheets: what is done to one, how that is drawn, and who
//! answers: the library; a map, beside what began empty; and rows, beside a block
//! that was made otherwise.

pub mod act;
pub mod draw;
pub mod lent;
pub mod library;
pub mod map;
pub mod rows;
pub mod sample;

use crate::word::{Field, Word};

/// The most schools that a catalogue lists.
pub const PLACES: usize = 64;

/// A school's number and the two halves of its word.
pub type Place = [u64; PER_PLACE];

pub const PER_PLACE: usize = 3;

/// How many are listed, the tally, and the places.
pub type Block = [u64; WORDS];

pub const WORDS: usize = 2 + PER_PLACE * PLACES;

pub const SCHOOL_0_OR_LISTED: u32 = 25;
pub const FULL: u32 = 26;
pub const NOT_LISTED: u32 = 27;

/// Whether an addition or a removal can return this.
pub fn is_possible(number: u32) -> bool {
    matches!(number, 0..=14 | SCHOOL_0_OR_LISTED | FULL | NOT_LISTED)
}

/// What the tally counts.
pub fn uses_separator(word: Word) -> bool {
    word.field(Field::Separator) != 0
}
