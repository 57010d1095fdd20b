//! What a question returns, and what the words hold then that were lent to it.

use std::fmt;

use super::{Place, NOT_LISTED};
use crate::readers::answer::UNTOUCHED;
use crate::readers::refusal::ACCEPTED;
use crate::word::Word;

#[derive(Clone, Copy, PartialEq, Eq)]
pub struct Lent<const WORDS: usize> {
    pub number: u32,
    pub words: [u64; WORDS],
}

impl<const WORDS: usize> Lent<WORDS> {
    /// Of a question that finds nothing, and so writes nothing.
    pub const NOTHING: Self = Self {
        number: NOT_LISTED,
        words: [UNTOUCHED; WORDS],
    };

    fn with(words: [u64; WORDS]) -> Self {
        Self {
            number: ACCEPTED,
            words,
        }
    }
}

/// The answer to a look-up.
pub type Found = Lent<2>;

impl Found {
    pub fn of(word: Option<Word>) -> Self {
        word.map_or(Self::NOTHING, |word| Self::with([word.lo(), word.hi()]))
    }
}

/// The answer to the question for an entry of the listing.
pub type Entry = Lent<3>;

impl Entry {
    pub fn of(place: Option<Place>) -> Self {
        place.map_or(Self::NOTHING, Self::with)
    }
}

impl<const WORDS: usize> fmt::Display for Lent<WORDS> {
    fn fmt(&self, out: &mut fmt::Formatter<'_>) -> fmt::Result {
        write!(out, "(number {}, words {:X?})", self.number, self.words)
    }
}
