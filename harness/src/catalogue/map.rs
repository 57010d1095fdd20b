//! A catalogue from document 02's text: a map from schools to their words. Nothing
//! is kept beside it; every question is answered from its entries, anew.

use std::collections::BTreeMap;

use super::act::Act;
use super::{uses_separator, FULL, NOT_LISTED, PLACES, SCHOOL_0_OR_LISTED};
use crate::readers::refusal::ACCEPTED;
use crate::word::{oracle, Word};

#[derive(Clone, Default)]
pub struct Map {
    words: BTreeMap<u16, u128>,
}

impl Map {
    pub fn act(&mut self, act: Act) -> u32 {
        let number = self.due(act);
        if number == ACCEPTED {
            match act {
                Act::Add(school, word) => self.words.insert(school, word.bits()),
                Act::Remove(school) => self.words.remove(&school),
            };
        }
        number
    }

    /// What an act returns. "Adding runs the full check first", which is the crate's;
    /// 25 and 26 are "both after 1 to 14 and in that order".
    pub fn due(&self, act: Act) -> u32 {
        match act {
            Act::Remove(school) if self.is_listed(school) => ACCEPTED,
            Act::Remove(_) => NOT_LISTED,
            Act::Add(school, word) => match oracle::format_error(word) {
                ACCEPTED if school == 0 || self.is_listed(school) => SCHOOL_0_OR_LISTED,
                ACCEPTED if self.is_full() => FULL,
                number => number,
            },
        }
    }

    pub fn is_listed(&self, school: u16) -> bool {
        self.words.contains_key(&school)
    }

    pub fn is_full(&self) -> bool {
        self.len() == PLACES
    }

    pub fn len(&self) -> usize {
        self.words.len()
    }

    pub fn find(&self, school: u16) -> Option<Word> {
        self.words.get(&school).map(|&bits| Word::from_bits(bits))
    }

    pub fn separators(&self) -> u64 {
        let words = self.entries().map(|(_, word)| word);
        words.filter(|&word| uses_separator(word)).count() as u64
    }

    /// The listing, ascending by school.
    pub fn entries(&self) -> impl Iterator<Item = (u16, Word)> + '_ {
        let words = self.words.iter();
        words.map(|(&school, &bits)| (school, Word::from_bits(bits)))
    }

    /// Whether any listed school is smaller, and whether any is greater.
    pub fn has_about(&self, school: u16) -> (bool, bool) {
        let smaller = self.words.range(..school).next().is_some();
        (
            smaller,
            self.words.range(school..).any(|(&key, _)| key != school),
        )
    }
}
