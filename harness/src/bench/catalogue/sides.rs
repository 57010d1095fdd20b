//! The catalogues that are timed.

use std::collections::btree_map::{BTreeMap, Entry};

use crate::catalogue::act::Act;
use crate::catalogue::{
    library, uses_separator, Block, FULL, NOT_LISTED, PLACES, SCHOOL_0_OR_LISTED,
};
use crate::readers::refusal::ACCEPTED;
use crate::word::{oracle, Word};

pub trait Side {
    fn empty() -> Self;
    fn add(&mut self, school: u16, word: Word) -> u32;
    fn remove(&mut self, school: u16) -> u32;
    /// The halves of the word added up, or 0.
    fn find(&mut self, school: u16) -> u64;
    fn separators(&mut self) -> u64;
}

/// What a user of Rust would write, with the same refusals. Nothing is kept beside the
/// map. Where words are not checked, they are the caller's concern.
pub struct Tree<const CHECKED: bool>(BTreeMap<u16, u128>);

impl<const CHECKED: bool> Side for Tree<CHECKED> {
    fn empty() -> Self {
        Self(BTreeMap::new())
    }

    #[inline(always)]
    fn add(&mut self, school: u16, word: Word) -> u32 {
        let number = match CHECKED {
            true => oracle::format_error(word),
            false => ACCEPTED,
        };
        if number != ACCEPTED {
            return number;
        }
        let is_full = self.0.len() >= PLACES;
        match self.0.entry(school) {
            Entry::Vacant(_) if school == 0 => SCHOOL_0_OR_LISTED,
            Entry::Occupied(_) => SCHOOL_0_OR_LISTED,
            Entry::Vacant(_) if is_full => FULL,
            Entry::Vacant(place) => {
                place.insert(word.bits());
                ACCEPTED
            }
        }
    }

    #[inline(always)]
    fn remove(&mut self, school: u16) -> u32 {
        self.0.remove(&school).map_or(NOT_LISTED, |_| ACCEPTED)
    }

    #[inline(always)]
    fn find(&mut self, school: u16) -> u64 {
        self.0.get(&school).map_or(0, |&bits| halves(bits))
    }

    #[inline(always)]
    fn separators(&mut self) -> u64 {
        let words = self.0.values().map(|&bits| Word::from_bits(bits));
        words.filter(|&word| uses_separator(word)).count() as u64
    }
}

fn halves(bits: u128) -> u64 {
    (bits as u64).wrapping_add((bits >> 64) as u64)
}

pub struct Rattle(Block);

impl Side for Rattle {
    fn empty() -> Self {
        Self(library::empty())
    }

    #[inline(always)]
    fn add(&mut self, school: u16, word: Word) -> u32 {
        library::act(&mut self.0, Act::Add(school, word))
    }

    #[inline(always)]
    fn remove(&mut self, school: u16) -> u32 {
        library::act(&mut self.0, Act::Remove(school))
    }

    #[inline(always)]
    fn find(&mut self, school: u16) -> u64 {
        let found = library::find(&mut self.0, school);
        match found.number {
            ACCEPTED => found.words[0].wrapping_add(found.words[1]),
            _ => 0,
        }
    }

    #[inline(always)]
    fn separators(&mut self) -> u64 {
        library::separators(&mut self.0)
    }
}
