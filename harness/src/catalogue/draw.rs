//! How what is done to a catalogue is drawn.

use super::act::Act;
use super::uses_separator;
use crate::rng::Rng;
use crate::word::draw::{accepted_word, likely_word, near_word};
use crate::word::{oracle, Word};

/// The numbers by which the full check refuses a word.
pub const REFUSALS: std::ops::RangeInclusive<u32> = 1..=14;

/// Words drawn for each number, and accepted ones of each kind.
pub const PER_NUMBER: usize = 4;
const ACCEPTED_OF_A_KIND: usize = 24;

/// The least and the most school.
pub const FIRST_SCHOOL: u16 = 1;
pub const LAST_SCHOOL: u16 = u16::MAX;

/// Words to choose from.
pub struct Words {
    pub with_separator: Vec<Word>,
    pub without: Vec<Word>,
    /// Some for each number that the full check gives.
    pub refused: Vec<Word>,
}

impl Words {
    pub fn draw(rng: &mut Rng) -> Self {
        let refused = REFUSALS.flat_map(|number| [number; PER_NUMBER]);
        Self {
            with_separator: accepted(rng, true),
            without: accepted(rng, false),
            refused: refused.map(|number| refused_word(rng, number)).collect(),
        }
    }

    /// Mostly accepted, and as often with a separator as without.
    pub fn pick(&self, rng: &mut Rng) -> Word {
        match rng.below(8) {
            0 => rng.pick(&self.refused),
            1..=4 => rng.pick(&self.with_separator),
            _ => rng.pick(&self.without),
        }
    }

    /// A word that is accepted.
    pub fn pick_accepted(&self, rng: &mut Rng) -> Word {
        match rng.percent(50) {
            true => rng.pick(&self.with_separator),
            false => rng.pick(&self.without),
        }
    }
}

fn accepted(rng: &mut Rng, with_separator: bool) -> Vec<Word> {
    let drawn = std::iter::repeat_with(|| accepted_word(rng));
    let of_this_kind = drawn.filter(|&word| uses_separator(word) == with_separator);
    of_this_kind.take(ACCEPTED_OF_A_KIND).collect()
}

/// A word that the full check refuses by this number.
fn refused_word(rng: &mut Rng, number: u32) -> Word {
    loop {
        let base = accepted_word(rng);
        for word in [near_word(rng, base), likely_word(rng)] {
            if oracle::format_error(word) == number {
                return word;
            }
        }
    }
}

/// So many schools, each once: 0, which is none, the first, the last, and others, near
/// each other or anywhere.
pub fn pool(rng: &mut Rng, size: usize) -> Vec<u16> {
    let are_near = rng.percent(50);
    let base = rng.bits() as u16;
    let mut pool = vec![0, FIRST_SCHOOL, LAST_SCHOOL];
    while pool.len() < size {
        let school = match are_near {
            true => base.wrapping_add(rng.below(2 * size as u64) as u16),
            false => rng.bits() as u16,
        };
        if !pool.contains(&school) {
            pool.push(school);
        }
    }
    pool.truncate(size);
    pool
}

/// In an order of its own.
pub fn shuffled<T: Copy>(rng: &mut Rng, list: &[T]) -> Vec<T> {
    let mut list = list.to_vec();
    for place in (1..list.len()).rev() {
        list.swap(place, rng.below(place as u64 + 1) as usize);
    }
    list
}

/// An addition with this chance, else a removal, of any school of a pool.
pub fn act(rng: &mut Rng, pool: &[u16], words: &Words, adds: u64) -> Act {
    let school = rng.pick(pool);
    match rng.percent(adds) {
        true => Act::Add(school, words.pick(rng)),
        false => Act::Remove(school),
    }
}
