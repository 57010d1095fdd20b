//! The acts that are recorded, always the same: each with a catalogue of its own, which
//! is filled from an empty one.

use super::act::Act;
use super::draw::{Words, FIRST_SCHOOL, LAST_SCHOOL};
use super::map::Map;
use super::{NOT_LISTED, PLACES};
use crate::readers::refusal::ACCEPTED;
use crate::rng::Rng;
use crate::word::{reader_flags, Field, Word};

/// How many schools are added beforehand; the last two are more than there are places.
const ADDED: [u8; 8] = [0, 1, 2, 31, 63, 64, 65, u8::MAX];

/// Cases of which all is drawn.
const DRAWN: usize = 120;

pub struct Case {
    /// How many schools are added beforehand.
    pub added: u8,
    pub act: Act,
    /// An addition's word. Behind a removal too it is looked for.
    pub word: Word,
}

/// What the act returns, and of the catalogue behind it how many are listed, the tally,
/// what the look-up of the school returns, and 1 where it finds the word.
pub type Answers = [usize; 5];

impl Case {
    fn addition(added: u8, school: u16, word: Word) -> Self {
        let act = Act::Add(school, word);
        Self { added, act, word }
    }

    fn removal(added: u8, school: u16) -> Self {
        Self {
            added,
            act: Act::Remove(school),
            word: word_beforehand(school / 2),
        }
    }

    /// Of k schools 2·k comes first, then each even one below it.
    pub fn beforehand(&self) -> impl Iterator<Item = Act> {
        let halves = (1..=u16::from(self.added)).rev();
        halves.map(|half| Act::Add(2 * half, word_beforehand(half)))
    }

    pub fn due(&self) -> Answers {
        let mut map = Map::default();
        self.beforehand().for_each(|act| {
            map.act(act);
        });
        let number = map.act(self.act);
        let found = map.find(self.act.school());
        [
            number as usize,
            map.len(),
            map.separators() as usize,
            found.map_or(NOT_LISTED, |_| ACCEPTED) as usize,
            usize::from(found == Some(self.word)),
        ]
    }
}

/// Radix 10; the word of every other school, from 2 on, has a separator, between the
/// digits of an integer.
fn word_beforehand(half: u16) -> Word {
    let word = Word::from_bits(0).with_field(Field::MantissaRadix, 10);
    match half % 2 {
        0 => word,
        _ => word
            .with_field(Field::Separator, b'_')
            .with_bits(reader_flags(0, 1)),
    }
}

pub fn cases(seed: u64) -> Vec<Case> {
    let mut rng = Rng::new(seed, "catalogue sample");
    let words = Words::draw(&mut rng);
    let mut cases = Vec::new();
    for added in ADDED {
        for school in schools(added) {
            cases.push(Case::addition(added, school, words.pick_accepted(&mut rng)));
            cases.push(Case::removal(added, school));
        }
    }
    for &word in &words.refused {
        let added = rng.pick(&ADDED);
        cases.push(Case::addition(added, any_school(&mut rng, added), word));
    }
    cases.extend((0..DRAWN).map(|_| drawn(&mut rng, &words)));
    cases
}

/// None, the first and the last there are; of those added the first, one in the middle
/// and the last, and a school beside each.
fn schools(added: u8) -> Vec<u16> {
    let last = 2 * u16::from(added);
    let middle = last / 4 * 2;
    let listed = [2, 3, middle, middle + 1, last, last + 1];
    let mut schools = [&[0, FIRST_SCHOOL, LAST_SCHOOL], &listed[..]].concat();
    schools.sort_unstable();
    schools.dedup();
    schools
}

/// About as often listed as not.
fn any_school(rng: &mut Rng, added: u8) -> u16 {
    rng.below(2 * u64::from(added) + 4) as u16
}

/// An addition has the school's own word or any other.
fn drawn(rng: &mut Rng, words: &Words) -> Case {
    let added = rng.below(PLACES as u64 + 3) as u8;
    let school = any_school(rng, added);
    match rng.below(4) {
        0 | 1 => Case::removal(added, school),
        2 => Case::addition(added, school, word_beforehand(school / 2)),
        _ => Case::addition(added, school, words.pick(rng)),
    }
}
