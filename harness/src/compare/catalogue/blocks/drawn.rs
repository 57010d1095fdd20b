//! How blocks are drawn that no history leaves.

use std::fmt;

use crate::catalogue::act::Act;
use crate::catalogue::draw::Words;
use crate::catalogue::{Block, Place, PER_PLACE, PLACES, WORDS};
use crate::rng::Rng;
use crate::word::draw::uniform_word;

/// Few, so that schools are often equal, and one is often there.
const SCHOOLS: u64 = 40;

/// Where a number of schools or a tally may turn.
const EDGES: [u64; 12] = [
    0,
    1,
    2,
    62,
    63,
    64,
    65,
    66,
    1 << 32,
    1 << 63,
    u64::MAX - 1,
    u64::MAX,
];

/// The schools of a block.
#[derive(Clone, Copy)]
enum Schools {
    Few,
    Ascending,
    /// Some are above 16 bits, with the low ones of a school that may be sought.
    Above,
    Any,
}

const KINDS: [Schools; 4] = [
    Schools::Few,
    Schools::Ascending,
    Schools::Above,
    Schools::Any,
];

pub fn block(rng: &mut Rng, words: &Words) -> Block {
    let mut block = [0; WORDS];
    block[0] = count(rng);
    block[1] = count(rng);
    let kind = rng.pick(&KINDS);
    let mut schools: Vec<u64> = (0..PLACES).map(|_| school(rng, kind)).collect();
    if let Schools::Ascending = kind {
        schools.sort_unstable();
    }
    for (place, school) in block[2..].chunks_mut(PER_PLACE).zip(schools) {
        place.copy_from_slice(&with_word(rng, words, school));
    }
    block
}

/// At an edge, near one that wraps, within the places, or any.
fn count(rng: &mut Rng) -> u64 {
    match rng.below(4) {
        0 => rng.pick(&EDGES),
        1 => rng.below(PLACES as u64 + 1) | rng.below(3) << 32,
        2 => rng.below(PLACES as u64 + 1),
        _ => rng.bits(),
    }
}

fn school(rng: &mut Rng, kind: Schools) -> u64 {
    let few = rng.below(SCHOOLS);
    match kind {
        Schools::Few => few,
        Schools::Ascending => rng.below(4 * SCHOOLS),
        Schools::Above => few | rng.below(2) << rng.pick(&[16, 17, 32, 63]),
        Schools::Any => rng.bits() >> rng.below(64),
    }
}

/// One that was accepted, any, or one without a separator and more that is no word.
fn with_word(rng: &mut Rng, words: &Words, school: u64) -> Place {
    let any = uniform_word(rng);
    match rng.below(3) {
        0 => {
            let word = words.pick(rng);
            [school, word.lo(), word.hi()]
        }
        1 => [school, any.lo(), any.hi()],
        _ => [school, any.lo(), any.hi() & !0xFF],
    }
}

/// Half of the schools are those of a place, listed or not, by their low bits.
pub fn act(rng: &mut Rng, block: &Block, words: &Words) -> Act {
    let place = 2 + PER_PLACE * rng.below(PLACES as u64) as usize;
    let school = match rng.below(8) {
        0..=3 => block[place] as u16,
        4 | 5 => rng.below(SCHOOLS) as u16,
        6 => rng.pick(&[0, 1, u16::MAX]),
        _ => rng.bits() as u16,
    };
    match rng.percent(50) {
        true => Act::Add(school, words.pick(rng)),
        false => Act::Remove(school),
    }
}

/// A block as the two counts and the schools of its places.
pub struct Shown<'a>(pub &'a Block);

impl fmt::Display for Shown<'_> {
    fn fmt(&self, out: &mut fmt::Formatter<'_>) -> fmt::Result {
        let [how_many, tally, places @ ..] = self.0;
        let schools: Vec<u64> = places.chunks(PER_PLACE).map(|place| place[0]).collect();
        write!(
            out,
            "how many 0x{how_many:X}, tally 0x{tally:X}, {schools:X?}"
        )
    }
}
