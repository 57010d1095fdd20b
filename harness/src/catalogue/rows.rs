//! A block as what stands in it, however it was made: what the header promises for
//! every block, by rows that are inserted and taken out.

use super::act::Act;
use super::lent::{Entry, Found};
use super::{
    uses_separator, Block, Place, FULL, NOT_LISTED, PER_PLACE, PLACES, SCHOOL_0_OR_LISTED, WORDS,
};
use crate::readers::refusal::ACCEPTED;
use crate::word::{oracle, Word};

pub struct Rows {
    pub how_many: u64,
    pub tally: u64,
    /// All places, listed or not: a school and its word.
    rows: Vec<(u64, u128)>,
}

impl Rows {
    pub fn of(block: &Block) -> Self {
        let [how_many, tally, places @ ..] = block;
        let row = |place: &[u64]| (place[0], Word::from_halves(place[1], place[2]).bits());
        Self {
            how_many: *how_many,
            tally: *tally,
            rows: places.chunks(PER_PLACE).map(row).collect(),
        }
    }

    pub fn block(&self) -> Block {
        let places = (0..PLACES).flat_map(|i| self.place(i));
        let mut block = [0; WORDS];
        let words = [self.how_many, self.tally].into_iter().chain(places);
        for (word, value) in block.iter_mut().zip(words) {
            *word = value;
        }
        block
    }

    pub fn act(&mut self, act: Act) -> u32 {
        let number = self.due(act);
        if number == ACCEPTED {
            match act {
                Act::Add(school, word) => self.insert(school.into(), word),
                Act::Remove(school) => self.take_out(school.into()),
            }
        }
        number
    }

    pub fn due(&self, act: Act) -> u32 {
        let is_listed = self.is_listed(act.school().into());
        match act {
            Act::Remove(_) if is_listed => ACCEPTED,
            Act::Remove(_) => NOT_LISTED,
            Act::Add(school, word) => match oracle::format_error(word) {
                ACCEPTED if school == 0 || is_listed => SCHOOL_0_OR_LISTED,
                ACCEPTED if self.len() == PLACES => FULL,
                number => number,
            },
        }
    }

    /// What stood in the first place that is not listed goes.
    fn insert(&mut self, school: u64, word: Word) {
        let (at, listed) = (self.scan(school), self.len());
        self.rows.remove(listed);
        self.rows.insert(at, (school, word.bits()));
        self.how_many = listed as u64 + 1;
        if uses_separator(word) && self.tally < PLACES as u64 {
            self.tally += 1;
        }
    }

    /// The last listed place is left with nothing in it.
    fn take_out(&mut self, school: u64) {
        let (at, listed) = (self.scan(school), self.len());
        let (_, bits) = self.rows.remove(at);
        self.rows.insert(listed - 1, (0, 0));
        self.how_many = listed as u64 - 1;
        if uses_separator(Word::from_bits(bits)) {
            self.tally = self.tally.saturating_sub(1);
        }
    }

    pub fn find(&self, school: u16) -> Found {
        let listed = self.is_listed(school.into());
        Found::of(listed.then(|| Word::from_bits(self.rows[self.scan(school.into())].1)))
    }

    pub fn entry(&self, i: usize) -> Entry {
        Entry::of((i < self.len()).then(|| self.place(i)))
    }

    pub fn len(&self) -> usize {
        self.how_many.min(PLACES as u64) as usize
    }

    /// The schools that are listed, in the order of their places.
    pub fn listed(&self) -> impl Iterator<Item = u64> + '_ {
        self.rows.iter().take(self.len()).map(|&(school, _)| school)
    }

    pub fn is_listed(&self, school: u64) -> bool {
        self.listed().nth(self.scan(school)) == Some(school)
    }

    /// The first listed place whose school is not smaller, or the one behind all.
    fn scan(&self, school: u64) -> usize {
        let place = self.listed().position(|other| other >= school);
        place.unwrap_or(self.len())
    }

    fn place(&self, i: usize) -> Place {
        let (school, bits) = self.rows[i];
        let word = Word::from_bits(bits);
        [school, word.lo(), word.hi()]
    }
}
