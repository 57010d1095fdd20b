//! A digit run as the definition has it: the value of the bytes that it took. Who
//! takes them, the crate or the port, gives them one by one.

use super::answer::{Answer, Found};
use super::call::State;
use super::refusal::{ABOVE_64_BITS, NO_DIGIT};
use crate::word::{Field, Word};

/// The bytes taken so far.
pub struct Run {
    radix: u128,
    pub taken: usize,
    /// None once it is above 64 bits: no further digit makes it less.
    value: Option<u128>,
}

impl Run {
    pub fn new(word: Word) -> Self {
        Self {
            radix: word.field(Field::MantissaRadix).into(),
            taken: 0,
            value: Some(0),
        }
    }

    pub fn take(&mut self, byte: u8) {
        let digit = char::from(byte).to_digit(36).expect("a digit");
        let larger = |value| value * self.radix + u128::from(digit);
        let value = self.value.map(larger);
        self.value = value.filter(|&value| value <= u64::MAX.into());
        self.taken += 1;
    }

    /// The answer of a run that came from one state to another, or of one that is
    /// refused for what it read.
    pub fn answer(&self, before: State, after: State) -> Answer {
        match self.value {
            _ if self.taken == 0 => Answer::refused(NO_DIGIT, before),
            None => Answer::refused(ABOVE_64_BITS, before),
            Some(value) => Answer::new(before, Found::there(value as u64), self.taken, after),
        }
    }
}
