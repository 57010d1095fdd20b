//! How the digits of a number are written in a buffer, and where a run over them
//! comes to.

use crate::readers::answer::{Answer, Found};
use crate::readers::call::{Case, State, EXPONENT, FRACTION, INTEGER};
use crate::readers::refusal::ABOVE_64_BITS;
use crate::readers::sets::{I, ILT, ILTC, ITC, NONE};
use crate::word::{reader_flags, Word};

pub struct Style {
    reader: u8,
    set: u32,
    /// Stands before the digits, and is read already.
    before: &'static [u8],
    between: &'static [u8],
    behind: &'static [u8],
    /// How many of the bytes behind are passed.
    passed_behind: usize,
    /// Which letters are large, by their place.
    is_large: fn(usize) -> bool,
}

const PLAIN: Style = Style {
    reader: INTEGER,
    set: NONE,
    before: b"",
    between: b"",
    behind: b"",
    passed_behind: 0,
    is_large: |_| false,
};

pub const STYLES: [Style; 5] = [
    PLAIN,
    Style {
        set: I,
        between: b"_",
        behind: b".1",
        is_large: |_| true,
        ..PLAIN
    },
    Style {
        reader: FRACTION,
        set: ITC,
        before: b"12.",
        between: b"__",
        behind: b"_",
        passed_behind: 1,
        is_large: |place| place % 2 == 0,
    },
    Style {
        reader: EXPONENT,
        set: ILT,
        before: b"x",
        between: b"_",
        behind: b"_ 1",
        passed_behind: 1,
        is_large: |place| place % 3 > 0,
    },
    Style {
        set: ILTC,
        behind: b"___",
        passed_behind: 3,
        ..PLAIN
    },
];

impl Style {
    /// Gives a case with these digits, and the answer due to it: of this value, or
    /// of none that 64 bits hold.
    pub fn with_case(
        &self,
        word: Word,
        digits: &[u32],
        value: Option<u64>,
        visit: impl FnOnce(&Case, Answer),
    ) {
        let joined = self.joined(digits);
        let start = State {
            cursor: self.before.len(),
            counts: [0; 3],
        };
        let case = Case {
            word: word.with_bits(reader_flags(self.reader, self.set)),
            buffer: &[self.before, &joined, self.behind].concat(),
            state: start,
            reader: self.reader,
        };
        let mut after = start;
        after.cursor += joined.len() + self.passed_behind;
        if self.set != NONE {
            after.counts[usize::from(self.reader)] = digits.len();
        }
        let due = match value {
            Some(value) => Answer::new(start, Found::there(value), digits.len(), after),
            None => Answer::refused(ABOVE_64_BITS, start),
        };
        visit(&case, due);
    }

    fn joined(&self, digits: &[u32]) -> Vec<u8> {
        let letters = digits.iter().enumerate();
        let letters: Vec<[u8; 1]> = letters
            .map(|(place, &digit)| [self.letter(place, digit)])
            .collect();
        letters.join(self.between)
    }

    fn letter(&self, place: usize, digit: u32) -> u8 {
        let letter = char::from_digit(digit, 36).expect("a digit") as u8;
        match (self.is_large)(place) {
            true => letter.to_ascii_uppercase(),
            false => letter,
        }
    }
}
