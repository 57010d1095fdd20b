//! The rule table of the definition, with the word at run time: where a reader
//! may pass a separator.

use super::sets::*;
use super::values::is_digit;
use crate::word::{Field, Word};

/// A buffer as one reader sees it.
#[derive(Clone, Copy)]
pub struct View<'a> {
    buffer: &'a [u8],
    /// None where the word has none.
    separator: Option<u8>,
    radix: u8,
    pub set: u32,
}

impl<'a> View<'a> {
    pub fn new(word: Word, reader: u8, buffer: &'a [u8]) -> Self {
        let separator = word.field(Field::Separator);
        Self {
            buffer,
            separator: (separator != 0).then_some(separator),
            radix: word.field(Field::MantissaRadix),
            set: word.reader_set(reader),
        }
    }

    /// The same reader's view of another buffer: the word is not read again.
    pub fn over<'b>(&self, buffer: &'b [u8]) -> View<'b> {
        View { buffer, ..*self }
    }

    /// The rule for a separator at a place, by how many digits the reader has
    /// counted before it.
    pub fn may_pass(&self, place: usize, count: usize) -> bool {
        if count == 0 {
            self.may_pass_first(place)
        } else {
            self.may_pass_later(place)
        }
    }

    fn may_pass_first(&self, place: usize) -> bool {
        let previous = self.at(place.wrapping_sub(1));
        let next = self.at(place + 1);
        let before_run = || self.before_run(place);
        let after_run = || self.after_run(place);
        match self.set {
            I => self.is_digit(previous) && self.is_digit(next),
            L => self.is_other(previous) && !self.is_separator(next),
            T => self.is_other(next) && !self.is_separator(previous),
            IL if self.is_digit(previous) => self.is_digit(next),
            IL => !self.is_separator(previous),
            IT if self.is_digit(previous) => !self.is_separator(next),
            IT => self.is_other(next),
            LT if self.is_digit(previous) && self.is_digit(next) => false,
            LT | ILT => !self.is_separator(previous) && !self.is_separator(next),
            IC => self.is_digit(before_run()) && self.is_digit(after_run()),
            LC => !self.is_digit(before_run()),
            TC => !self.is_digit(after_run()),
            ILC => self.is_digit(after_run()) || !self.is_digit(before_run()),
            ITC => {
                let before = before_run();
                (before.is_some() && !self.is_digit(before)) || !self.is_digit(after_run())
            }
            LTC => !(self.is_digit(before_run()) && self.is_digit(after_run())),
            ILTC => true,
            _ => false,
        }
    }

    fn may_pass_later(&self, place: usize) -> bool {
        let next = self.at(place + 1);
        let after_run = || self.after_run(place);
        match self.set {
            I | IL => self.is_digit(next),
            T | LT => self.is_other(next),
            IT | ILT => !self.is_separator(next),
            IC => self.is_digit(after_run()),
            TC | LTC => !self.is_digit(after_run()),
            ILC => {
                let after = after_run();
                after.is_none() || self.is_digit(after)
            }
            ITC | ILTC => true,
            _ => false,
        }
    }

    pub fn at(&self, place: usize) -> Option<u8> {
        self.buffer.get(place).copied()
    }

    /// The nearest byte before a place that is no separator.
    pub fn before_run(&self, place: usize) -> Option<u8> {
        let mut place = place.wrapping_sub(1);
        while self.is_separator(self.at(place)) {
            place = place.wrapping_sub(1);
        }
        self.at(place)
    }

    /// The nearest byte behind a place that is no separator.
    pub fn after_run(&self, place: usize) -> Option<u8> {
        self.at(self.end_of_run(place + 1))
    }

    pub fn end_of_run(&self, from: usize) -> usize {
        let mut place = from;
        while self.is_separator(self.at(place)) {
            place += 1;
        }
        place
    }

    pub fn is_separator(&self, byte: Option<u8>) -> bool {
        byte.is_some() && byte == self.separator
    }

    pub fn is_digit(&self, byte: Option<u8>) -> bool {
        byte.is_some_and(|byte| is_digit(byte, self.radix))
    }

    /// Neither digit nor separator, also where there is no byte.
    fn is_other(&self, byte: Option<u8>) -> bool {
        !self.is_digit(byte) && !self.is_separator(byte)
    }
}
