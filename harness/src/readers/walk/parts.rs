//! The calls that others stand for in the byte tally.

use lexical_util_format::iterator::DigitsIter;

use super::{with_reader, Walk};
use crate::readers::answer::{Answer, Found};
use crate::readers::call::{Call, Step, EXPONENT, FRACTION, INTEGER, SPECIAL};
use crate::readers::refusal::ACCEPTED;

/// One of them, with its answer.
pub type Part = (Call, Answer);

impl<const FORMAT: u128> Walk<'_, FORMAT> {
    pub fn step_by_parts(&mut self, step: Step) -> Vec<Part> {
        let Step { reader, call } = step;
        let accepted = self.clone().step(step).number == ACCEPTED;
        match call {
            Call::SkipZeros if accepted => self.zero_reads(reader),
            Call::DigitRun if accepted => self.peeks_and_takes(reader),
            _ => vec![(call, self.step(step))],
        }
    }

    /// The reads that a zero skip consists of, up to the first that fails.
    fn zero_reads(&mut self, reader: u8) -> Vec<Part> {
        let mut reads = Vec::new();
        loop {
            let (found, taken) = self.read_zero(reader);
            let answer = self.answer(reader, found, taken, taken);
            reads.push((Call::SkipZeros, answer));
            if taken == 0 {
                return reads;
            }
        }
    }

    /// One turn of the loop in the crate's `skip_zeros`.
    fn read_zero(&mut self, reader: u8) -> (Found, usize) {
        let (found, taken) = self.read(reader, Call::ReadIfValueCased(b'0'));
        if taken > 0 {
            with_reader!(self.bytes, reader, |iter| iter.increment_count());
        }
        (found, taken)
    }

    /// What a digit run consists of, each a call of its own.
    fn peeks_and_takes(&mut self, reader: u8) -> Vec<Part> {
        let mut parts = Vec::new();
        loop {
            let peek = self.part(reader, Call::Peek);
            parts.push(peek);
            if !self.is_digit(peek.1.found) {
                return parts;
            }
            parts.push(self.part(reader, Call::Next));
        }
    }

    fn part(&mut self, reader: u8, call: Call) -> Part {
        (call, self.call(Step { reader, call }))
    }

    fn is_digit(&mut self, found: Found) -> bool {
        found.is_there() && self.bytes.integer_iter().is_digit(found.what as u8)
    }
}
