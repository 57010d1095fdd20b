//! What the definition computes from a list of calls and their answers alone. Of
//! a block the answer tells the place in the buffer.

use crate::readers::answer::Answer;
use crate::readers::call::{Call, Step, SPECIAL};
use crate::readers::refusal::ACCEPTED;
use crate::readers::sets::NONE;
use crate::readers::table::View;
use crate::word::{Field, Word};

/// The calls so far. A zero skip stands in it as its reads, each a step with
/// the call `SkipZeros` and a read's answer; a digit run as its peeks and takes.
pub struct History<'a> {
    word: Word,
    buffer: &'a [u8],
    /// The separators passed and the bytes taken, in the order of the calls.
    pub joined: Vec<u8>,
    /// The sums of what the calls answered.
    pub taken: usize,
    pub passed: usize,
    /// The counts of the history.
    pub counts: [usize; 3],
}

impl<'a> History<'a> {
    pub fn new(word: Word, buffer: &'a [u8]) -> Self {
        Self {
            word,
            buffer,
            joined: Vec::new(),
            taken: 0,
            passed: 0,
            counts: [0; 3],
        }
    }

    pub fn add(&mut self, step: Step, answer: &Answer) {
        let separator = self.word.field(Field::Separator);
        let taken = self.taken_bytes(step.call, answer);
        self.joined
            .extend(std::iter::repeat_n(separator, answer.passed));
        self.joined.extend(&taken);
        self.taken += answer.taken;
        self.passed += answer.passed;
        if step.reader != SPECIAL {
            self.counts[usize::from(step.reader)] += self.counted(step, &taken);
        }
    }

    /// How many of the bytes that a counted reader took it counts: the zeros of
    /// its zero skips and, if it has any flag, the digits of its takes.
    fn counted(&self, step: Step, taken: &[u8]) -> usize {
        let view = View::new(self.word, step.reader, &[]);
        match step.call {
            Call::SkipZeros => taken.len(),
            Call::Next if view.set != NONE => {
                let digits = taken.iter().filter(|&&byte| view.is_digit(Some(byte)));
                digits.count()
            }
            _ => 0,
        }
    }

    /// Whether the reader may pass separators at the place that the calls so
    /// far have come to, and the buffer has so many there.
    pub fn may_pass(&self, reader: u8, separators: usize) -> bool {
        let place = self.joined.len();
        let count = match reader {
            SPECIAL => 0,
            _ => self.counts[usize::from(reader)],
        };
        let view = View::new(self.word, reader, self.buffer);
        view.may_pass(place, count)
            && (place..place + separators).all(|place| view.is_separator(view.at(place)))
    }

    /// What a call answered as taken. A peek takes nothing of what it finds, a
    /// declined read nothing of what it saw.
    fn taken_bytes(&self, call: Call, answer: &Answer) -> Vec<u8> {
        let what = answer.found.what;
        match call {
            _ if answer.number != ACCEPTED || !answer.found.is_there() => Vec::new(),
            Call::Peek => Vec::new(),
            Call::TakeN(_) => self.buffer[what as usize..][..answer.taken].to_vec(),
            _ => vec![what as u8],
        }
    }
}
