//! The crate's `Bytes`, asked one call after the other.

#![allow(unsafe_code)]

mod parts;

pub use self::parts::Part;

use lexical_util_format::iterator::{Bytes, DigitsIter, Iter};

use super::answer::{Answer, Found};
use super::call::{Call, Case, State, Step, COUNTED, EXPONENT, FRACTION, INTEGER, SPECIAL};
use super::read::Read;
use super::refusal;
use super::run::Run;
use super::sets::NONE;
use crate::word::{Field, Word};

/// Does something with a reader, whose type is another for each.
macro_rules! with_reader {
    ($bytes:expr, $reader:expr, |$iter:ident| $body:expr) => {
        match $reader {
            INTEGER => {
                let $iter = &mut $bytes.integer_iter();
                $body
            }
            FRACTION => {
                let $iter = &mut $bytes.fraction_iter();
                $body
            }
            EXPONENT => {
                let $iter = &mut $bytes.exponent_iter();
                $body
            }
            SPECIAL => {
                let $iter = &mut $bytes.special_iter();
                $body
            }
            other => panic!("the crate has no reader {other}"),
        }
    };
}
pub(super) use with_reader;

/// The crate's `Bytes` on its way through a buffer.
#[derive(Clone)]
pub struct Walk<'a, const FORMAT: u128> {
    pub bytes: Bytes<'a, FORMAT>,
    /// The state of `bytes`, which does not show all of its counts.
    state: State,
}

impl<'a, const FORMAT: u128> Walk<'a, FORMAT> {
    pub const WORD: Word = Word::from_bits(FORMAT);

    pub fn at(buffer: &'a [u8], state: State) -> Self {
        assert!(state.cursor <= buffer.len(), "a cursor within the buffer");
        let mut bytes = Bytes::new(buffer);
        // SAFETY: the cursor is at most the buffer's length.
        unsafe { bytes.set_cursor(state.cursor) };
        let [integer, fraction, exponent] = state.counts;
        (0..integer).for_each(|_| bytes.integer_iter().increment_count());
        (0..fraction).for_each(|_| bytes.fraction_iter().increment_count());
        (0..exponent).for_each(|_| bytes.exponent_iter().increment_count());
        Self { bytes, state }
    }

    pub fn step(&mut self, step: Step) -> Answer {
        match self.refusal(step) {
            refusal::ACCEPTED => self.call(step),
            number => Answer::refused(number, self.state),
        }
    }

    fn refusal(&self, Step { reader, call }: Step) -> u32 {
        let case = Case {
            word: Self::WORD,
            buffer: self.bytes.get_buffer(),
            state: self.state,
            reader,
        };
        refusal::of_call(&case, call)
    }

    fn call(&mut self, Step { reader, call }: Step) -> Answer {
        let (found, taken) = match call {
            Call::TakeN(n) => self.take_n(reader, n),
            Call::ReadIf(_) | Call::ReadIfValueCased(_) => self.read(reader, call),
            Call::DigitRun => return self.digit_run(reader),
            _ => with_reader!(self.bytes, reader, |iter| ask(iter, call)),
        };
        let zeros = match call {
            Call::SkipZeros => taken,
            _ => 0,
        };
        self.answer(reader, found, taken, zeros)
    }

    /// A read, and a peek from the same state beside it.
    fn read(&mut self, reader: u8, call: Call) -> (Found, usize) {
        let mut same = self.bytes.clone();
        let peeked = with_reader!(same, reader, |iter| peek(iter));
        let taken = with_reader!(self.bytes, reader, |iter| read(iter, call));
        let found = Found::read(Read::of_crate(taken, peeked));
        (found, usize::from(taken.is_some()))
    }

    /// A run that is refused leaves all as it was, its passing too.
    fn digit_run(&mut self, reader: u8) -> Answer {
        let before = self.clone();
        let mut run = Run::new(Self::WORD);
        with_reader!(self.bytes, reader, |iter| take_digits(iter, &mut run));
        let after = self.answer(reader, Found::NOTHING, run.taken, 0).state;
        let answer = run.answer(before.state, after);
        if answer.number != refusal::ACCEPTED {
            *self = before;
        }
        answer
    }

    /// In the crate the sum of `n` and the cursor can wrap, and what follows is
    /// undefined. For such an `n` it is asked for the most that it can be: both
    /// are more than is left.
    fn take_n(&mut self, reader: u8, n: usize) -> (Found, usize) {
        let n = n.min(usize::MAX - self.bytes.cursor());
        let block = match reader {
            INTEGER => self.bytes.integer_iter().take_n(n),
            FRACTION => self.bytes.fraction_iter().take_n(n),
            EXPONENT => self.bytes.exponent_iter().take_n(n),
            other => panic!("the crate's reader {other} takes no blocks"),
        };
        let part = block.map(|block| block.as_slice());
        let found = Found::block(self.bytes.get_buffer(), part);
        (found, part.map_or(0, <[u8]>::len))
    }

    /// The answer of a call that skipped so many zeros.
    fn answer(&mut self, reader: u8, found: Found, taken: usize, zeros: usize) -> Answer {
        let before = self.state;
        let shown = [
            self.bytes.integer_iter().current_count(),
            self.bytes.fraction_iter().current_count(),
            self.bytes.exponent_iter().current_count(),
        ];
        if reader != SPECIAL {
            self.state.counts[usize::from(reader)] += zeros;
        }
        self.state = State {
            cursor: self.bytes.cursor(),
            counts: Self::counts_behind(shown, self.state.counts),
        };
        assert!(
            shown == Self::shown_for(self.state),
            "the crate changed a count that it does not show"
        );
        Answer::new(before, found, taken, self.state)
    }

    /// The counts behind those shown. A reader with flags shows its own. One
    /// without does not, so it is taken to have kept its own but for its zeros.
    fn counts_behind(shown: [usize; 3], kept: [usize; 3]) -> [usize; 3] {
        COUNTED.map(|reader| {
            let counts = if Self::has_flags(reader) { shown } else { kept };
            counts[usize::from(reader)]
        })
    }

    /// What the definition says that the crate shows: for a reader without flags
    /// the cursor, or where there is a separator the sum of all counts.
    fn shown_for(State { cursor, counts }: State) -> [usize; 3] {
        let in_place = match Self::WORD.field(Field::Separator) {
            0 => cursor,
            _ => counts.iter().sum(),
        };
        COUNTED.map(|reader| match Self::has_flags(reader) {
            true => counts[usize::from(reader)],
            false => in_place,
        })
    }

    fn has_flags(reader: u8) -> bool {
        Self::WORD.reader_set(reader) != NONE
    }
}

/// What the call finds, and how many bytes it took.
fn ask<'a>(iter: &mut impl DigitsIter<'a>, call: Call) -> (Found, usize) {
    match call {
        Call::Peek => (Found::byte(peek(iter)), 0),
        Call::Next => {
            let byte = next(iter);
            (Found::byte(byte), usize::from(byte.is_some()))
        }
        Call::NextAll => (Found::NOTHING, next_all(iter)),
        Call::SkipZeros => {
            let zeros = iter.skip_zeros();
            (Found::zeros(zeros), zeros)
        }
        _ => panic!("a call with a function of its own"),
    }
}

fn next_all<'a>(iter: &mut impl DigitsIter<'a>) -> usize {
    let mut taken = 0;
    while next(iter).is_some() {
        taken += 1;
    }
    taken
}

/// Each step peeks, then takes from where the peek left the reader.
fn take_digits<'a>(iter: &mut impl DigitsIter<'a>, run: &mut Run) {
    while peek(iter).is_some_and(|byte| iter.is_digit(byte)) {
        run.take(next(iter).expect("a byte behind a peek that found one"));
    }
}

/// Never inlined: the crate's own is, and one copy of it for each reader and
/// word is enough for the compiler.
#[inline(never)]
fn peek<'a>(iter: &mut impl DigitsIter<'a>) -> Option<u8> {
    iter.peek().copied()
}

/// Never inlined, for the same reason.
#[inline(never)]
fn next<'a>(iter: &mut impl DigitsIter<'a>) -> Option<u8> {
    iter.next().copied()
}

/// Never inlined, for the same reason.
#[inline(never)]
fn read<'a>(iter: &mut impl DigitsIter<'a>, call: Call) -> Option<u8> {
    match call {
        Call::ReadIf(set) => iter.read_if(|byte| set.contains(byte)),
        Call::ReadIfValueCased(value) => iter.read_if_value_cased(value),
        _ => panic!("not a read"),
    }
}
