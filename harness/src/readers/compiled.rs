//! The crate's readers, asked as the library's are. In the crate the word is
//! a constant, so its readers are compiled anew for each word.

use lexical_util_format::iterator::{Bytes, DigitsIter, Iter};

use super::answer::Answer;
use super::call::{Call, Case, State, Step, EXPONENT, FRACTION, INTEGER, SPECIAL};
pub use super::walk::Part;
use super::walk::{with_reader, Walk};
use crate::word::Word;

/// The crate's readers under one word, which must be that of each case.
///
/// Where the definition refuses a call, the crate is not asked, and the answer
/// is the definition's.
pub trait Readers: Sync {
    fn word(&self) -> Word;
    fn call(&self, case: &Case, call: Call) -> Answer;

    /// Calls one after the other from a fresh state, by one `Bytes`.
    fn run(&self, buffer: &[u8], list: &[Step]) -> Vec<Answer>;

    /// The same, with the calls that each stands for: a zero skip for its reads, a
    /// digit run for its peeks and takes, any other and a refused one for itself.
    fn run_by_parts(&self, buffer: &[u8], list: &[Step]) -> Vec<Vec<Part>>;

    fn current_count(&self, case: &Case) -> usize;
    fn is_digit(&self, reader: u8, byte: u8) -> bool;
    fn is_digit_separator(&self, reader: u8, byte: u8) -> bool;
}

pub struct Compiled<const FORMAT: u128>;

impl<const FORMAT: u128> Readers for Compiled<FORMAT> {
    fn word(&self) -> Word {
        Walk::<FORMAT>::WORD
    }

    fn call(&self, case: &Case, call: Call) -> Answer {
        let reader = case.reader;
        Walk::<FORMAT>::at(case.buffer, case.state).step(Step { reader, call })
    }

    fn run(&self, buffer: &[u8], list: &[Step]) -> Vec<Answer> {
        let mut walk = Walk::<FORMAT>::at(buffer, State::default());
        list.iter().map(|&step| walk.step(step)).collect()
    }

    fn run_by_parts(&self, buffer: &[u8], list: &[Step]) -> Vec<Vec<Part>> {
        let mut walk = Walk::<FORMAT>::at(buffer, State::default());
        list.iter().map(|&step| walk.step_by_parts(step)).collect()
    }

    fn current_count(&self, case: &Case) -> usize {
        let mut bytes = Walk::<FORMAT>::at(case.buffer, case.state).bytes;
        with_reader!(bytes, case.reader, |iter| iter.current_count())
    }

    fn is_digit(&self, reader: u8, byte: u8) -> bool {
        let mut bytes = Bytes::<FORMAT>::new(&[]);
        with_reader!(bytes, reader, |iter| iter.is_digit(byte))
    }

    fn is_digit_separator(&self, reader: u8, byte: u8) -> bool {
        let mut bytes = Bytes::<FORMAT>::new(&[]);
        with_reader!(bytes, reader, |iter| iter.is_digit_separator(byte))
    }
}
