//! The words that are lent to a call: what it has written, and what it has left.

use std::fmt;

use crate::readers::answer::UNTOUCHED;
use crate::readers::call::Call;
use crate::readers::library::{self, RawAnswer, RawState};

#[derive(PartialEq)]
pub struct Lent {
    number: u32,
    state: RawState,
    answer: RawAnswer,
}

impl Lent {
    /// To a call of the library.
    pub fn to(call: Call, buffer: &[u8], reader: u8, mut state: RawState) -> Self {
        let mut answer = library::UNWRITTEN;
        let number = library::ask(call, buffer, reader, &mut state, &mut answer);
        Self {
            number,
            state,
            answer,
        }
    }

    /// To a call that is refused.
    pub fn refused(number: u32, state: RawState) -> Self {
        Self {
            number,
            state,
            answer: [0, UNTOUCHED, 0, 0],
        }
    }
}

impl fmt::Display for Lent {
    fn fmt(&self, out: &mut fmt::Formatter<'_>) -> fmt::Result {
        let Self {
            number,
            state,
            answer,
        } = self;
        write!(
            out,
            "(number {number}, state {state:X?}, answer {answer:X?})"
        )
    }
}
