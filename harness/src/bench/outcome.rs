//! What a caller has of one cell's work, whichever side did it.

use lexical_util_format::iterator::{Bytes, Iter};

use crate::readers::call::{Case, INTEGER};
use crate::readers::library::{RawAnswer, RawState, CURSOR_AT, INTEGER_AT};

/// Few numbers, since some sides return them from a call.
#[derive(Clone, Copy)]
pub struct Outcome {
    /// What was found, and 1 more where that is a byte or a block.
    pub found: usize,
    pub taken: usize,
    pub passed: usize,
    pub cursor: usize,
    pub count: usize,
}

impl Outcome {
    /// From a fresh state: what was moved over and not taken was passed.
    #[inline(always)]
    pub fn new(found: usize, taken: usize, cursor: usize, count: usize) -> Self {
        Self {
            found,
            taken,
            passed: cursor - taken,
            cursor,
            count,
        }
    }

    #[inline(always)]
    pub fn of_rust<const FORMAT: u128>(
        bytes: &mut Bytes<FORMAT>,
        found: usize,
        taken: usize,
    ) -> Self {
        let iter = bytes.integer_iter();
        Self::new(found, taken, iter.cursor(), iter.current_count())
    }

    #[inline(always)]
    pub fn of_port(case: &Case, found: usize, taken: usize) -> Self {
        let count = case.state.counts[usize::from(INTEGER)];
        Self::new(found, taken, case.state.cursor, count)
    }

    /// The library tells itself what it passed.
    #[inline(always)]
    pub fn of_library(state: &RawState, answer: &RawAnswer) -> Self {
        let [is_there, what, taken, passed] = answer.map(|number| number as usize);
        Self {
            found: is_there + what,
            taken,
            passed,
            cursor: state[CURSOR_AT] as usize,
            count: state[INTEGER_AT] as usize,
        }
    }

    #[inline(always)]
    pub fn numbers(self) -> [usize; 5] {
        let Self {
            found,
            taken,
            passed,
            cursor,
            count,
        } = self;
        [found, taken, passed, cursor, count]
    }
}
