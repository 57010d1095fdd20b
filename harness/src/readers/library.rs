//! The reader calls of the Rattle static library.

#![allow(unsafe_code)]

mod functions;
mod raw;

pub use self::raw::{raw, RawAnswer, RawState, CURSOR_AT, EDITION, EDITION_AT, INTEGER_AT};

use self::functions::*;
use self::raw::{changing, is_kept};
use super::answer::{Answer, CountAnswer, Found, UNTOUCHED};
use super::call::{ByteSet, Call, Case, State};
use super::column::{Column, Sums};
use super::run_end::{RunEnd, Search};
use crate::word::Word;

/// What an answer holds before a call.
pub const UNWRITTEN: RawAnswer = [UNTOUCHED; 4];

/// What a place for one number holds before a call.
pub const UNTOUCHED_NUMBER: usize = UNTOUCHED as usize;

/// Makes a call as a caller does. Inlined, so that one who knows the call does
/// not choose it again.
#[inline(always)]
pub fn ask(
    call: Call,
    buffer: &[u8],
    reader: u8,
    state: &mut RawState,
    answer: &mut RawAnswer,
) -> u32 {
    let (s, len) = (buffer.as_ptr(), buffer.len());
    // SAFETY: pointer and length are those of one slice; the rest are numbers
    // and places that nobody else has.
    unsafe {
        match call {
            Call::Peek => pawhetino_peek(s, len, reader, state, answer),
            Call::Next => pawhetino_next(s, len, reader, state, answer),
            Call::NextAll => pawhetino_next_all(s, len, reader, state, answer),
            Call::ReadIf(ByteSet(set)) => pawhetino_read_if(s, len, reader, state, answer, &set),
            Call::ReadIfValueCased(value) => {
                pawhetino_read_if_value_cased(s, len, reader, state, answer, value)
            }
            Call::SkipZeros => pawhetino_skip_zeros(s, len, reader, state, answer),
            Call::TakeN(n) => pawhetino_take_n(s, len, reader, state, answer, n),
            Call::DigitRun => pawhetino_digit_run(s, len, reader, state, answer),
        }
    }
}

pub fn call(case: &Case, call: Call) -> Answer {
    let before = raw(case);
    let mut state = before;
    let mut answer = UNWRITTEN;
    let number = ask(call, case.buffer, case.reader, &mut state, &mut answer);
    Answer {
        kept: is_kept(&before, &state),
        ..answered(number, answer, changing(&state))
    }
}

/// A peek or a take by the plain reader, which has no word and no counts.
pub fn plain_call(case: &Case, call: Call) -> Answer {
    let function = match call {
        Call::Peek => pawhetino_plain_peek,
        Call::Next => pawhetino_plain_next,
        _ => panic!("the plain reader has no such call"),
    };
    let mut state = case.state;
    let mut answer = UNWRITTEN;
    let (s, len) = (case.buffer.as_ptr(), case.buffer.len());
    // SAFETY: as above.
    let number = unsafe { function(s, len, case.reader, &mut state.cursor, &mut answer) };
    answered(number, answer, state)
}

fn answered(number: u32, answer: RawAnswer, state: State) -> Answer {
    let [how, what, taken, passed] = answer;
    Answer {
        number,
        found: Found { how, what },
        taken: taken as usize,
        passed: passed as usize,
        state,
        kept: true,
    }
}

pub fn current_count(case: &Case) -> CountAnswer {
    ask_count(case.buffer, case.reader, raw(case))
}

/// The state is lent where it could be written to, to see that it is not.
pub fn ask_count(buffer: &[u8], reader: u8, before: RawState) -> CountAnswer {
    let mut state = before;
    let mut count = UNTOUCHED_NUMBER;
    let (s, len) = (buffer.as_ptr(), buffer.len());
    // SAFETY: as above.
    let number = unsafe { pawhetino_current_count(s, len, reader, &raw mut state, &mut count) };
    CountAnswer {
        number,
        count,
        kept: state == before,
    }
}

/// Makes the state that a word is read from, in a place that is lent.
pub fn fresh(word: Word, edition: u64, state: &mut RawState) -> u32 {
    pawhetino_fresh(word.lo(), word.hi(), edition, state)
}

/// Takes every cell of a column to its end, in one call.
pub fn next_all_column(column: &Column) -> Sums {
    let [mut taken, mut passed, mut digits] = [UNTOUCHED_NUMBER; 3];
    // SAFETY: each pointer and length are those of one slice; the rest are
    // numbers and places of our own.
    let number = unsafe {
        pawhetino_next_all_column(
            column.buffer.as_ptr(),
            column.buffer.len(),
            column.ends.as_ptr(),
            column.ends.len(),
            column.word.lo(),
            column.word.hi(),
            column.reader,
            &mut taken,
            &mut passed,
            &mut digits,
        )
    };
    Sums {
        number,
        taken,
        passed,
        digits,
    }
}

/// Seeks the end of a run of separators.
pub fn run_end(search: &Search) -> RunEnd {
    let [mut end, mut eights, mut ones] = [UNTOUCHED_NUMBER; 3];
    let &Search {
        buffer,
        separator,
        at,
    } = search;
    let (s, len) = (buffer.as_ptr(), buffer.len());
    // SAFETY: as above.
    unsafe { pawhetino_run_end(s, len, separator, at, &mut end, &mut eights, &mut ones) };
    RunEnd { end, eights, ones }
}

pub fn is_digit(word: Word, byte: u8) -> bool {
    pawhetino_is_digit(word.lo(), word.hi(), byte)
}

pub fn is_digit_separator(word: Word, byte: u8) -> bool {
    pawhetino_is_digit_separator(word.lo(), word.hi(), byte)
}
