//! Which calls the definition refuses, and with which number. The crate refuses
//! none: it panics, or trusts its caller.

use super::call::{Call, Case, SPECIAL};
use super::sets::C;

pub const ACCEPTED: u32 = 0;
pub const CONSECUTIVE_INTEGER: u32 = 12;
pub const CURSOR_PAST_THE_END: u32 = 16;
pub const COUNTS_EXCEED_THE_CURSOR: u32 = 17;
pub const SPECIAL_HAS_NO_SUCH_CALL: u32 = 18;
pub const UNKNOWN_READER: u32 = 19;
pub const UNKNOWN_EDITION: u32 = 19;
pub const NO_DIGIT: u32 = 23;
pub const ABOVE_64_BITS: u32 = 24;

/// The first number that is due to a call, or 0. A digit run may also be refused
/// for what it reads, see `run.rs`.
pub fn of_call(case: &Case, call: Call) -> u32 {
    unknown_reader(case)
        .or_else(|| cursor_past_the_end(case))
        .or_else(|| counts_exceed_the_cursor(case))
        .or_else(|| special_has_no_such_call(case, call))
        .or_else(|| own_flags_consecutive_alone(case, call))
        .unwrap_or(ACCEPTED)
}

/// The same for `current_count`, which goes by no flags.
pub fn of_count(case: &Case) -> u32 {
    unknown_reader(case)
        .or_else(|| cursor_past_the_end(case))
        .or_else(|| counts_exceed_the_cursor(case))
        .unwrap_or(ACCEPTED)
}

/// The same for the plain reader, which has no word and no counts.
pub fn of_plain_call(case: &Case) -> u32 {
    unknown_reader(case)
        .or_else(|| cursor_past_the_end(case))
        .unwrap_or(ACCEPTED)
}

fn unknown_reader(case: &Case) -> Option<u32> {
    (case.reader > SPECIAL).then_some(UNKNOWN_READER)
}

fn cursor_past_the_end(case: &Case) -> Option<u32> {
    (case.state.cursor > case.buffer.len()).then_some(CURSOR_PAST_THE_END)
}

fn counts_exceed_the_cursor(case: &Case) -> Option<u32> {
    let together: u128 = case.state.counts.iter().map(|&count| count as u128).sum();
    (together > case.state.cursor as u128).then_some(COUNTS_EXCEED_THE_CURSOR)
}

fn special_has_no_such_call(case: &Case, call: Call) -> Option<u32> {
    let counted_readers_only = matches!(call, Call::SkipZeros | Call::TakeN(_) | Call::DigitRun);
    (case.reader == SPECIAL && counted_readers_only).then_some(SPECIAL_HAS_NO_SUCH_CALL)
}

/// A block take asks only whether there are flags, not which.
fn own_flags_consecutive_alone(case: &Case, call: Call) -> Option<u32> {
    let goes_by_the_rules = !matches!(call, Call::TakeN(_));
    let alone = case.reader < SPECIAL && case.word.reader_set(case.reader) == C;
    (goes_by_the_rules && alone).then_some(CONSECUTIVE_INTEGER + u32::from(case.reader))
}
