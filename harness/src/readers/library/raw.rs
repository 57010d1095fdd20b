//! States and answers as they cross the boundary.

use crate::readers::call::{Case, State};

/// The two halves of the word, the cursor, the three counts, a number that is
/// kept as given, the edition.
pub type RawState = [u64; 8];

/// Whether there is a byte, a block or a value, or how a read went; what was
/// found, taken, passed.
pub type RawAnswer = [u64; 4];

/// The only edition that there is.
pub const EDITION: u64 = 0;

/// Places in a state.
pub const CURSOR_AT: usize = 2;
pub const INTEGER_AT: usize = 3;
pub const EDITION_AT: usize = 7;

/// What no call changes: all but the cursor and the counts.
const KEPT: [usize; 4] = [0, 1, 6, EDITION_AT];

/// A case's state.
pub fn raw(case: &Case) -> RawState {
    let State { cursor, counts } = case.state;
    let [integer, fraction, exponent] = counts.map(|count| count as u64);
    [
        case.word.lo(),
        case.word.hi(),
        cursor as u64,
        integer,
        fraction,
        exponent,
        spare(case),
        EDITION,
    ]
}

/// A number that no call goes by: another from case to case.
fn spare(case: &Case) -> u64 {
    let lengths = (case.buffer.len() as u64) << 32 | case.state.cursor as u64;
    (case.word.lo() ^ lengths).wrapping_mul(0x9E37_79B9_7F4A_7C15)
}

/// The part of a state that calls change.
pub fn changing(&[_, _, cursor, integer, fraction, exponent, _, _]: &RawState) -> State {
    State {
        cursor: cursor as usize,
        counts: [integer, fraction, exponent].map(|count| count as usize),
    }
}

/// Whether the other part is as it was.
pub fn is_kept(before: &RawState, after: &RawState) -> bool {
    KEPT.iter().all(|&place| before[place] == after[place])
}
