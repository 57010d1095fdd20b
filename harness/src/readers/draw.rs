//! How buffers, states, calls and lists of calls are drawn at random for a word.

use super::call::{ByteSet, Call, State, Step, READERS};
use crate::rng::Rng;
use crate::word::{Field, Word};

/// Signs, points and letters of numerals, which are no digits in radix 10.
const PUNCTUATION: [u8; 8] = [b'.', b'+', b'-', b'e', b'E', b'x', b' ', b'_'];

/// What a buffer is made of.
#[derive(Clone, Copy)]
struct Mixture {
    /// The chance of a separator.
    separators: u64,
    /// The chance that a digit is zero.
    zeros: u64,
}

const ORDINARY: Mixture = Mixture {
    separators: 20,
    zeros: 20,
};

/// The last of these gives long runs.
const SEPARATORS: [u64; 3] = [20, 45, 90];

/// The last of these gives many zeros to skip.
const ZEROS: [u64; 2] = [10, 80];

/// Mostly separators and digits of the word, up to a length.
pub fn buffer(rng: &mut Rng, word: Word, longest: usize) -> Vec<u8> {
    let length = rng.below(longest as u64 + 1);
    let mixture = Mixture {
        separators: rng.pick(&SEPARATORS),
        zeros: rng.pick(&ZEROS),
    };
    (0..length).map(|_| byte(rng, word, mixture)).collect()
}

fn byte(rng: &mut Rng, word: Word, mixture: Mixture) -> u8 {
    if rng.percent(mixture.separators) {
        return word.field(Field::Separator);
    }
    match rng.below(100) {
        0..=64 => digit(rng, word.field(Field::MantissaRadix), mixture),
        65..=74 => digit(rng, word.field(Field::ExponentRadix), mixture),
        75..=89 => rng.pick(&PUNCTUATION),
        _ => rng.byte(),
    }
}

/// A digit of the radix; where the word has a bad one, of the nearest good one.
fn digit(rng: &mut Rng, radix: u8, mixture: Mixture) -> u8 {
    if rng.percent(mixture.zeros) {
        return b'0';
    }
    let value = rng.below(u64::from(radix.clamp(2, 36))) as u8;
    match value {
        0..=9 => b'0' + value,
        _ => value - 10 + rng.pick(b"aA"),
    }
}

/// Digits of the word with few separators, up to a length.
pub fn digits(rng: &mut Rng, word: Word, longest: usize) -> Vec<u8> {
    let length = rng.below(longest as u64 + 1);
    let byte = |_| match rng.below(20) {
        0 => word.field(Field::Separator),
        _ => digit(rng, word.field(Field::MantissaRadix), ORDINARY),
    };
    (0..length).map(byte).collect()
}

/// Any cursor within the buffer, and counts that together do not exceed it.
pub fn state(rng: &mut Rng, buffer: &[u8]) -> State {
    let cursor = rng.below(buffer.len() as u64 + 1) as usize;
    let mut left = cursor;
    let mut counts = [0; 3];
    let first = rng.below(3) as usize;
    for place in 0..3 {
        if rng.percent(50) {
            let count = rng.below(left as u64 + 1) as usize;
            counts[(first + place) % 3] = count;
            left -= count;
        }
    }
    State { cursor, counts }
}

/// One call of each kind.
pub fn calls(rng: &mut Rng, word: Word, buffer: &[u8]) -> [Call; 8] {
    [
        Call::Peek,
        Call::Next,
        Call::NextAll,
        Call::ReadIf(set(rng)),
        Call::ReadIfValueCased(value(rng, word, buffer)),
        Call::SkipZeros,
        Call::TakeN(block(rng, buffer)),
        Call::DigitRun,
    ]
}

/// Any calls but `next_all`, which leaves nothing to the calls behind it.
pub fn list(rng: &mut Rng, word: Word, buffer: &[u8], length: usize) -> Vec<Step> {
    let mut reader = rng.pick(&READERS);
    (0..length)
        .map(|_| {
            if rng.percent(50) {
                reader = rng.pick(&READERS);
            }
            let call = listed_call(rng, word, buffer);
            Step { reader, call }
        })
        .collect()
}

fn listed_call(rng: &mut Rng, word: Word, buffer: &[u8]) -> Call {
    match rng.below(100) {
        0..=14 => Call::Peek,
        15..=39 => Call::Next,
        40..=49 => Call::DigitRun,
        50..=58 => Call::ReadIf(set(rng)),
        59..=71 => Call::ReadIfValueCased(value(rng, word, buffer)),
        72..=85 => Call::SkipZeros,
        86..=98 => Call::TakeN(rng.below(4) as usize),
        _ => Call::TakeN(block(rng, buffer)),
    }
}

/// The size of a block: mostly near the buffer's length, else one whose sum with
/// the cursor is at the edge of wrapping.
pub fn block(rng: &mut Rng, buffer: &[u8]) -> usize {
    let near = rng.below(buffer.len() as u64 + 3) as usize;
    if rng.percent(80) {
        near
    } else {
        usize::MAX - near
    }
}

/// A set with half, a quarter or three quarters of all bytes.
pub fn set(rng: &mut Rng) -> ByteSet {
    let density = rng.below(3);
    ByteSet([(); 4].map(|()| match density {
        0 => rng.bits(),
        1 => rng.bits() & rng.bits(),
        _ => rng.bits() | rng.bits(),
    }))
}

/// Mostly a byte of the buffer, so that many reads succeed.
pub fn value(rng: &mut Rng, word: Word, buffer: &[u8]) -> u8 {
    if buffer.is_empty() || rng.percent(20) {
        byte(rng, word, ORDINARY)
    } else {
        rng.pick(buffer)
    }
}
