//! How whole scripts are drawn at random: text, refused opens in it, an accepted
//! open, calls.

use super::oracle;
use super::records::{Script, LONGEST_TEXT};
use crate::readers::call::READERS;
use crate::readers::draw;
use crate::readers::words::compiled;
use crate::rng::Rng;
use crate::word::draw::{accepted_word, likely_word, near_word, uniform_word};
use crate::word::{oracle as checks, Word};

/// The longest text of a script; the last of these is more than any other call
/// comes to.
const LONGEST: [usize; 4] = [4, 12, 60, 400];

const MOST_CALLS: u64 = 40;

pub type Draw = fn(&mut Rng) -> Script;

/// A script whose output can be told, with that output.
pub fn with_output(rng: &mut Rng, draw: Draw) -> (Vec<u8>, Vec<u8>) {
    loop {
        let Script(input) = draw(rng);
        if let Some(output) = oracle::output(&input) {
            return (input, output);
        }
    }
}

/// A script without damage, sometimes without any calls.
pub fn whole(rng: &mut Rng) -> Script {
    let word = compiled_word(rng);
    let longest = rng.pick(&LONGEST);
    let text = draw::buffer(rng, word, longest);
    let script = opening(rng, word, &text);
    let count = rng.below(MOST_CALLS + 1);
    calls(rng, script, word, &text, count)
}

/// A script whose text has nearly as many bytes as it may have, or too many.
pub fn nearly_full(rng: &mut Rng) -> Script {
    let word = compiled_word(rng);
    let length = LONGEST_TEXT - 4 + rng.below(9) as usize;
    let text: Vec<u8> = (0..length).map(|_| rng.pick(b"12_0x")).collect();
    let script = opening(rng, word, &text);
    calls(rng, script, word, &text, 10)
}

/// Text with up to three refused opens anywhere in it, then an accepted open.
fn opening(rng: &mut Rng, word: Word, text: &[u8]) -> Script {
    let mut script = Script::default();
    let mut rest = text;
    for _ in 0..rng.below(4) {
        let (piece, others) = rest.split_at(rng.below(rest.len() as u64 + 1) as usize);
        script = script.text(piece).open(refused_word(rng));
        rest = others;
    }
    script.text(rest).open(word)
}

/// So many calls, each by the last one's reader or by any.
pub fn calls(rng: &mut Rng, script: Script, word: Word, text: &[u8], count: u64) -> Script {
    let mut reader = rng.pick(&READERS);
    (0..count).fold(script, |script, _| {
        if rng.percent(50) {
            reader = rng.pick(&READERS);
        }
        call(rng, script, reader, word, text)
    })
}

fn call(rng: &mut Rng, script: Script, reader: u8, word: Word, text: &[u8]) -> Script {
    match rng.below(100) {
        0..=19 => script.peek(reader),
        20..=49 => script.take(reader),
        50..=69 => script.read(reader, draw::value(rng, word, text)),
        70..=84 => script.zero_skip(reader),
        _ => script.block(reader, block_size(rng, text)),
    }
}

/// Mostly few, so that something is left; else all that there is, and numbers
/// that use each byte of the record.
fn block_size(rng: &mut Rng, text: &[u8]) -> u32 {
    let length = text.len() as u32;
    match rng.below(10) {
        0..=5 => rng.below(3) as u32,
        6 => rng.below(u64::from(length) + 2) as u32,
        7 => length,
        8 => rng.pick(&[1 << 8, 1 << 16, 1 << 24, 1 << 31, u32::MAX]),
        _ => rng.bits() as u32,
    }
}

/// A word that the check accepts and the crate's readers are compiled for.
pub fn compiled_word(rng: &mut Rng) -> Word {
    loop {
        let word = rng.pick(compiled()).word();
        if checks::format_error(word) == 0 {
            return word;
        }
    }
}

/// A word that the check refuses, with any of its numbers.
pub fn refused_word(rng: &mut Rng) -> Word {
    loop {
        let word = match rng.below(5) {
            0 => uniform_word(rng),
            1 => rng.pick(compiled()).word(),
            2 => {
                let accepted = accepted_word(rng);
                near_word(rng, accepted)
            }
            _ => likely_word(rng),
        };
        if checks::format_error(word) != 0 {
            return word;
        }
    }
}
