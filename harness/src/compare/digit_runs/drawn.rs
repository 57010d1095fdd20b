//! Digit runs under words of every kind, from states of every kind, beside the
//! port, which has the word at run time.

use std::collections::BTreeSet;

use crate::compare::ported;
use crate::group::{Group, Report};
use crate::readers::call::{Call, Case, State, COUNTED, READERS};
use crate::readers::{draw, library};
use crate::rng::Rng;
use crate::word::draw::{accepted_word, likely_word, uniform_word};
use crate::word::{Field, Word};

const LONGEST: usize = 80;

/// Radixes at the ends, and some that the check refuses.
const RADIXES: [u8; 9] = [0, 1, 2, 10, 16, 36, 37, 200, 255];

/// Most are digits of some radix, which the check refuses.
const SEPARATORS: [u8; 8] = [b'_', b'0', b'1', b'7', b'9', b'a', b'F', b'Z'];

/// All that a run can return.
const NUMBERS: [u32; 10] = [0, 12, 13, 14, 16, 17, 18, 19, 23, 24];

pub fn run(report: &mut Report, seed: u64, cases: u32) {
    let mut group = Group::new("digit runs, drawn words and states");
    let mut seen = BTreeSet::new();
    let mut rng = Rng::new(seed, "digit runs");
    for _ in 0..cases {
        let word = word(&mut rng);
        let buffer = buffer(&mut rng, word);
        let case = Case {
            word,
            buffer: &buffer,
            state: state(&mut rng, &buffer),
            reader: reader(&mut rng),
        };
        let due = ported::digit_run(&case);
        seen.insert(due.number);
        let answer = library::call(&case, Call::DigitRun);
        group.agree(&case, ("library", answer), ("port", due));
    }
    report.close(group);

    let mut group = Group::new("digit runs, drawn words and states, every number given");
    for number in 0..=32 {
        group.agree(
            &format_args!("number {number}"),
            ("given", seen.contains(&number)),
            ("possible", NUMBERS.contains(&number)),
        );
    }
    report.close(group);
}

fn word(rng: &mut Rng) -> Word {
    let word = match rng.below(3) {
        0 => uniform_word(rng),
        1 => likely_word(rng),
        _ => accepted_word(rng),
    };
    let radix = match rng.below(4) {
        0 => word.field(Field::MantissaRadix),
        1 => rng.pick(&RADIXES),
        _ => rng.byte_between(2, 36),
    };
    let separator = match rng.below(2) {
        0 => word.field(Field::Separator),
        _ => rng.pick(&SEPARATORS),
    };
    word.with_field(Field::MantissaRadix, radix)
        .with_field(Field::Separator, separator)
}

/// Half of them with digits enough for more than 64 bits.
fn buffer(rng: &mut Rng, word: Word) -> Vec<u8> {
    match rng.below(2) {
        0 => draw::buffer(rng, word, LONGEST),
        _ => draw::digits(rng, word, LONGEST),
    }
}

/// Mostly one that is not refused, and often the fresh one.
fn state(rng: &mut Rng, buffer: &[u8]) -> State {
    let mut state = match rng.below(3) {
        0 => State::default(),
        _ => draw::state(rng, buffer),
    };
    match rng.below(20) {
        0 => state.cursor = buffer.len() + 1 + rng.below(2) as usize,
        1 => state.cursor = rng.bits() as usize,
        2 => state.counts[rng.below(3) as usize] += 1,
        3 => state.counts = [(); 3].map(|()| rng.bits() as usize),
        _ => {}
    }
    state
}

fn reader(rng: &mut Rng) -> u8 {
    match rng.below(20) {
        0 => rng.byte(),
        1 => rng.pick(&READERS),
        _ => rng.pick(&COUNTED),
    }
}
