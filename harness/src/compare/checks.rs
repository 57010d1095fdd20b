//! The full and the plain check, each compared with the Rust's on every family
//! of words, and on words in which a bit without meaning is flipped.

use std::ops::RangeInclusive;

use crate::group::{Group, Report};
use crate::rng::Rng;
use crate::word::draw::{accepted_word, near_word, plain_accepted_word};
use crate::word::families::{Family, FAMILIES};
use crate::word::{library, oracle, Word};

struct Check {
    name: &'static str,
    library: fn(Word) -> u32,
    oracle: fn(Word) -> u32,
    accepted: fn(&mut Rng) -> Word,
    /// The numbers that the check can answer.
    answers: &'static [usize],
    /// The bits that it does not look at.
    idle_bits: &'static [RangeInclusive<u32>],
}

const FULL: Check = Check {
    name: "full check",
    library: library::format_error,
    oracle: oracle::format_error,
    accepted: accepted_word,
    answers: &[0, 1, 2, 3, 4, 5, 6, 7, 8, 9, 10, 11, 12, 13, 14],
    idle_bits: &[0..=3, 9..=9, 12..=13, 15..=31, 45..=63, 72..=87],
};

const PLAIN: Check = Check {
    name: "plain check",
    library: library::plain_format_error,
    oracle: oracle::plain_format_error,
    accepted: plain_accepted_word,
    answers: &[0, 1, 2, 3, 4, 5, 6, 15],
    idle_bits: &[18..=31, 45..=63, 72..=87],
};

/// How often the Rust gave each number.
type Histogram = [u64; 16];

/// Accepted words in the idle-bit group; each has a changed word beside it.
const IDLE_BIT_WORDS: u32 = 10_000;

pub fn run(report: &mut Report, seed: u64) {
    for check in [FULL, PLAIN] {
        let mut histogram = [0; 16];
        for family in &FAMILIES {
            compare_family(&check, family, seed, &mut histogram, report);
        }
        require_every_answer(&check, &histogram, report);
        compare_idle_bits(&check, seed, report);
    }
}

fn compare_family(
    check: &Check,
    family: &Family,
    seed: u64,
    histogram: &mut Histogram,
    report: &mut Report,
) {
    let mut group = Group::new(format!("{}, {}", check.name, family.name));
    family.for_each(seed, &mut |word| {
        let expected = (check.oracle)(word);
        histogram[expected as usize] += 1;
        let answer = (check.library)(word);
        group.agree(&word, ("library", answer), ("Rust", expected));
    });
    report.close(group);
}

/// Fails if the families left out an answer of the check: then they would not
/// show a library that is wrong there.
fn require_every_answer(check: &Check, histogram: &Histogram, report: &mut Report) {
    let mut group = Group::new(format!("{}, every answer given by the Rust", check.name));
    for (number, &count) in histogram.iter().enumerate() {
        group.agree(
            &format_args!("answer {number}"),
            ("given", count > 0),
            ("possible", check.answers.contains(&number)),
        );
    }
    report.close(group);
    for (number, count) in histogram.iter().enumerate() {
        if *count > 0 {
            report.tell(format!("answer {number:2}: {count}"));
        }
    }
}

/// Flips the idle bits one by one: the library's answer must stay as it was,
/// and be the Rust's.
fn compare_idle_bits(check: &Check, seed: u64, report: &mut Report) {
    let mut group = Group::new(format!("{}, idle bits", check.name));
    let mut rng = Rng::new(seed, "idle bits");
    for _ in 0..IDLE_BIT_WORDS {
        let accepted = (check.accepted)(&mut rng);
        for word in [accepted, near_word(&mut rng, accepted)] {
            let before = (check.library)(word);
            for bit in check.idle_bits.iter().cloned().flatten() {
                let flipped = word.with_bit_flipped(bit);
                let after = (check.library)(flipped);
                group.agree(&flipped, ("library", after), ("before the flip", before));
                let expected = (check.oracle)(flipped);
                group.agree(&flipped, ("library", after), ("Rust", expected));
            }
        }
    }
    report.close(group);
}
