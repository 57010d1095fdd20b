//! Times the full check of words, the Rust's and the library's.

use std::hint::black_box;

use super::chart::bars::Bars;
use super::timing::{agree, time_in_turn, ROUNDS};
use super::Findings;
use crate::rng::Rng;
use crate::word::draw::{accepted_word, changed_word, uniform_word};
use crate::word::{library, oracle, Word};

const WORDS: usize = 4096;

/// Passes over the words in one round.
const PASSES: u32 = 200;

pub fn time(seed: u64, findings: &mut Findings) {
    println!("\n**Full check**, ns per word: median of {ROUNDS} rounds (least to most).\n");
    println!("| {WORDS} words | Crate | Rattle | Rattle / crate |");
    println!("|---|---|---|---|");
    let mut rng = Rng::new(seed, "bench");
    for (name, draw) in word_sets() {
        let words: Vec<Word> = (0..WORDS).map(|_| draw(&mut rng)).collect();
        let timings = time_in_turn(
            [&|| pass(&words, oracle::format_error), &|| {
                pass(&words, library::format_error)
            }],
            WORDS,
            PASSES,
        );
        findings.agreed &= agree(&timings);
        let [rust, rattle] = timings;
        println!(
            "| {name} | {} | {} | {:.2} |",
            rust.cell(),
            rattle.cell(),
            rattle.ratio(&rust)
        );
        findings.bars.push(Bars {
            label: format!("full check: {name} words"),
            called: None,
            port: None,
            rattle: rattle.to(&rust),
        });
    }
}

type Draw = fn(&mut Rng) -> Word;

fn word_sets() -> [(&'static str, Draw); 3] {
    [
        ("uniformly random", uniform_word),
        ("near-valid", half_changed_word),
        ("accepted", accepted_word),
    ]
}

/// An accepted word, in about half of the cases with one part changed.
fn half_changed_word(rng: &mut Rng) -> Word {
    let word = accepted_word(rng);
    if rng.percent(50) {
        changed_word(rng, word)
    } else {
        word
    }
}

/// One call for each word. Generic, so that nothing stands between the loop and
/// the check; never inlined, so that each side has one loop for all rounds.
#[inline(never)]
fn pass(words: &[Word], check: impl Fn(Word) -> u32) -> u64 {
    let numbers = black_box(words).iter().map(|&word| check(word));
    numbers.map(u64::from).sum()
}
