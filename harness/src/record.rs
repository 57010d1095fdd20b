//! Writes the Rust's answers as text, for a program that has no Rust at hand. The
//! crate has no answer for the end of a run; there it is a plain count's.
//!
//! `W lo hi full plain`: a word and the answers of both checks.
//! `D byte radix digit`: whether the byte is a digit.
//! `R ..`: a reader call, see `record/readers.rs`.
//! `E ..`: the end of a run of separators, see `record/run_ends.rs`.

mod packed;
mod readers;
mod run_ends;

use std::io::{self, BufWriter, Write};
use std::process::ExitCode;

use crate::rng::Rng;
use crate::word::families::FAMILIES;
use crate::word::{oracle, Word};

/// Words recorded for each answer of the full check.
const WORDS_PER_FULL_ANSWER: usize = 200;

/// Words recorded for each answer of the plain check.
const WORDS_PER_PLAIN_ANSWER: usize = 125;

/// Radixes recorded with every byte.
const COMMON_RADIXES: [u32; 5] = [2, 8, 10, 16, 36];

/// Radixes recorded with some bytes.
const ODD_RADIXES: [u32; 8] = [0, 1, 11, 35, 37, 255, 256, u32::MAX];

/// Both sides of each range of digits, and the ends.
const EDGE_BYTES: [u8; 16] = [
    0, b'/', b'0', b'1', b'9', b':', b'@', b'A', b'Z', b'[', b'`', b'a', b'z', b'{', 0x80, 0xFF,
];

/// Bytes drawn at random for an odd radix, besides the edges.
const DRAWN_BYTES: usize = 74;

pub fn run(seed: u64) -> ExitCode {
    match write_record(seed) {
        Ok(()) => ExitCode::SUCCESS,
        Err(error) => {
            eprintln!("harness: cannot write the record: {error}");
            ExitCode::FAILURE
        }
    }
}

fn write_record(seed: u64) -> io::Result<()> {
    let mut out = BufWriter::new(io::stdout().lock());
    let full = Sample::of_answers(oracle::format_error, WORDS_PER_FULL_ANSWER, seed);
    let plain = Sample::of_answers(oracle::plain_format_error, WORDS_PER_PLAIN_ANSWER, seed);
    for word in full.iter().chain(&plain).flat_map(|sample| &sample.words) {
        write_word(&mut out, *word)?;
    }
    write_digits(&mut out, &mut Rng::new(seed, "record digits"))?;
    readers::write(&mut out, seed)?;
    run_ends::write(&mut out, seed)?;
    out.flush()
}

/// Words chosen from all families with equal chance, up to a limit.
struct Sample {
    limit: usize,
    seen: u64,
    words: Vec<Word>,
}

impl Sample {
    /// One sample for each answer of a check.
    fn of_answers(check: fn(Word) -> u32, limit: usize, seed: u64) -> Vec<Self> {
        let empty = || Self {
            limit,
            seen: 0,
            words: Vec::new(),
        };
        let mut samples: Vec<Self> = (0..16).map(|_| empty()).collect();
        let mut rng = Rng::new(seed, "record words");
        for family in &FAMILIES {
            family.for_each(seed, &mut |word| {
                samples[check(word) as usize].offer(word, &mut rng);
            });
        }
        samples
    }

    /// Reservoir sampling: the n-th word offered stays with chance limit / n.
    fn offer(&mut self, word: Word, rng: &mut Rng) {
        self.seen += 1;
        if self.words.len() < self.limit {
            self.words.push(word);
            return;
        }
        let place = rng.below(self.seen) as usize;
        if place < self.limit {
            self.words[place] = word;
        }
    }
}

fn write_word(out: &mut impl Write, word: Word) -> io::Result<()> {
    let full = oracle::format_error(word);
    let plain = oracle::plain_format_error(word);
    writeln!(
        out,
        "W {:016X} {:016X} {full:02X} {plain:02X}",
        word.lo(),
        word.hi()
    )
}

fn write_digits(out: &mut impl Write, rng: &mut Rng) -> io::Result<()> {
    for radix in COMMON_RADIXES {
        for byte in 0..=255 {
            write_digit(out, byte, radix)?;
        }
    }
    for radix in ODD_RADIXES {
        let drawn: Vec<u8> = (0..DRAWN_BYTES).map(|_| rng.byte()).collect();
        for byte in EDGE_BYTES.into_iter().chain(drawn) {
            write_digit(out, byte, radix)?;
        }
    }
    Ok(())
}

fn write_digit(out: &mut impl Write, byte: u8, radix: u32) -> io::Result<()> {
    let is_digit = u8::from(oracle::char_is_digit_const(byte, radix));
    writeln!(out, "D {byte:02X} {radix:08X} {is_digit}")
}
