//! Runs without a stop: every set of flags of every reader.

use super::{case, Case};
use crate::readers::call::{COUNTED, FRACTION, INTEGER, READERS, SPECIAL};
use crate::readers::sets::{I, ILTC, NONE, SETS};
use crate::readers::words::{compiled, with_integer_flags};
use crate::script::records::Script;
use crate::word::{oracle, Field, Word};

const NAMES: [&str; 4] = ["integer", "fraction", "exponent", "special"];

pub fn cases() -> Vec<Case> {
    let mut cases = Vec::new();
    for reader in READERS {
        for &set in sets(reader) {
            let who = format!("{} reader, {}", NAMES[usize::from(reader)], flags(set));
            let word = word_with(reader, set);
            cases.push(case(
                format!("{who}: takes to the end"),
                takes(word, reader),
            ));
            let others = other_calls(word, reader);
            cases.push(case(format!("{who}: the other calls"), others));
        }
    }
    cases.extend(blocks());
    cases.push(case("two readers in turn keep two counts", in_turn()));
    cases
}

fn sets(reader: u8) -> &'static [u32] {
    match reader {
        SPECIAL => &[NONE, ILTC],
        _ => &SETS,
    }
}

/// The letters of the flags.
fn flags(set: u32) -> String {
    let letters = "ILTC".chars().enumerate();
    let named: String = letters
        .filter(|(bit, _)| set >> bit & 1 == 1)
        .map(|(_, letter)| letter)
        .collect();
    match set {
        NONE => "no flags".to_owned(),
        _ => format!("flags {named}"),
    }
}

/// An accepted word with a separator in which the reader has this set.
fn word_with(reader: u8, set: u32) -> Word {
    let fits = |word: &Word| {
        word.reader_set(reader) == set
            && word.field(Field::Separator) == b'_'
            && oracle::format_error(*word) == 0
    };
    let mut words = compiled().iter().map(|rust| rust.word());
    words.find(fits).expect("every set for every reader")
}

/// Separators singly and in runs, before, between and behind digits.
fn takes(word: Word, reader: u8) -> Script {
    Script::default()
        .text(b"__1_1__0_x_1_")
        .open(word)
        .takes(reader, 14)
}

/// Zero skips and blocks by the special reader are refused, and the run goes on.
fn other_calls(word: Word, reader: u8) -> Script {
    Script::default()
        .text(b"_0_00__1_._0_")
        .open(word)
        .peek(reader)
        .zero_skip(reader)
        .read(reader, b'_')
        .read(reader, b'1')
        .block(reader, 2)
        .zero_skip(reader)
        .take(reader)
        .read(reader, b'.')
        .block(reader, 1)
        .peek(reader)
        .block(reader, u32::MAX)
        .take(reader)
        .peek(reader)
}

/// Sizes of blocks, and readers that give none.
fn blocks() -> Vec<Case> {
    let text = b"12345";
    let opened = |set| Script::default().text(text).open(with_integer_flags(set));
    let of_size = |size| {
        opened(NONE)
            .take(INTEGER)
            .block(INTEGER, size)
            .peek(INTEGER)
    };
    let mut cases: Vec<Case> = [
        ("0", 0),
        ("1", 1),
        ("2", 2),
        ("3, one less than is left", 3),
        ("4, all that is left", 4),
        ("5, one more than is left", 5),
        ("256", 256),
        ("65,536", 1 << 16),
        ("16,777,216", 1 << 24),
        ("4,294,967,295", u32::MAX),
    ]
    .map(|(name, size)| case(format!("block of {name}"), of_size(size)))
    .into();
    let at_the_end = opened(NONE).block(INTEGER, 5).block(INTEGER, 1);
    cases.push(case("block at the end", at_the_end));
    let none = opened(I).block(INTEGER, 2).block(FRACTION, 2).take(INTEGER);
    cases.push(case(
        "block by a reader with flags, then by one without",
        none,
    ));
    let refused = opened(NONE)
        .block(SPECIAL, 2)
        .zero_skip(SPECIAL)
        .take(SPECIAL);
    cases.push(case("refused calls leave the cursor where it was", refused));
    cases
}

/// Every counted reader has flags here, each other ones.
fn in_turn() -> Script {
    let word = word_of_all();
    let script = Script::default().text(b"1_2_3_4_5_6_7").open(word);
    (0..4).fold(script, |script, _| {
        COUNTED
            .iter()
            .fold(script, |script, &reader| script.take(reader))
    })
}

fn word_of_all() -> Word {
    let has_flags = |word: &Word| {
        COUNTED
            .iter()
            .all(|&reader| word.reader_set(reader) != NONE)
            && oracle::format_error(*word) == 0
    };
    let mut words = compiled().iter().map(|rust| rust.word());
    words.find(has_flags).expect("a word with flags for all")
}
