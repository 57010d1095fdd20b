//! A few words whose answers are written down here. The Rust is asked as well,
//! so that a wrong build of it cannot agree with a wrong library unseen.

use crate::group::{Group, Report};
use crate::word::{library, oracle, Word};

struct Named {
    word: Word,
    full: u32,
    plain: u32,
}

const fn named(lo: u64, hi: u64, full: u32, plain: u32) -> Named {
    let word = Word::from_halves(lo, hi);
    Named { word, full, plain }
}

/// Radix 10, separator `_`.
const UNDERSCORE: u64 = 0x0000_0A00_0000_005F;

/// Radix 10, no separator.
const NO_SEPARATOR: u64 = 0x0000_0A00_0000_0000;

const NAMED_WORDS: [Named; 6] = [
    // Separators inside the integer.
    named(1 << 32, UNDERSCORE, 0, 4),
    // The same, several in a row.
    named(1 << 32 | 1 << 41, UNDERSCORE, 0, 4),
    // Several in a row, but allowed nowhere.
    named(1 << 41, UNDERSCORE, 12, 4),
    // No bit set: the mantissa radix is 0.
    named(0, 0, 1, 1),
    // The full check asks for no flags, the plain check for bits 2 and 3.
    named(0, NO_SEPARATOR, 0, 15),
    named(0b1100, NO_SEPARATOR, 0, 0),
];

pub fn run(report: &mut Report) {
    let mut group = Group::new("named words");
    for Named { word, full, plain } in NAMED_WORDS {
        let full = ("written full answer", full);
        group.agree(&word, ("library", library::format_error(word)), full);
        group.agree(&word, ("Rust", oracle::format_error(word)), full);
        let plain = ("written plain answer", plain);
        group.agree(&word, ("library", library::plain_format_error(word)), plain);
        group.agree(&word, ("Rust", oracle::plain_format_error(word)), plain);
    }
    report.close(group);
}
