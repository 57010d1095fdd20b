//! Long runs. One that went over its digits again for each of them would take minutes.

use crate::compare::ported;
use crate::group::{Group, Report};
use crate::readers::call::{Call, Case, INTEGER};
use crate::readers::library;
use crate::readers::sets::{SETS, TC};
use crate::readers::words::with_integer_flags;
use crate::word::{Field, Word};

const LENGTH: usize = 300_000;

/// Where separators are digits that may not be passed, each peek of the port looks
/// for the end of all that are left.
const LENGTH_OF_LOOKING_ON: usize = 2_000;

pub fn run(report: &mut Report) {
    let mut group = Group::new("digit runs, long");
    for set in SETS {
        compare_set(&mut group, set);
    }
    report.close(group);
}

fn compare_set(group: &mut Group, set: u32) {
    let word = with_integer_flags(set);
    let zero_separates = word.with_field(Field::Separator, b'0');
    let length = match set {
        TC => LENGTH_OF_LOOKING_ON,
        _ => LENGTH,
    };
    for text in texts() {
        compare(group, word, &text);
    }
    compare(group, zero_separates, &many(b"0", length, b"12"));
}

fn texts() -> [Vec<u8>; 7] {
    [
        many(b"0", LENGTH, b"x"),
        many(b"0", LENGTH, b"18446744073709551615"),
        many(b"0", LENGTH, b"18446744073709551616"),
        many(b"9", LENGTH, b""),
        many(b"0_", LENGTH / 2, b"7"),
        many(b"_", LENGTH, b"2"),
        [b"1".as_slice(), &many(b"_", LENGTH, b"2")].concat(),
    ]
}

/// A part so many times, then an end.
fn many(part: &[u8], times: usize, end: &[u8]) -> Vec<u8> {
    [part.repeat(times).as_slice(), end].concat()
}

/// The text is too long to be shown.
fn compare(group: &mut Group, word: Word, text: &[u8]) {
    let case = Case::fresh(word, text, INTEGER);
    let start = text[..2].escape_ascii();
    let input = format_args!("{word}, {} bytes from {start} on", text.len());
    let answer = library::call(&case, Call::DigitRun);
    let due = ported::digit_run(&case);
    group.agree(&input, ("library", answer), ("port", due));
}
