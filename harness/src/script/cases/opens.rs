//! Refused opens: their numbers, and what may follow them.

use super::{case, Case};
use crate::readers::call::INTEGER;
use crate::readers::sets::{C, I};
use crate::readers::words::with_integer_flags;
use crate::script::records::Script;
use crate::word::{reader_flags, Field, Word, SPECIAL_SEPARATOR};

pub fn cases() -> Vec<Case> {
    let mut cases = Vec::new();
    for (number, word) in refused() {
        let name = format!("open refused with {number}, then one that is accepted");
        let script = Script::default().text(b"1").open(word).text(b"_2");
        cases.push(case(name, run(script)));
    }
    let all = refused()
        .iter()
        .fold(Script::default(), |script, (_, word)| script.open(*word));
    let between = run(all.clone().text(b"1_2"));
    cases.push(case("opens refused with each number, then a run", between));
    cases.push(case("opens refused with each number alone", all));
    let twice = with_integer_flags(C);
    let twice = Script::default().text(b"1_2").open(twice).open(twice);
    cases.push(case("the same word refused twice", run(twice)));
    let no_text = Script::default().open(with_integer_flags(I));
    cases.push(case("open without text, then the end", no_text.clone()));
    let calls = no_text.peek(INTEGER).take(INTEGER).zero_skip(INTEGER);
    cases.push(case("calls on no text", calls));
    cases
}

fn run(script: Script) -> Script {
    script.open(with_integer_flags(I)).takes(INTEGER, 3)
}

/// A word for each number that an open can be refused with.
fn refused() -> [(u32, Word); 14] {
    let good = with_integer_flags(I);
    let with = |field, byte| good.with_field(field, byte);
    let alone = |reader| with_integer_flags(0).with_bits(reader_flags(reader, C));
    [
        (1, with(Field::MantissaRadix, 37)),
        (2, with(Field::ExponentBase, 1)),
        (3, with(Field::ExponentRadix, 37)),
        (4, with(Field::Separator, b'+')),
        (5, with(Field::Prefix, b'0')),
        (6, with(Field::Suffix, 0x7F)),
        (7, with(Field::Prefix, b'_')),
        (8, good.with_bits(1 << 6 | 1 << 14)),
        (9, good.with_bits(1 << 4 | 1 << 5)),
        (10, good.with_bits(1 << 7 | 1 << 8)),
        (11, good.with_bits(1 << 10 | SPECIAL_SEPARATOR)),
        (12, alone(0)),
        (13, alone(1)),
        (14, alone(2)),
    ]
}
