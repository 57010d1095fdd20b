//! Every byte in every radix that a word can state, alone and twice.

use super::compare;
use crate::group::{Group, Report};
use crate::readers::answer::{Answer, Found};
use crate::readers::call::{Case, State, INTEGER};
use crate::readers::refusal::NO_DIGIT;
use crate::readers::words::DECIMAL;
use crate::word::Field;

pub fn run(report: &mut Report) {
    let mut group = Group::new("digit runs, every byte in every radix");
    for radix in 0..=255 {
        let word = DECIMAL.with_field(Field::MantissaRadix, radix);
        for byte in 0..=255 {
            for buffer in [[byte].as_slice(), &[byte, byte]] {
                let case = Case::fresh(word, buffer, INTEGER);
                compare(&mut group, &case, due(&case, radix.into()));
            }
        }
    }
    report.close(group);
}

/// Without flags nothing is counted.
fn due(case: &Case, radix: u64) -> Answer {
    let letter = char::from(case.buffer[0]);
    let digit = letter.to_digit(36).map(u64::from);
    let Some(digit) = digit.filter(|&digit| digit < radix) else {
        return Answer::refused(NO_DIGIT, case.state);
    };
    let taken = case.buffer.len();
    let value = match taken {
        1 => digit,
        _ => digit * radix + digit,
    };
    let after = State {
        cursor: taken,
        ..case.state
    };
    Answer::new(case.state, Found::there(value), taken, after)
}
