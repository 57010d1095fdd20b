//! The faults of digit runs alone. No script has one, so each is told by a call.

use super::{Fault, Shown};
use crate::compare::comparison::Asked;
use crate::readers::answer::{Answer, Found};
use crate::readers::call::{Call, Case, State};
use crate::readers::library::call;
use crate::readers::refusal::{ABOVE_64_BITS, ACCEPTED, NO_DIGIT, SPECIAL_HAS_NO_SUCH_CALL};
use crate::readers::table::View;
use crate::word::Field;

pub const FAULTS: [Fault; 6] = [
    Fault {
        // Only where a separator is a digit may a take pass behind its peek.
        shown: Shown::Call {
            bytes: 4,
            reason: "an open refuses the word with 4",
        },
        ..fault(
            "a run has the value of the bytes peeked",
            value_of_the_peeked,
            4,
        )
    },
    fault("a run goes by radix 10", by_radix_10, 2),
    fault(
        "a run above 64 bits is accepted",
        above_64_bits_accepted,
        20,
    ),
    fault(
        "a refused run keeps its passing",
        refused_keeps_its_passing,
        1,
    ),
    fault("the special reader has a run", by_the_special_reader, 1),
    fault("a run takes the first other byte", takes_the_other_byte, 2),
];

const fn fault(name: &'static str, asked: Asked, bytes: usize) -> Fault {
    let shown = Shown::Call {
        bytes,
        reason: "a script has no digit_run",
    };
    Fault { name, asked, shown }
}

/// The peeks and takes of a run, by the library.
struct Steps {
    /// The digits peeked, and what was taken behind each.
    peeked: Vec<u8>,
    taken: Vec<u8>,
    /// Behind the last peek.
    state: State,
}

impl Steps {
    fn of(case: &Case) -> Self {
        let mut case = *case;
        let view = View::new(case.word, case.reader, &[]);
        let [mut peeked, mut taken] = [Vec::new(), Vec::new()];
        loop {
            let peek = byte_of(&mut case, Call::Peek);
            let Some(digit) = peek.filter(|_| view.is_digit(peek)) else {
                let state = case.state;
                return Self {
                    peeked,
                    taken,
                    state,
                };
            };
            peeked.push(digit);
            taken.extend(byte_of(&mut case, Call::Next));
        }
    }

    /// The run of a value, from the case's state on.
    fn run(&self, case: &Case, value: u64) -> Answer {
        Answer::new(
            case.state,
            Found::there(value),
            self.taken.len(),
            self.state,
        )
    }
}

fn byte_of(case: &mut Case, what: Call) -> Option<u8> {
    let answer = call(case, what);
    case.state = answer.state;
    answer.found.is_there().then_some(answer.found.what as u8)
}

/// Of any digits, as much of it as 64 bits hold.
fn value(digits: &[u8], radix: u8) -> u64 {
    let worth = |&digit: &u8| char::from(digit).to_digit(36).map_or(0, u64::from);
    digits.iter().map(worth).fold(0, |value: u64, digit| {
        value.wrapping_mul(radix.into()).wrapping_add(digit)
    })
}

/// The library's answer, or where it is a run's of this number another.
fn instead(
    case: &Case,
    what: Call,
    number: u32,
    other: fn(&Case, Answer, Steps) -> Answer,
) -> Answer {
    let answer = call(case, what);
    match what {
        Call::DigitRun if answer.number == number => other(case, answer, Steps::of(case)),
        _ => answer,
    }
}

fn value_of_the_peeked(case: &Case, what: Call) -> Answer {
    instead(case, what, ACCEPTED, |case, _, steps| {
        let radix = case.word.field(Field::MantissaRadix);
        steps.run(case, value(&steps.peeked, radix))
    })
}

fn by_radix_10(case: &Case, what: Call) -> Answer {
    instead(case, what, ACCEPTED, |case, _, steps| {
        steps.run(case, value(&steps.taken, 10))
    })
}

fn above_64_bits_accepted(case: &Case, what: Call) -> Answer {
    instead(case, what, ABOVE_64_BITS, |case, _, steps| {
        let radix = case.word.field(Field::MantissaRadix);
        steps.run(case, value(&steps.taken, radix))
    })
}

fn refused_keeps_its_passing(case: &Case, what: Call) -> Answer {
    instead(case, what, NO_DIGIT, |_, answer, steps| Answer {
        state: steps.state,
        ..answer
    })
}

fn by_the_special_reader(case: &Case, what: Call) -> Answer {
    instead(
        case,
        what,
        SPECIAL_HAS_NO_SUCH_CALL,
        |case, answer, steps| {
            let radix = case.word.field(Field::MantissaRadix);
            match steps.taken.is_empty() {
                true => answer,
                false => steps.run(case, value(&steps.taken, radix)),
            }
        },
    )
}

fn takes_the_other_byte(case: &Case, what: Call) -> Answer {
    instead(case, what, ACCEPTED, |case, mut answer, _| {
        if answer.state.cursor < case.buffer.len() {
            answer.state.cursor += 1;
            answer.taken += 1;
        }
        answer
    })
}
