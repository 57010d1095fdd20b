//! The port that the benchmark times, beside the crate.

use crate::group::Group;
use crate::readers::answer::{Answer, Found};
use crate::readers::call::{Call, Case};
use crate::readers::run::Run;
use crate::readers::{port, refusal};

/// The port has no refusals, and only the calls that are timed.
pub fn compare(group: &mut Group, case: &Case, call: Call, expected: Answer) {
    if refusal::of_call(case, call) != refusal::ACCEPTED {
        return;
    }
    if let Some(answer) = answer(case, call) {
        group.agree(
            &format_args!("{call}, {case}"),
            ("port", answer),
            ("Rust", expected),
        );
    }
}

/// The answer that is due to a digit run, a refusal or what the port has read.
pub fn digit_run(case: &Case) -> Answer {
    let number = refusal::of_call(case, Call::DigitRun);
    if number != refusal::ACCEPTED {
        return Answer::refused(number, case.state);
    }
    let mut after = *case;
    let mut run = Run::new(case.word);
    port::digit_run(&mut after, |byte| run.take(byte));
    run.answer(case.state, after.state)
}

fn answer(case: &Case, call: Call) -> Option<Answer> {
    let mut after = *case;
    let (found, taken) = match call {
        Call::Peek => (Found::byte(port::peek(&mut after)), 0),
        Call::Next => {
            let byte = port::next(&mut after);
            (Found::byte(byte), usize::from(byte.is_some()))
        }
        Call::NextAll => (Found::NOTHING, port::next_all(&mut after)),
        Call::ReadIf(_) => return None,
        Call::ReadIfValueCased(value) => {
            let read = port::read_if_value_cased(&mut after, value);
            (Found::read(read), usize::from(read.taken().is_some()))
        }
        Call::SkipZeros => {
            let zeros = port::skip_zeros(&mut after);
            (Found::zeros(zeros), zeros)
        }
        Call::TakeN(n) => {
            let part = port::take_n(&mut after, n);
            let found = Found::block(case.buffer, part);
            (found, part.map_or(0, <[u8]>::len))
        }
        Call::DigitRun => return Some(digit_run(case)),
    };
    Some(Answer::new(case.state, found, taken, after.state))
}
