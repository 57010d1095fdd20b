//! Which outcomes the calls of a comparison have had. Each must have been seen,
//! where it can be: otherwise a library that is wrong there is not seen either.

use crate::group::{Group, Report};
use crate::readers::answer::Answer;
use crate::readers::call::Call;
use crate::readers::refusal::ACCEPTED;

pub struct Outcomes {
    what: String,
    /// By kind of call, by place in `OUTCOMES`.
    seen: [[bool; OUTCOMES.len()]; Call::NAMES.len()],
}

#[derive(Clone, Copy, Debug, PartialEq)]
enum Outcome {
    Refused,
    TookAndPassed,
    Took,
    Passed,
    DidNeither,
    GaveNoBlock,
    PassedAndDeclined,
    Declined,
}

use Outcome::*;

const OUTCOMES: [Outcome; 8] = [
    Refused,
    TookAndPassed,
    Took,
    Passed,
    DidNeither,
    GaveNoBlock,
    PassedAndDeclined,
    Declined,
];

/// The outcomes that each kind of call can have in a list. `next_all` is in
/// none.
const POSSIBLE: [&[Outcome]; Call::NAMES.len()] = [
    &[Refused, Passed, DidNeither],
    FROM_TAKING,
    &[],
    FROM_A_READ,
    FROM_A_READ,
    FROM_TAKING,
    &[Refused, Took, DidNeither, GaveNoBlock],
    &[Refused, TookAndPassed, Took],
];

const FROM_TAKING: &[Outcome] = &[Refused, TookAndPassed, Took, Passed, DidNeither];

/// Without a byte taken or declined a read is at the end.
const FROM_A_READ: &[Outcome] = &[
    Refused,
    TookAndPassed,
    Took,
    Passed,
    DidNeither,
    PassedAndDeclined,
    Declined,
];

impl Outcomes {
    pub fn new(what: &str) -> Self {
        Self {
            what: what.to_string(),
            seen: Default::default(),
        }
    }

    pub fn note(&mut self, call: Call, answer: &Answer) {
        self.seen[call.kind()][outcome(call, answer) as usize] = true;
    }

    pub fn close(self, report: &mut Report) {
        let mut group = Group::new(format!("readers, {}, every outcome seen", self.what));
        for (kind, name) in Call::NAMES.into_iter().enumerate() {
            for outcome in OUTCOMES {
                group.agree(
                    &format_args!("{name}, {outcome:?}"),
                    ("seen", self.seen[kind][outcome as usize]),
                    ("possible", POSSIBLE[kind].contains(&outcome)),
                );
            }
        }
        report.close(group);
    }
}

fn outcome(call: Call, answer: &Answer) -> Outcome {
    if answer.number != ACCEPTED {
        return Refused;
    }
    if matches!(call, Call::TakeN(_)) && !answer.found.is_there() {
        return GaveNoBlock;
    }
    match (answer.taken > 0, answer.passed > 0) {
        (_, true) if answer.found.is_declined() => PassedAndDeclined,
        (_, false) if answer.found.is_declined() => Declined,
        (true, true) => TookAndPassed,
        (true, false) => Took,
        (false, true) => Passed,
        (false, false) => DidNeither,
    }
}
