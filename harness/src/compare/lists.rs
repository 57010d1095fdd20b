//! Whole lists of calls from a fresh state: the library goes on from the state
//! that it returned, and the crate has one `Bytes` for the whole list.

use super::comparison::Asked;
use super::coverage::Coverage;
use super::outcomes::Outcomes;
use super::smallest::{self, Input};
use crate::group::{Group, Report};
use crate::readers::call::{Case, Step, INTEGER};
use crate::readers::compiled::Readers;
use crate::readers::words::compiled;
use crate::readers::{draw, library};
use crate::rng::Rng;

/// Calls in a list.
pub const CALLS: usize = 30;

/// The longest buffer, long enough that many lists end before it does.
pub const LONGEST: usize = 60;

/// How much is drawn.
pub struct Amount {
    /// Names the groups, and the random numbers that are drawn.
    pub what: &'static str,
    /// For each word.
    pub lists: u32,
}

/// What the gate draws.
pub const GATE: Amount = Amount {
    what: "whole lists",
    lists: 1_500,
};

pub fn run(report: &mut Report, seed: u64, amount: &Amount) {
    let mut comparison = Comparison::new(amount.what, library::call);
    comparison.draw(&mut Rng::new(seed, amount.what), amount.lists);
    comparison.close(report);
}

pub struct Comparison {
    asked: Asked,
    answers: Group,
    coverage: Coverage,
    outcomes: Outcomes,
    /// The first list on which the two part.
    pub first: Option<Input>,
}

impl Comparison {
    pub fn new(what: &str, asked: Asked) -> Self {
        Self {
            asked,
            answers: Group::new(format!("readers, {what}, every answer")),
            coverage: Coverage::new(what),
            outcomes: Outcomes::new(what),
            first: None,
        }
    }

    pub fn draw(&mut self, rng: &mut Rng, lists: u32) {
        for &rust in compiled() {
            for _ in 0..lists {
                let buffer = draw::buffer(rng, rust.word(), LONGEST);
                let list = draw::list(rng, rust.word(), &buffer, CALLS);
                self.compare(rust, &buffer, &list);
            }
        }
    }

    fn compare(&mut self, rust: &'static dyn Readers, buffer: &[u8], list: &[Step]) {
        let mut case = Case::fresh(rust.word(), buffer, INTEGER);
        for (&Step { reader, call }, expected) in list.iter().zip(rust.run(buffer, list)) {
            case.reader = reader;
            let answer = (self.asked)(&case, call);
            let same = self.answers.agree(
                &format_args!("{call}, {case}"),
                ("library", answer),
                ("Rust", expected),
            );
            if !same {
                // The two have parted, so the rest says nothing.
                self.first
                    .get_or_insert_with(|| Input::of_list(rust, buffer, list));
                return;
            }
            self.coverage.note(&case, call, &expected);
            self.outcomes.note(call, &expected);
            case.state = answer.state;
        }
    }

    fn close(self, report: &mut Report) {
        report.close(self.answers);
        if let Some(first) = &self.first {
            smallest::tell(report, first, self.asked);
        }
        self.coverage.close_rules(report);
        self.outcomes.close(report);
    }
}
