//! Compares calls, the library's with the crate's: a group for each kind of
//! call, and one that shows whether all rules were tried.

use super::coverage::Coverage;
use super::smallest::{self, Input};
use crate::group::{Group, Report};
use crate::readers::answer::Answer;
use crate::readers::call::{Call, Case};
use crate::readers::compiled::Readers;

/// What is compared with the crate: the library's calls, or for the tests of
/// the comparison itself the same with a fault.
pub type Asked = fn(&Case, Call) -> Answer;

pub struct Comparison {
    asked: Asked,
    groups: [Group; Call::NAMES.len()],
    coverage: Coverage,
    /// The first input on which the two part.
    pub first: Option<Input>,
}

impl Comparison {
    pub fn new(what: &str, asked: Asked) -> Self {
        Self {
            asked,
            groups: Call::NAMES.map(|call| Group::new(format!("readers, {what}, {call}"))),
            coverage: Coverage::new(what),
            first: None,
        }
    }

    /// Returns the crate's answer.
    pub fn compare(&mut self, rust: &'static dyn Readers, case: &Case, call: Call) -> Answer {
        let expected = rust.call(case, call);
        self.coverage.note(case, call, &expected);
        let answer = (self.asked)(case, call);
        let same = self.groups[call.kind()].agree(
            &format_args!("{call}, {case}"),
            ("library", answer),
            ("Rust", expected),
        );
        if !same && self.first.is_none() {
            self.first = Some(Input::of_call(rust, case, call));
        }
        expected
    }

    /// Returns what of the rule table was covered.
    pub fn close(self, report: &mut Report) -> Coverage {
        for group in self.groups {
            report.close(group);
        }
        if let Some(first) = &self.first {
            smallest::tell(report, first, self.asked);
        }
        self.coverage.close_rules(report);
        self.coverage
    }
}
