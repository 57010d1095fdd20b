//! A call script as the text that tools/script assembles, with the lines that
//! the two print.

use super::Input;
use crate::compare::comparison::Asked;
use crate::readers::answer::Answer;
use crate::readers::call::State;
use crate::script::{line, statements};

/// An input that a script can hold: from a fresh state, under an accepted word,
/// of calls that have a record.
pub struct Script(pub Input);

impl Script {
    pub fn calls(&self) -> usize {
        self.0.steps.len()
    }

    /// The statements alone.
    pub fn statements(&self) -> Vec<String> {
        let Input { rust, buffer, .. } = &self.0;
        let opening = statements::opening(buffer, rust.word());
        let calls = self.0.steps.iter().map(|&step| statements::call(step));
        opening.into_iter().chain(calls).collect()
    }

    /// Whether this is a script, from a fresh state, and the two print
    /// different lines for it.
    pub fn differs(&self, asked: Asked) -> bool {
        let (expected, answers) = self.lines(asked);
        self.0.start == State::default() && expected != answers
    }

    /// The statements, each with what is printed for it as a comment.
    pub fn told(&self, asked: Asked) -> Vec<String> {
        let mut lines = self.statements();
        let first = lines.len() - self.calls();
        let (expected, answers) = self.lines(asked);
        for (place, (expected, answer)) in expected.iter().zip(&answers).enumerate() {
            let comment = match expected == answer {
                true => format!("both print {expected}"),
                false => format!("Rust: {expected}; library: {answer}"),
            };
            let statement = &mut lines[first + place];
            *statement = format!("{statement:<24} # {comment}");
        }
        lines
    }

    /// The lines of the crate's answers and of the other's.
    fn lines(&self, asked: Asked) -> (Vec<String>, Vec<String>) {
        let printed = |answers: Vec<Answer>| {
            let lines = self.0.steps.iter().zip(&answers);
            lines
                .map(|(step, answer)| line(step.call, answer).trim_end().to_string())
                .collect()
        };
        (printed(self.0.expected()), printed(self.0.answers(asked)))
    }
}
