//! Calls one after the other on a buffer: one call from any state, or a list
//! from a fresh one.

use crate::compare::comparison::Asked;
use crate::readers::answer::Answer;
use crate::readers::call::{Call, Case, State, Step, INTEGER};
use crate::readers::compiled::Readers;

#[derive(Clone)]
pub struct Input {
    /// The crate's readers under the input's word.
    pub rust: &'static dyn Readers,
    pub buffer: Vec<u8>,
    /// Where the first call starts.
    pub start: State,
    pub steps: Vec<Step>,
}

impl Input {
    pub fn of_call(rust: &'static dyn Readers, case: &Case, call: Call) -> Self {
        let reader = case.reader;
        Self {
            rust,
            buffer: case.buffer.to_vec(),
            start: case.state,
            steps: vec![Step { reader, call }],
        }
    }

    pub fn of_list(rust: &'static dyn Readers, buffer: &[u8], list: &[Step]) -> Self {
        Self {
            rust,
            buffer: buffer.to_vec(),
            start: State::default(),
            steps: list.to_vec(),
        }
    }

    fn case(&self) -> Case<'_> {
        Case {
            state: self.start,
            ..Case::fresh(self.rust.word(), &self.buffer, INTEGER)
        }
    }

    /// The place of the first call that the two answer differently.
    pub fn parts(&self, asked: Asked) -> Option<usize> {
        let expected = self.expected();
        let answers = self.answers(asked);
        let mut pairs = answers.iter().zip(&expected);
        pairs.position(|(answer, expected)| answer != expected)
    }

    /// The crate's answers: to a list by one `Bytes`, as it was compared.
    pub fn expected(&self) -> Vec<Answer> {
        if self.start == State::default() {
            return self.rust.run(&self.buffer, &self.steps);
        }
        self.each_step(|case, call| self.rust.call(case, call))
    }

    /// The other's, which goes on from the states that it returned.
    pub fn answers(&self, asked: Asked) -> Vec<Answer> {
        self.each_step(asked)
    }

    fn each_step(&self, answer: impl Fn(&Case, Call) -> Answer) -> Vec<Answer> {
        let mut case = self.case();
        let steps = self.steps.iter().map(|step| {
            case.reader = step.reader;
            let answer = answer(&case, step.call);
            case.state = answer.state;
            answer
        });
        steps.collect()
    }

    /// The same without the calls behind the first that differs.
    pub fn until(mut self, asked: Asked) -> Self {
        if let Some(place) = self.parts(asked) {
            self.steps.truncate(place + 1);
        }
        self
    }

    /// The last call alone, from where the crate is before it.
    pub fn last_alone(&self) -> Self {
        let (last, others) = self.steps.split_last().expect("a call");
        let before = self.expected();
        let start = others.len().checked_sub(1).map(|place| before[place].state);
        Self {
            rust: self.rust,
            buffer: self.buffer.clone(),
            start: start.unwrap_or(self.start),
            steps: vec![*last],
        }
    }

    /// In words: the calls with the states that the crate comes to, then the
    /// two answers to the last.
    pub fn told(&self, asked: Asked) -> Vec<String> {
        let mut lines = Vec::new();
        let mut case = self.case();
        let (expected, answers) = (self.expected(), self.answers(asked));
        for (place, step) in self.steps.iter().enumerate() {
            case.reader = step.reader;
            lines.push(format!("{}, {case}", step.call));
            case.state = expected[place].state;
            if answers[place] != expected[place] {
                lines.push(format!("  library {}", answers[place]));
                lines.push(format!("  Rust    {}", expected[place]));
            }
        }
        lines
    }
}
