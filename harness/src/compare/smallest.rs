//! The smallest input on which the library and the crate part, for people: as a
//! call script wherever one shows it.

mod input;
mod script;
mod search;
mod shrink;
mod smaller;

pub use input::Input;

use self::script::Script;
use super::comparison::Asked;
use crate::group::Report;
use crate::readers::call::Call;
use crate::readers::refusal::ACCEPTED;
use crate::script::has_record;
use crate::word::oracle;

/// Stands before the script's lines.
pub const AS_A_SCRIPT: &str = "as a call script, for tools/script:";

/// Stands before the reason, in the last line.
pub const NO_SCRIPT: &str = "no call script: ";

/// What was found for an input on which the two part.
pub struct Smallest {
    /// The smallest found that their answers differ on.
    pub input: Input,
    /// The smallest found that they print different lines for.
    pub script: Option<Script>,
}

impl Smallest {
    pub fn of(input: &Input, asked: Asked) -> Self {
        let parts = |input: &Input| input.parts(asked).is_some();
        let shrunk = shrink::shrink(&input.clone().until(asked), &parts).until(asked);
        Self {
            script: search::script(&shrunk, asked),
            input: shrunk,
        }
    }

    /// The input in words, then the script or why there is none.
    pub fn told(&self, asked: Asked) -> Vec<String> {
        let mut lines = vec!["smallest input:".to_string()];
        lines.extend(self.input.told(asked));
        match &self.script {
            Some(script) => {
                lines.push(AS_A_SCRIPT.to_string());
                lines.extend(script.told(asked));
            }
            None => lines.push(format!("{NO_SCRIPT}{}", self.why_no_script())),
        }
        lines
    }

    fn why_no_script(&self) -> String {
        let Input { rust, steps, .. } = &self.input;
        let number = oracle::format_error(rust.word());
        let reason = match steps.last().map(|step| step.call) {
            _ if number != ACCEPTED => format!("an open refuses the word with {number}"),
            Some(call) if !has_record(call) => {
                format!("a script has no {}", Call::NAMES[call.kind()])
            }
            _ => "no list of calls that was tried comes to this state or prints it".to_string(),
        };
        format!("{reason}, and {}", search::tried_on_short_texts())
    }
}

/// Says of the group closed last what its first difference comes down to.
pub fn tell(report: &mut Report, first: &Input, asked: Asked) {
    let lines = Smallest::of(first, asked).told(asked);
    lines.into_iter().for_each(|line| report.tell(line));
}
