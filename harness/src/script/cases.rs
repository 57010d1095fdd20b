//! The scripts that are recorded, each with a name that says what it shows.

mod drawn;
mod examples;
mod lengths;
mod opens;
mod order;
mod pieces;
mod refusals;
mod runs;
mod texts;

use super::records::Script;

pub struct Case {
    pub name: String,
    pub script: Script,
    /// Where each piece but the last ends; none where the script is given whole.
    pub cuts: Vec<usize>,
}

fn case(name: impl Into<String>, script: Script) -> Case {
    Case {
        name: name.into(),
        script,
        cuts: Vec::new(),
    }
}

/// All of them, the same for the same seed.
pub fn all(seed: u64) -> Vec<Case> {
    let mut cases = examples::cases();
    cases.extend(runs::cases());
    cases.extend(opens::cases());
    cases.extend(texts::cases());
    cases.extend(refusals::cases());
    cases.extend(order::cases());
    cases.extend(lengths::cases());
    cases.extend(pieces::cases(seed));
    cases.extend(drawn::cases(seed));
    cases
}
