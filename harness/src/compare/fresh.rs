//! Fresh states: made of each word that the crate accepts. For another word, or
//! an edition that there is none of, the place stays as it was.

use std::fmt;

use super::editions::UNKNOWN;
use crate::group::{Group, Report};
use crate::readers::answer::UNTOUCHED;
use crate::readers::library::{self, RawState, EDITION};
use crate::readers::refusal::{ACCEPTED, UNKNOWN_EDITION};
use crate::word::families::FAMILIES;
use crate::word::{oracle, Word};

/// What is returned, and what the place holds then.
#[derive(PartialEq)]
struct Made {
    number: u32,
    state: RawState,
}

struct Comparison {
    accepted: Group,
    refused: Group,
    unknown: Group,
}

pub fn run(report: &mut Report, seed: u64) {
    let mut comparison = Comparison {
        accepted: Group::new("fresh states, accepted words"),
        refused: Group::new("fresh states, refused words"),
        unknown: Group::new("fresh states, unknown editions"),
    };
    let mut editions = UNKNOWN.into_iter().cycle();
    for family in &FAMILIES {
        family.for_each(seed, &mut |word| {
            comparison.compare(word);
            comparison.compare_unknown(word, editions.next().expect("a cycle"));
        });
    }
    report.close(comparison.accepted);
    report.close(comparison.refused);
    report.close(comparison.unknown);
}

impl Comparison {
    fn compare(&mut self, word: Word) {
        let number = oracle::format_error(word);
        let (group, state) = match number {
            ACCEPTED => (
                &mut self.accepted,
                [word.lo(), word.hi(), 0, 0, 0, 0, 0, EDITION],
            ),
            _ => (&mut self.refused, [UNTOUCHED; 8]),
        };
        let made = ("library", made(word, EDITION));
        group.agree(&word, made, ("Rust", Made { number, state }));
    }

    fn compare_unknown(&mut self, word: Word, edition: u64) {
        let refused = Made {
            number: UNKNOWN_EDITION,
            state: [UNTOUCHED; 8],
        };
        self.unknown.agree(
            &format_args!("edition {edition}, {word}"),
            ("library", made(word, edition)),
            ("definition", refused),
        );
    }
}

fn made(word: Word, edition: u64) -> Made {
    let mut state = [UNTOUCHED; 8];
    let number = library::fresh(word, edition, &mut state);
    Made { number, state }
}

impl fmt::Display for Made {
    fn fmt(&self, out: &mut fmt::Formatter<'_>) -> fmt::Result {
        write!(out, "(number {}, state {:X?})", self.number, self.state)
    }
}
