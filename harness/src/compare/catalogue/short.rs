//! Every short history over three schools, with words of each kind.

use std::fmt;

use super::beside::Beside;
use crate::catalogue::act::Act;
use crate::catalogue::draw::{FIRST_SCHOOL, LAST_SCHOOL};
use crate::group::{Group, Report};
use crate::readers::words::DECIMAL;
use crate::word::{Field, Word};

/// Zero, which is none, and neighbours; or both ends.
const SCHOOLS: [[u16; 3]; 2] = [[0, 1, 2], [FIRST_SCHOOL, 2, LAST_SCHOOL]];

/// With a separator, without, and one that is refused.
const WORDS: [Word; 3] = [
    DECIMAL,
    DECIMAL.with_field(Field::Separator, 0),
    DECIMAL.with_field(Field::MantissaRadix, 1),
];

/// Those that are looked up after each act.
const SOUGHT: [u16; 5] = [0, FIRST_SCHOOL, 2, 3, LAST_SCHOOL];

pub fn run(report: &mut Report, longest: usize) {
    let mut group = Group::new(format!("catalogue, every history of up to {longest} acts"));
    for schools in SCHOOLS {
        let mut walk = Walk {
            group: &mut group,
            acts: acts(schools),
            history: Vec::new(),
            longest,
        };
        walk.extend(&Beside::empty());
    }
    report.close(group);
}

fn acts(schools: [u16; 3]) -> Vec<Act> {
    let adds = schools
        .into_iter()
        .flat_map(|school| WORDS.map(|word| Act::Add(school, word)));
    adds.chain(schools.map(Act::Remove)).collect()
}

struct Walk<'a> {
    group: &'a mut Group,
    acts: Vec<Act>,
    history: Vec<Act>,
    longest: usize,
}

impl Walk<'_> {
    /// By each act, and on from there.
    fn extend(&mut self, before: &Beside) {
        if self.history.len() == self.longest {
            return;
        }
        for act in self.acts.clone() {
            self.history.push(act);
            let mut after = before.clone();
            let input = Shown(&self.history);
            after.act(self.group, &input, act);
            after.compare_questions(self.group, &input, &SOUGHT);
            self.extend(&after);
            self.history.pop();
        }
    }
}

struct Shown<'a>(&'a [Act]);

impl fmt::Display for Shown<'_> {
    fn fmt(&self, out: &mut fmt::Formatter<'_>) -> fmt::Result {
        let acts: Vec<String> = self.0.iter().map(Act::to_string).collect();
        out.write_str(&acts.join("; "))
    }
}
