//! The acts that are recorded.

use std::collections::BTreeSet;

use super::agree_numbers;
use crate::catalogue::library;
use crate::catalogue::sample::{self, Answers, Case};
use crate::group::{Group, Report};

pub fn run(report: &mut Report, seed: u64) {
    let cases = sample::cases(seed);
    report.close(answers(&cases));
    report.close(all_in_it(&cases));
}

fn answers(cases: &[Case]) -> Group {
    let mut group = Group::new("catalogue, acts that are recorded");
    for case in cases {
        let ours = format!("{:?}", of_library(case));
        let due = format!("{:?}", case.due());
        let input = format_args!("{} added, {}", case.added, case.act);
        group.agree(&input, ("library", ours), ("Rust", due));
    }
    group
}

fn of_library(case: &Case) -> Answers {
    let mut block = library::empty();
    case.beforehand().for_each(|act| {
        library::act(&mut block, act);
    });
    let number = library::act(&mut block, case.act);
    let found = library::find(&mut block, case.act.school());
    [
        number as usize,
        library::len(&mut block),
        library::separators(&mut block) as usize,
        found.number as usize,
        usize::from(found.words == [case.word.lo(), case.word.hi()]),
    ]
}

fn all_in_it(cases: &[Case]) -> Group {
    let mut group = Group::new("catalogue, every number in the record");
    let numbers: BTreeSet<usize> = cases.iter().map(|case| case.due()[0]).collect();
    agree_numbers(&mut group, |number| numbers.contains(&(number as usize)));
    group
}
