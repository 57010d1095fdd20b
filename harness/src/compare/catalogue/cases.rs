//! What has happened to the catalogues of a group. Each number and each case must have
//! been seen where it can be: otherwise a library that is wrong there is not seen either.

use std::collections::BTreeMap;

use super::agree_numbers;
use crate::catalogue::act::Act;
use crate::catalogue::map::Map;
use crate::catalogue::{uses_separator, FULL, NOT_LISTED, PLACES, SCHOOL_0_OR_LISTED};
use crate::group::{Group, Report};

/// An act, and the catalogue before it.
pub struct Step<'a> {
    pub before: &'a Map,
    pub act: Act,
    pub number: u32,
    /// Whether the school was once removed.
    pub was_removed: bool,
}

impl Step<'_> {
    fn adds(&self) -> bool {
        self.act.adds(self.number)
    }

    fn removes(&self) -> bool {
        self.act.removes(self.number)
    }

    /// Whether the sheet that comes or goes uses a separator.
    fn has_separator(&self) -> bool {
        let word = match self.act {
            Act::Add(_, word) => Some(word),
            Act::Remove(school) => self.before.find(school),
        };
        word.is_some_and(uses_separator)
    }

    /// Whether smaller schools are listed, and greater ones.
    fn about(&self) -> (bool, bool) {
        self.before.has_about(self.act.school())
    }
}

type Case = (&'static str, fn(&Step) -> bool);

const CASES: [Case; 19] = [
    ("added to none", |step| {
        step.adds() && step.before.len() == 0
    }),
    ("added before all", |step| {
        step.adds() && step.about() == (false, true)
    }),
    ("added between", |step| {
        step.adds() && step.about() == (true, true)
    }),
    ("added behind all", |step| {
        step.adds() && step.about() == (true, false)
    }),
    ("added with a separator", |step| {
        step.adds() && step.has_separator()
    }),
    ("added without", |step| step.adds() && !step.has_separator()),
    ("added again after its removal", |step| {
        step.adds() && step.was_removed
    }),
    ("added as the last that is possible", |step| {
        step.adds() && step.before.len() == PLACES - 1
    }),
    ("removed as the only one", |step| {
        step.removes() && step.before.len() == 1
    }),
    ("removed before all", |step| {
        step.removes() && step.about() == (false, true)
    }),
    ("removed between", |step| {
        step.removes() && step.about() == (true, true)
    }),
    ("removed behind all", |step| {
        step.removes() && step.about() == (true, false)
    }),
    ("removed with a separator", |step| {
        step.removes() && step.has_separator()
    }),
    ("removed without", |step| {
        step.removes() && !step.has_separator()
    }),
    ("removed from a full catalogue", |step| {
        step.removes() && step.before.is_full()
    }),
    ("school 0", |step| {
        step.number == SCHOOL_0_OR_LISTED && step.act.school() == 0
    }),
    ("listed already, in a full catalogue", |step| {
        let is_listed = step.number == SCHOOL_0_OR_LISTED && step.act.school() > 0;
        is_listed && step.before.is_full()
    }),
    ("full", |step| step.number == FULL),
    ("removed twice", |step| {
        step.number == NOT_LISTED && step.was_removed
    }),
];

/// How often each number was due and each case seen.
#[derive(Default)]
pub struct Cases {
    numbers: BTreeMap<u32, u64>,
    seen: [u64; CASES.len()],
}

impl Cases {
    pub fn note(&mut self, step: &Step) {
        *self.numbers.entry(step.number).or_default() += 1;
        for (count, (_, holds)) in self.seen.iter_mut().zip(CASES) {
            *count += u64::from(holds(step));
        }
    }

    /// Holds the numbers to all that there are, and wants every case.
    pub fn close(&self, report: &mut Report, what: &str) {
        let mut group = Group::new(format!("catalogue, {what}, every number and case seen"));
        agree_numbers(&mut group, |number| self.numbers.contains_key(&number));
        for (&count, (name, _)) in self.seen.iter().zip(CASES) {
            group.agree(&name, ("seen", count > 0), ("possible", true));
        }
        report.close(group);
        self.tell(report);
    }

    fn tell(&self, report: &mut Report) {
        let numbers = self.numbers.iter();
        let numbers: Vec<String> = numbers
            .map(|(number, count)| format!("{number}: {count}"))
            .collect();
        report.tell(format!("by number {}", numbers.join(", ")));
        for (count, (name, _)) in self.seen.iter().zip(CASES) {
            report.tell(format!("{name}: {count}"));
        }
    }
}
