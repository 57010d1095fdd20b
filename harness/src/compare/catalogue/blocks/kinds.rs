//! What was seen of blocks that were made otherwise: each of these must have been.

use std::collections::BTreeSet;

use crate::catalogue::act::Act;
use crate::catalogue::rows::Rows;
use crate::catalogue::{uses_separator, PLACES};
use crate::compare::catalogue::agree_numbers;
use crate::group::{Group, Report};
use crate::readers::refusal::ACCEPTED;
use crate::word::Word;

/// An act, and the rows before it.
struct Step<'a> {
    before: &'a Rows,
    act: Act,
    number: u32,
}

impl Step<'_> {
    fn adds(&self) -> bool {
        self.act.adds(self.number)
    }

    fn removes(&self) -> bool {
        self.act.removes(self.number)
    }

    /// Whether the word that comes or goes has a separator.
    fn has_separator(&self) -> bool {
        match self.act {
            Act::Add(_, word) => uses_separator(word),
            Act::Remove(school) => {
                let [lo, hi] = self.before.find(school).words;
                uses_separator(Word::from_halves(lo, hi))
            }
        }
    }

    fn school(&self) -> u64 {
        self.act.school().into()
    }

    /// A listed school is the one sought but for bits above the sixteenth.
    fn is_like_one_above(&self) -> bool {
        let above = |other: u64| other > 0xFFFF && other & 0xFFFF == self.school();
        self.before.listed().any(above)
    }

    /// The school is listed, but behind a greater one, where the search has ended.
    fn is_hidden(&self) -> bool {
        let stands = self.before.listed().any(|other| other == self.school());
        stands && !self.before.is_listed(self.school())
    }

    fn is_there_twice(&self) -> bool {
        let equal = self.before.listed().filter(|&other| other == self.school());
        equal.count() > 1
    }
}

type Kind = (&'static str, fn(&Step) -> bool);

const MOST: u64 = PLACES as u64;

const KINDS: [Kind; 13] = [
    ("added where the tally is 63", |step| {
        step.adds() && step.has_separator() && step.before.tally == MOST - 1
    }),
    ("added where the tally stays at 64", |step| {
        step.adds() && step.has_separator() && step.before.tally == MOST
    }),
    ("added where the tally is the largest", |step| {
        step.adds() && step.has_separator() && step.before.tally == u64::MAX
    }),
    ("removed where the tally is 1", |step| {
        step.removes() && step.has_separator() && step.before.tally == 1
    }),
    ("removed where the tally stays at 0", |step| {
        step.removes() && step.has_separator() && step.before.tally == 0
    }),
    ("removed where the tally is the largest", |step| {
        step.removes() && step.has_separator() && step.before.tally == u64::MAX
    }),
    ("removed of more than 64", |step| {
        step.removes() && step.before.how_many > MOST
    }),
    ("removed of as many as there can be", |step| {
        step.removes() && step.before.how_many == u64::MAX
    }),
    ("added with schools out of order", |step| {
        step.adds() && !step.before.listed().is_sorted()
    }),
    ("removed one of two", |step| {
        step.removes() && step.is_there_twice()
    }),
    ("removed school 0", |step| {
        step.removes() && step.school() == 0
    }),
    ("not listed, but one above 16 bits like it", |step| {
        step.number != ACCEPTED && step.is_like_one_above()
    }),
    ("listed behind a greater one", |step| step.is_hidden()),
];

#[derive(Default)]
pub struct Kinds {
    numbers: BTreeSet<u32>,
    seen: [u64; KINDS.len()],
}

impl Kinds {
    pub fn note(&mut self, before: &Rows, act: Act) {
        let number = before.due(act);
        self.numbers.insert(number);
        let step = Step {
            before,
            act,
            number,
        };
        for (count, (_, holds)) in self.seen.iter_mut().zip(KINDS) {
            *count += u64::from(holds(&step));
        }
    }

    pub fn close(self, report: &mut Report) {
        let mut group = Group::new("catalogue, blocks made otherwise, every number and kind seen");
        agree_numbers(&mut group, |number| self.numbers.contains(&number));
        for (&count, (name, _)) in self.seen.iter().zip(KINDS) {
            group.agree(&name, ("seen", count > 0), ("possible", true));
        }
        report.close(group);
        for (count, (name, _)) in self.seen.iter().zip(KINDS) {
            report.tell(format!("{name}: {count}"));
        }
    }
}
