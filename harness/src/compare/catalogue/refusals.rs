//! Several faults at once: what is returned is the first of them, and nothing is changed.

use std::collections::BTreeSet;
use std::fmt;

use super::beside::Beside;
use crate::catalogue::act::Act;
use crate::catalogue::draw::Words;
use crate::catalogue::{FULL, NOT_LISTED, PLACES, SCHOOL_0_OR_LISTED};
use crate::group::{Group, Report};
use crate::readers::refusal::ACCEPTED;
use crate::rng::Rng;
use crate::word::{oracle, Word};

/// How many schools are listed: none, one, one short of all, and all.
const LENGTHS: [u16; 4] = [0, 1, PLACES as u16 - 1, PLACES as u16];

/// Listed schools go from here on by this step.
const FIRST: u16 = 10;
const STEP: u16 = 10;

/// What is wrong with an addition, in the order in which it is tested.
#[derive(Clone, Copy, PartialEq, Eq, PartialOrd, Ord)]
struct Faults {
    /// The full check's number, or 0.
    word: u32,
    zero: bool,
    listed: bool,
    full: bool,
}

impl Faults {
    fn first(self) -> u32 {
        match self {
            Self { word: 1.., .. } => self.word,
            Self { zero: true, .. } | Self { listed: true, .. } => SCHOOL_0_OR_LISTED,
            Self { full: true, .. } => FULL,
            _ => ACCEPTED,
        }
    }
}

pub fn run(report: &mut Report, seed: u64) {
    let mut rng = Rng::new(seed, "catalogue refusals");
    let words = Words::draw(&mut rng);
    let mut additions = Group::new("catalogue, additions with several faults");
    let mut removals = Group::new("catalogue, removals of a school that is not listed");
    let mut seen = BTreeSet::new();
    for length in LENGTHS {
        let filled = filled(&mut additions, &mut rng, &words, length);
        for (school, listed) in schools(length) {
            for word in all(&words) {
                let faults = Faults {
                    word: oracle::format_error(word),
                    zero: school == 0,
                    listed,
                    full: length == PLACES as u16,
                };
                seen.insert(faults);
                compare(
                    &mut additions,
                    &filled,
                    Act::Add(school, word),
                    faults.first(),
                );
            }
            let due = if listed { ACCEPTED } else { NOT_LISTED };
            compare(&mut removals, &filled, Act::Remove(school), due);
        }
    }
    report.close(additions);
    report.close(removals);
    report.close(every_set(&seen));
}

/// Every list that faults can make was tried: each word's number with each other fault.
/// School 0 is never listed.
fn every_set(seen: &BTreeSet<Faults>) -> Group {
    let mut group = Group::new("catalogue, every set of faults seen");
    for word in 0..=14 {
        for (zero, listed) in [(false, false), (true, false), (false, true)] {
            for full in [false, true] {
                let faults = Faults {
                    word,
                    zero,
                    listed,
                    full,
                };
                let is_seen = seen.contains(&faults);
                group.agree(&faults, ("seen", is_seen), ("possible", true));
            }
        }
    }
    group
}

fn all(words: &Words) -> impl Iterator<Item = Word> + '_ {
    let accepted = words.with_separator.iter().chain(&words.without);
    accepted.chain(&words.refused).copied()
}

fn filled(group: &mut Group, rng: &mut Rng, words: &Words, length: u16) -> Beside {
    let mut beside = Beside::empty();
    for place in 0..length {
        let act = Act::Add(FIRST + STEP * place, words.pick_accepted(rng));
        beside.act(group, &act, act);
    }
    beside
}

/// Schools to be added or removed, and whether each is listed: none, before all, between
/// and behind, and the listed ones.
fn schools(length: u16) -> Vec<(u16, bool)> {
    let others = [0, 1, FIRST + 1, FIRST + STEP * length, u16::MAX];
    let listed = (0..length).map(|place| (FIRST + STEP * place, true));
    others
        .map(|school| (school, false))
        .into_iter()
        .chain(listed)
        .collect()
}

fn compare(group: &mut Group, filled: &Beside, act: Act, due: u32) {
    let mut beside = filled.clone();
    let input = format_args!("{} listed, {act}", filled.map.len());
    let number = beside.act(group, &input, act);
    group.agree(&input, ("Rust", number), ("written", due));
}

impl fmt::Display for Faults {
    fn fmt(&self, out: &mut fmt::Formatter<'_>) -> fmt::Result {
        let Self {
            word,
            zero,
            listed,
            full,
        } = self;
        write!(
            out,
            "word's number {word}, school 0 {zero}, listed {listed}, full {full}"
        )
    }
}
