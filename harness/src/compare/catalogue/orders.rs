//! Catalogues that are filled in one order, with one school too many, and emptied in
//! another.

use super::beside::Beside;
use crate::catalogue::act::Act;
use crate::catalogue::draw::{shuffled, Words, FIRST_SCHOOL, LAST_SCHOOL};
use crate::catalogue::{FULL, NOT_LISTED, PLACES};
use crate::group::{Group, Report};
use crate::rng::Rng;

/// How often each pair of orders is gone through, with other schools and words.
const TIMES: u32 = 20;

pub fn run(report: &mut Report, seed: u64) {
    let mut group = Group::new("catalogue, filled and emptied in every order");
    let mut rng = Rng::new(seed, "catalogue orders");
    let words = Words::draw(&mut rng);
    for _ in 0..TIMES {
        let schools = ascending(&mut rng);
        for fill in orders(&mut rng, &schools) {
            for empty in orders(&mut rng, &schools) {
                let adds = fill.iter().map(|&school| {
                    let word = words.pick_accepted(&mut rng);
                    Act::Add(school, word)
                });
                let adds: Vec<Act> = adds.collect();
                let removals: Vec<Act> = empty.into_iter().map(Act::Remove).collect();
                compare(&mut group, &adds, &removals);
            }
        }
    }
    report.close(group);
}

/// The first, the last and others between, one more than there are places.
fn ascending(rng: &mut Rng) -> Vec<u16> {
    let mut schools = vec![FIRST_SCHOOL, LAST_SCHOOL];
    while schools.len() <= PLACES {
        let school = 1 + rng.below(LAST_SCHOOL.into()) as u16;
        if !schools.contains(&school) {
            schools.push(school);
        }
    }
    schools.sort_unstable();
    schools
}

/// Ascending, descending and mixed.
fn orders(rng: &mut Rng, ascending: &[u16]) -> [Vec<u16>; 3] {
    let descending = ascending.iter().rev().copied().collect();
    [ascending.to_vec(), descending, shuffled(rng, ascending)]
}

/// Exactly the last addition is one too many, and its school is missing at the removals.
fn compare(group: &mut Group, adds: &[Act], removals: &[Act]) {
    let mut beside = Beside::empty();
    let mut numbers = Vec::new();
    for (count, &act) in adds.iter().chain(removals).enumerate() {
        let (filled, emptied) = (adds[0].school(), removals[0].school());
        let input =
            format_args!("filled from {filled}, emptied from {emptied}, act {count}: {act}");
        numbers.push(beside.act(group, &input, act));
        beside.compare_questions(group, &input, &[act.school(), FIRST_SCHOOL, LAST_SCHOOL]);
    }
    let many = |number| numbers.iter().filter(|&&given| given == number).count();
    group.agree(
        &"the last addition",
        ("Rust", numbers[PLACES]),
        ("due", FULL),
    );
    group.agree(&"refused as full", ("Rust", many(FULL)), ("due", 1));
    group.agree(&"not listed", ("Rust", many(NOT_LISTED)), ("due", 1));
    group.agree(&"emptied", ("Rust", beside.map.len()), ("due", 0));
}
