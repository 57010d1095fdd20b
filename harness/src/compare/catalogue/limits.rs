//! Every school, and every place of a catalogue of every length.

use super::beside::Beside;
use crate::catalogue::act::Act;
use crate::catalogue::draw::{Words, FIRST_SCHOOL, LAST_SCHOOL};
use crate::catalogue::PLACES;
use crate::group::{Group, Report};
use crate::rng::Rng;

pub fn run(report: &mut Report, seed: u64) {
    let mut rng = Rng::new(seed, "catalogue limits");
    let words = Words::draw(&mut rng);
    report.close(every_school(&mut rng, &words));
    report.close(every_place(&mut rng, &words));
}

/// Beside the first and the last, which stay and are refused a second time.
fn every_school(rng: &mut Rng, words: &Words) -> Group {
    const STAY: [u16; 2] = [FIRST_SCHOOL, LAST_SCHOOL];
    let mut group = Group::new("catalogue, every school");
    let mut beside = filled(&mut group, rng, words, &STAY);
    for school in 0..=LAST_SCHOOL {
        let add = Act::Add(school, words.pick_accepted(rng));
        beside.act(&mut group, &add, add);
        beside.compare_questions(&mut group, &add, &[school, school ^ 1]);
        if !STAY.contains(&school) {
            let remove = Act::Remove(school);
            beside.act(&mut group, &remove, remove);
        }
    }
    group
}

/// Additions and removals at every place of a catalogue of every length, the full one
/// too. The schools that are listed are even, so that there is one before, between and
/// behind all.
fn every_place(rng: &mut Rng, words: &Words) -> Group {
    let mut group = Group::new("catalogue, every place at every length");
    for length in 0..=PLACES as u16 {
        let even: Vec<u16> = (1..=length).map(|place| 2 * place).collect();
        let filled = filled(&mut group, rng, words, &even);
        for place in 0..=length {
            let mut beside = filled.clone();
            for act in acts_at(rng, words, place) {
                let input = format_args!("{length} even schools, place {place}, {act}");
                beside.act(&mut group, &input, act);
                beside.compare_questions(&mut group, &input, &[act.school()]);
            }
        }
    }
    group
}

/// The school before a listed one comes, the listed one goes, then the other way about.
/// Behind all there is none listed to go.
fn acts_at(rng: &mut Rng, words: &Words, place: u16) -> [Act; 4] {
    let (before, listed) = (2 * place + 1, 2 * place + 2);
    [
        Act::Add(before, words.pick_accepted(rng)),
        Act::Remove(listed),
        Act::Remove(before),
        Act::Add(listed, words.pick_accepted(rng)),
    ]
}

fn filled(group: &mut Group, rng: &mut Rng, words: &Words, schools: &[u16]) -> Beside {
    let mut beside = Beside::empty();
    for &school in schools {
        let act = Act::Add(school, words.pick_accepted(rng));
        beside.act(group, &act, act);
    }
    beside
}
