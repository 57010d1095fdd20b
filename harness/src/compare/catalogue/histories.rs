//! Long histories that are drawn: few schools, so that they come, go and come again,
//! and the catalogue is often full.

use super::beside::Beside;
use super::cases::Cases;
use crate::catalogue::draw::{self, Words};
use crate::group::{Group, Report};
use crate::rng::Rng;

const ACTS: u32 = 4_000;

/// Schools that are drawn from: about as many as there are places, fewer and more.
const POOLS: [usize; 6] = [4, 12, 65, 66, 90, 200];

/// Chances of an addition, each for a while: the catalogue fills, stays and empties.
const ADDS: [u64; 5] = [100, 80, 50, 20, 0];

/// How often in a hundred acts the chance changes, and all questions are asked.
const TURNS: u64 = 1;
const QUESTIONS: u64 = 6;

pub fn run(report: &mut Report, seed: u64, histories: u32) {
    let mut group = Group::new("catalogue, histories");
    let mut cases = Cases::default();
    let mut rng = Rng::new(seed, "catalogue histories");
    for size in POOLS {
        for history in 0..histories {
            let name = format!("history {history} over {size} schools");
            compare(&mut group, &mut cases, &mut rng, size, &name);
        }
    }
    report.close(group);
    cases.close(report, "histories");
}

fn compare(group: &mut Group, cases: &mut Cases, rng: &mut Rng, size: usize, name: &str) {
    let words = Words::draw(rng);
    let pool = draw::pool(rng, size);
    let mut beside = Beside::empty();
    let mut adds = ADDS[0];
    for count in 0..ACTS {
        if rng.percent(TURNS) {
            adds = rng.pick(&ADDS);
        }
        let act = draw::act(rng, &pool, &words, adds);
        let input = format_args!("{name}, act {count}: {act}");
        cases.note(&beside.step(act));
        beside.act(group, &input, act);
        if rng.percent(QUESTIONS) {
            beside.compare_questions(group, &input, &pool);
        }
    }
}
