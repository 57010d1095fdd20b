//! Scripts drawn at random, whole and damaged.

use super::{case, Case};
use crate::rng::Rng;
use crate::script::damage::DAMAGES;
use crate::script::draw::{self, Draw};
use crate::script::records::Script;

const WHOLE: usize = 30;

/// For each kind of damage.
const DAMAGED: usize = 3;

/// Longer scripts are drawn again, so that each can be read by eye.
const LONGEST: usize = 160;

pub fn cases(seed: u64) -> Vec<Case> {
    let mut rng = Rng::new(seed, "record scripts");
    let mut cases = of_kind(&mut rng, "whole", draw::whole, WHOLE);
    for (name, draw) in DAMAGES {
        cases.extend(of_kind(&mut rng, name, draw, DAMAGED));
    }
    cases
}

fn of_kind(rng: &mut Rng, name: &str, draw: Draw, count: usize) -> Vec<Case> {
    (1..=count)
        .map(|place| case(format!("drawn, {name}, {place}"), short(rng, draw)))
        .collect()
}

fn short(rng: &mut Rng, draw: Draw) -> Script {
    loop {
        let (input, output) = draw::with_output(rng, draw);
        if input.len() <= LONGEST && !output.is_empty() {
            return Script(input);
        }
    }
}
