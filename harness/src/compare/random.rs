//! Longer buffers drawn at random, from arbitrary states, by all readers.

use super::comparison::Comparison;
use super::ported;
use crate::group::{Group, Report};
use crate::readers::call::{Call, Case, READERS};
use crate::readers::compiled::Readers;
use crate::readers::words::compiled;
use crate::readers::{draw, library};
use crate::rng::Rng;

const LONGEST: usize = 40;

/// How much is drawn.
pub struct Amount {
    /// Names the groups, and the random numbers that are drawn.
    pub what: &'static str,
    /// For each reader of each word, with a call of each kind for each.
    pub buffers: u32,
    pub shows_table: bool,
}

/// What the gate draws.
pub const GATE: Amount = Amount {
    what: "random buffers",
    buffers: 5_000,
    shows_table: false,
};

pub fn run(report: &mut Report, seed: u64, amount: &Amount) {
    let what = amount.what;
    let mut comparison = Comparison::new(what, library::call);
    let mut port = Group::new(format!("port that the benchmark times, {what}"));
    let mut rng = Rng::new(seed, what);
    for_each_drawn(&mut rng, amount.buffers, &mut |rust, case, call| {
        let expected = comparison.compare(rust, case, call);
        ported::compare(&mut port, case, call, expected);
    });
    let coverage = comparison.close(report);
    report.close(port);
    coverage.close_table(report, amount.shows_table);
}

/// What is done with each call that is drawn.
type Visit<'a> = &'a mut dyn FnMut(&'static dyn Readers, &Case, Call);

pub fn for_each_drawn(rng: &mut Rng, buffers: u32, visit: Visit) {
    for &rust in compiled() {
        let word = rust.word();
        for reader in READERS {
            for _ in 0..buffers {
                let buffer = draw::buffer(rng, word, LONGEST);
                let case = Case {
                    word,
                    buffer: &buffer,
                    state: draw::state(rng, &buffer),
                    reader,
                };
                for call in draw::calls(rng, word, &buffer) {
                    visit(rust, &case, call);
                }
            }
        }
    }
}
