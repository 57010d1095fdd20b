//! Runs of up to thousands of separators, with one other byte at any place.

use super::compare;
use crate::group::{Group, Report};
use crate::readers::run_end::{one_bit_off, Search};
use crate::rng::Rng;

const LONGEST: u64 = 5_000;

const RUNS: u32 = 20_000;

pub fn run(report: &mut Report, seed: u64) {
    let mut group = Group::new("run ends, long");
    let mut rng = Rng::new(seed, "run ends");
    for _ in 0..RUNS {
        let separator = separator(&mut rng);
        let buffer = buffer(&mut rng, separator);
        let search = Search {
            buffer: &buffer,
            separator,
            at: place(&mut rng, &buffer),
        };
        compare(&mut group, &search);
    }
    report.close(group);
}

/// Any but 0, by which there are no runs.
fn separator(rng: &mut Rng) -> u8 {
    match rng.below(2) {
        0 => b'_',
        _ => rng.byte_between(1, 0xFF),
    }
}

fn buffer(rng: &mut Rng, separator: u8) -> Vec<u8> {
    let length = rng.below(LONGEST + 1) as usize;
    let mut buffer = vec![separator; length];
    if length > 0 {
        let place = rng.below(length as u64) as usize;
        buffer[place] = one_bit_off(separator, rng.below(8));
    }
    buffer
}

/// Mostly near the start, so that a run is long; else any, up to the end.
fn place(rng: &mut Rng, buffer: &[u8]) -> usize {
    let last = match rng.below(4) {
        0 => buffer.len(),
        _ => buffer.len().min(20),
    };
    rng.below(last as u64 + 1) as usize
}
