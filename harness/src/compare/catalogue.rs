//! The catalogue of school sheets: beside a map what began empty, beside rows what was
//! made otherwise.

mod beside;
mod blocks;
mod cases;
mod histories;
mod limits;
mod orders;
mod refusals;
mod sample;
mod short;

use std::fmt::Display;

use crate::catalogue::{is_possible, Block};
use crate::group::{Group, Report};

/// How much is drawn or gone through.
pub struct Amount {
    /// Histories for each size of a pool.
    pub histories: u32,
    /// Acts of the longest history that is gone through.
    pub longest: usize,
    /// Blocks that were made otherwise.
    pub blocks: u32,
}

pub fn of_gate(report: &mut Report, seed: u64) {
    run(report, seed, &GATE);
}

pub const GATE: Amount = Amount {
    histories: 24,
    longest: 5,
    blocks: 150_000,
};

pub fn run(report: &mut Report, seed: u64, amount: &Amount) {
    histories::run(report, seed, amount.histories);
    short::run(report, amount.longest);
    limits::run(report, seed);
    orders::run(report, seed);
    refusals::run(report, seed);
    blocks::run(report, seed, amount.blocks);
    sample::run(report, seed);
}

/// Whole blocks, by the first word in which they differ.
fn agree_blocks(
    group: &mut Group,
    input: &dyn Display,
    ours: &Block,
    (name, other): (&str, &Block),
) {
    let differ = ours.iter().zip(other).position(|(one, two)| one != two);
    let at = differ.unwrap_or(0);
    group.agree(
        &format_args!("{input}, word {at} of the block"),
        ("library", ours[at]),
        (name, other[at]),
    );
}

/// Every number that an addition or a removal can return was seen, and no other.
fn agree_numbers(group: &mut Group, is_seen: impl Fn(u32) -> bool) {
    for number in 0..=32 {
        group.agree(
            &format_args!("number {number}"),
            ("seen", is_seen(number)),
            ("possible", is_possible(number)),
        );
    }
}
