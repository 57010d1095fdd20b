//! Digit runs alone: inputs that the comparisons of all calls do not come to.

mod bytes;
mod drawn;
mod examples;
mod limits;
mod long;
mod refusals;

use super::ported;
use crate::group::{Group, Report};
use crate::readers::answer::Answer;
use crate::readers::call::{Call, Case};
use crate::readers::library;

/// Cases in the gate under words that are drawn.
pub const CASES: u32 = 2_000_000;

pub fn run(report: &mut Report, seed: u64, cases: u32) {
    examples::run(report);
    bytes::run(report);
    limits::run(report, seed);
    drawn::run(report, seed, cases);
    refusals::run(report);
    long::run(report);
}

/// What is due is known here without a fold, and the fold of other groups is held
/// to it as well.
fn compare(group: &mut Group, case: &Case, due: Answer) {
    let due = ("written", due);
    let answer = library::call(case, Call::DigitRun);
    group.agree(case, ("library", answer), due);
    group.agree(case, ("port", ported::digit_run(case)), due);
}
