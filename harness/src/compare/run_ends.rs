//! The search for the end of a run of separators, beside a count of single bytes.

mod examples;
mod limits;
mod long;
mod peeks;
mod short;
mod small;

use crate::group::{Group, Report};
use crate::readers::library;
use crate::readers::run_end::Search;

pub fn run(report: &mut Report, seed: u64) {
    examples::run(report);
    small::run(report);
    short::run(report);
    limits::run(report);
    long::run(report, seed);
    peeks::run(report);
}

fn compare(group: &mut Group, search: &Search) {
    group.agree(
        search,
        ("library", library::run_end(search)),
        ("counted", search.counted()),
    );
}
