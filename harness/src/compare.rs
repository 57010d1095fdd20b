//! The library beside the crate, on words and on reader calls, and its catalogue of
//! school sheets beside plain references.

mod blocks;
mod catalogue;
mod checks;
mod columns;
mod comparison;
mod counts;
mod coverage;
mod digit_runs;
mod digits;
mod editions;
mod examples;
mod faults;
mod fresh;
mod history;
mod is_digit;
mod lent;
mod lists;
mod long;
mod named_words;
mod outcomes;
mod plain;
mod ported;
mod random;
mod reads;
mod refusals;
mod run_ends;
mod runs;
mod small;
mod smallest;
mod tally;
mod written;

pub use catalogue::of_gate as test_of_catalogue;
pub use faults::run as test_of_comparison;
pub use long::GROUPS as LONG_GROUPS;

use crate::group::Groups;

/// What the gate runs: words, then reader calls, the longest of these first, then the
/// catalogue.
pub const GROUPS: [Groups; 24] = [
    |report, _| named_words::run(report),
    |report, _| digits::run(report),
    checks::run,
    fresh::run,
    |report, _| small::run(report, small::LONGEST),
    |report, seed| random::run(report, seed, &random::GATE),
    faults::run,
    |report, _| coverage::arising(report),
    |report, seed| tally::run(report, seed, tally::LISTS),
    |report, _| runs::run(report),
    |report, seed| lists::run(report, seed, &lists::GATE),
    |report, seed| columns::run(report, seed, columns::COLUMNS),
    |report, seed| digit_runs::run(report, seed, digit_runs::CASES),
    run_ends::run,
    reads::run,
    |report, _| examples::run(report),
    |report, _| written::run(report),
    |report, _| is_digit::run(report),
    |report, _| blocks::run(report),
    counts::run,
    plain::run,
    |report, _| refusals::run(report),
    |report, _| editions::run(report),
    catalogue::of_gate,
];
