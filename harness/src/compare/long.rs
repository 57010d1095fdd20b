//! What `compare` runs: the groups of the gate whose inputs are drawn or gone
//! through, with far more of them. Those that are drawn run in two halves, one
//! for each of two cores.

use super::{catalogue, columns, coverage, digit_runs, faults, lists, random, runs, small, tally};
use crate::group::Groups;

/// One byte more than in the gate.
const LONGEST: usize = small::LONGEST + 1;

const ONE_HALF: random::Amount = random::Amount {
    what: "random buffers, one half",
    buffers: 30_000,
    shows_table: true,
};

const OTHER_HALF: random::Amount = random::Amount {
    what: "random buffers, other half",
    shows_table: false,
    ..ONE_HALF
};

const LISTS: lists::Amount = lists::Amount {
    what: "whole lists, one half",
    lists: 12_000,
};

const OTHER_LISTS: lists::Amount = lists::Amount {
    what: "whole lists, other half",
    ..LISTS
};

/// For each accepted word.
const TALLIES: u32 = 2_000;

/// For each reader of each word.
const COLUMNS: u32 = 15_000;

/// Digit runs under words that are drawn.
const RUNS: u32 = 40_000_000;

/// One act more than in the gate.
const CATALOGUES: catalogue::Amount = catalogue::Amount {
    histories: 20 * catalogue::GATE.histories,
    longest: catalogue::GATE.longest + 1,
    blocks: 20 * catalogue::GATE.blocks,
};

pub const GROUPS: [Groups; 12] = [
    |report, _| small::run(report, LONGEST),
    |report, seed| random::run(report, seed, &ONE_HALF),
    |report, seed| random::run(report, seed, &OTHER_HALF),
    |report, seed| lists::run(report, seed, &LISTS),
    |report, seed| lists::run(report, seed, &OTHER_LISTS),
    |report, seed| tally::run(report, seed, TALLIES),
    |report, seed| columns::run(report, seed, COLUMNS),
    |report, seed| digit_runs::run(report, seed, RUNS),
    |report, _| runs::run(report),
    |report, seed| catalogue::run(report, seed, &CATALOGUES),
    |report, _| coverage::arising(report),
    faults::run,
];
