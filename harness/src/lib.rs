//! Compares the Rattle library with the Rust crate that it was ported from.
//!
//! `test` runs every comparison, `compare` those of the readers for minutes with
//! far more calls, `test-compare` only the tests of the comparison itself. `record`
//! writes the crate's answers for a program without Rust at hand, `bench` times the
//! two side by side, `growth` shows how cost grows with a cell's length.
//! `test-catalogue` and `bench-catalogue` do this for the catalogue of school sheets
//! alone, `test-script`, `scripts` and `bench-script` for call scripts;
//! `answer-script` prints the crate's answers to one, `run-script` is the program
//! that is timed, and `growth-calls` and `count-passes` make the calls whose
//! instructions are counted.
//!
//! `word`, `readers` and `catalogue` have what is asked, how it is drawn and who
//! answers; `compare`, `bench`, `script` and `record` what is done with it.

#![deny(unsafe_code)]

mod bench;
mod catalogue;
mod compare;
mod group;
mod readers;
mod record;
mod rng;
mod scratch;
mod script;
mod word;

use std::process::ExitCode;

/// The seed of every command, unless `test` or `compare` is given another.
const SEED: u64 = 0x5041_5748_4554_494E;

const USAGE: &str = "usage: harness test [seed] | compare [seed] | bench [--chart FILE] | growth [--chart FILE] | record
       harness test-compare SEED | test-catalogue | bench-catalogue | test-script | bench-script | scripts | answer-script < SCRIPT | run-script LINES < SCRIPT";

/// What the program does with its arguments.
pub fn main() -> ExitCode {
    let arguments: Vec<String> = std::env::args().skip(1).collect();
    let arguments: Vec<&str> = arguments.iter().map(String::as_str).collect();
    match arguments.as_slice() {
        ["test"] => test(SEED),
        ["test", seed] => parse_seed(seed).map_or_else(usage, test),
        ["compare"] => run_groups(&compare::LONG_GROUPS, SEED),
        ["compare", seed] => {
            parse_seed(seed).map_or_else(usage, |seed| run_groups(&compare::LONG_GROUPS, seed))
        }
        ["test-compare", seed] => parse_seed(seed).map_or_else(usage, |seed| {
            run_groups(&[compare::test_of_comparison], seed)
        }),
        ["test-script"] => run_groups(&[script::compare], SEED),
        ["test-catalogue"] => run_groups(&[compare::test_of_catalogue], SEED),
        ["bench"] => bench::run(SEED, None),
        ["bench", "--chart", file] => bench::run(SEED, Some(file)),
        ["growth"] => bench::growth::run(None),
        ["growth", "--chart", file] => bench::growth::run(Some(file)),
        [bench::growth::COMMAND] => bench::growth::make_calls(),
        [bench::instructions::COMMAND] => bench::instructions::make_passes(SEED),
        ["record"] => record::run(SEED),
        ["scripts"] => script::record(SEED),
        ["bench-script"] => bench::script::run(SEED),
        ["bench-catalogue"] => bench::catalogue::run(SEED),
        ["answer-script"] => script::answer(),
        ["run-script", lines] => bench::script::rust::run(lines),
        _ => usage(),
    }
}

fn test(seed: u64) -> ExitCode {
    let scripts: [group::Groups; 2] = [script::assemble, script::compare];
    run_groups(&[compare::GROUPS.as_slice(), &scripts].concat(), seed)
}

fn run_groups(groups: &[group::Groups], seed: u64) -> ExitCode {
    println!("seed 0x{seed:016X}");
    group::Report::of_all(groups, seed).finish()
}

/// Reads a seed as it is printed (hexadecimal after `0x`), or as a decimal.
fn parse_seed(text: &str) -> Option<u64> {
    match text.strip_prefix("0x") {
        Some(hexadecimal) => u64::from_str_radix(hexadecimal, 16).ok(),
        None => text.parse().ok(),
    }
}

fn usage() -> ExitCode {
    eprintln!("{USAGE}");
    ExitCode::from(2)
}
