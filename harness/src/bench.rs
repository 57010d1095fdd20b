//! Times the library beside the crate: reader calls, the full check and what some
//! calls take in instructions (`run`), how cost grows with a cell's length
//! (`growth`), and call scripts (`script`); and beside a map the catalogue of school
//! sheets (`catalogue`).

mod byte_calls;
mod callgrind;
pub mod catalogue;
mod cells;
mod chart;
mod column;
mod digit_run;
mod each_byte;
mod full_check;
pub mod growth;
pub mod instructions;
mod next_all;
mod outcome;
mod read;
pub mod script;
mod sides;
mod singly;
mod skip_zeros;
mod table;
mod take_n;
mod times;
mod timing;

use std::process::ExitCode;

use self::chart::bars::{self, Bars};

/// What a run has found out, besides what it printed.
struct Findings {
    /// Whether all sides gave the same answers.
    agreed: bool,
    /// The rows that are drawn.
    bars: Vec<Bars>,
}

/// Prints the tables, and draws some of their rows into a file where one is named.
pub fn run(seed: u64, chart: Option<&str>) -> ExitCode {
    let mut findings = Findings {
        agreed: true,
        bars: Vec::new(),
    };
    times::print(&next_all::table(), seed, &mut findings);
    times::print(&column::table(), seed, &mut findings);
    times::print(&next_all::table_of_runs(), seed, &mut findings);
    times::print(&byte_calls::takes(), seed, &mut findings);
    times::print(&byte_calls::peeks(), seed, &mut findings);
    times::print(&read::table(), seed, &mut findings);
    times::print(&skip_zeros::table(), seed, &mut findings);
    times::print(&take_n::table(), seed, &mut findings);
    times::print(&digit_run::table(), seed, &mut findings);
    full_check::time(seed, &mut findings);
    instructions::print(seed);
    if !findings.agreed {
        return tell_difference();
    }
    chart::save(chart, || bars::draw(&findings.bars))
}

fn tell_difference() -> ExitCode {
    eprintln!("harness: the answers differ, so the times say nothing");
    ExitCode::FAILURE
}
