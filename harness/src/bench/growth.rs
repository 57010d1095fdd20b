//! How the cost of a take to the end grows with the length of its cell.

mod instructions;
mod rows;
mod tables;
mod times;

pub use self::instructions::COMMAND;

use std::process::ExitCode;

use self::rows::{Row, LENGTHS, ROWS};
use super::callgrind;
use super::chart;
use super::chart::lines::{self, Line};

/// What a row costs at each length.
type Costs = [f64; LENGTHS.len()];

/// Prints the tables, and draws the times into a file where one is named.
pub fn run(chart: Option<&str>) -> ExitCode {
    match instructions::count() {
        Ok(counts) => tables::print_instructions(&counts),
        Err(error) => callgrind::tell_missing(&error),
    }
    let Some(times) = times::measure() else {
        eprintln!("harness: the answers differ, so the times say nothing");
        return ExitCode::FAILURE;
    };
    tables::print_times(&times);
    chart::save(chart, || draw(&times))
}

/// The calls whose instructions are counted, and nothing else.
pub fn make_calls() -> ExitCode {
    instructions::make_calls();
    ExitCode::SUCCESS
}

fn draw(times: &[times::Times]) -> String {
    let drawn = ROWS.iter().zip(times);
    let lines: Vec<Line> = drawn
        .flat_map(|(row, times)| lines_of(row, times))
        .collect();
    lines::draw(&LENGTHS.map(|length| length as f64), &lines)
}

fn lines_of(row: &Row, times: &times::Times) -> Vec<Line> {
    let Some(colour) = row.colour else {
        return Vec::new();
    };
    let line = |side: &str, costs: Costs, dashed| Line {
        label: format!("{}, {}: {side}", row.cell, row.does),
        colour,
        dashed,
        values: costs.to_vec(),
    };
    vec![
        line("Rattle", times.rattle, false),
        line("crate", times.rust, true),
    ]
}
