//! The tables of growth, a line for each row.

use super::rows::{Row, LENGTHS, ROWS};
use super::times::Times;
use super::Costs;

pub fn print_instructions(counts: &[Costs]) {
    print_head(
        "Instructions of one call of the library",
        "Last step | Grows",
    );
    for (row, costs) in ROWS.iter().zip(counts) {
        let fields = costs.map(|cost| format!("{cost:.0}")).join(" | ");
        let step = last_step(costs);
        println!("| {} | {fields} | {step:.1} | {} |", name(row), grows(step));
    }
}

pub fn print_times(times: &[Times]) {
    print_head(
        "Time of one cell, ns: Rattle, crate",
        "Last step | Grows | Passed of 4,096",
    );
    for (row, times) in ROWS.iter().zip(times) {
        let fields: Vec<String> = times
            .rattle
            .iter()
            .zip(times.rust)
            .map(|(rattle, rust)| format!("{rattle:.0}, {rust:.0}"))
            .collect();
        let steps = [&times.rattle, &times.rust].map(last_step);
        println!(
            "| {} | {} | {:.1}, {:.1} | {}, {} | {} |",
            name(row),
            fields.join(" | "),
            steps[0],
            steps[1],
            grows(steps[0]),
            grows(steps[1]),
            times.passed
        );
    }
}

fn print_head(title: &str, last: &str) {
    let lengths = LENGTHS.map(|length| length.to_string()).join(" | ");
    println!("\n**{title}**, by the bytes of the cell.\n");
    println!("| Cell | At a separator | Flags | {lengths} | {last} |");
    let columns = 3 + LENGTHS.len() + last.split('|').count();
    println!("|{}", "---|".repeat(columns));
}

fn name(row: &Row) -> String {
    format!("`{}` | {} | {}", row.cell, row.does, row.flags())
}

/// How many times as much four times the length costs.
fn last_step(costs: &Costs) -> f64 {
    costs[LENGTHS.len() - 1] / costs[LENGTHS.len() - 2]
}

/// By the last step: 4 is linear, 16 quadratic.
fn grows(step: f64) -> &'static str {
    match step {
        ..6.0 => "linear",
        10.0.. => "quadratic",
        _ => "between",
    }
}
