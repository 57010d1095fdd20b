//! How many instructions a call takes on each side. Those of the loop around it
//! are counted too, so that these are all that a caller pays for.

use std::hint::black_box;
use std::process::ExitCode;

use super::sides::NAMES;
use super::table::Row;
use super::{byte_calls, callgrind, digit_run, next_all};

/// The command of this program that makes the passes.
pub const COMMAND: &str = "count-passes";

/// The function around each pass, as callgrind names it.
const FUNCTION: &str = concat!(module_path!(), "::counted_pass");

#[inline(never)]
fn counted_pass(pass: &dyn Fn() -> u64) -> u64 {
    black_box(pass())
}

/// The rows that are counted, each with the title of its table.
fn for_each_row(seed: u64, visit: &mut dyn FnMut(&str, &Row)) {
    let next_all = next_all::table();
    next_all.for_each_row(seed, &mut |row| visit(next_all.title, row));
    let takes = byte_calls::takes();
    takes.for_each_row(seed, &mut |row| visit(takes.title, row));
    let peeks = byte_calls::peeks();
    peeks.for_each_row(seed, &mut |row| visit(peeks.title, row));
    let runs = digit_run::table();
    runs.for_each_row(seed, &mut |row| visit(runs.title, row));
}

/// Makes one pass of each side over the cells of each row, and nothing else.
pub fn make_passes(seed: u64) -> ExitCode {
    for_each_row(seed, &mut |_, row| {
        for side in &row.sides {
            counted_pass(side);
        }
    });
    ExitCode::SUCCESS
}

pub fn print(seed: u64) {
    let mut rows = 0;
    for_each_row(seed, &mut |_, _| rows += 1);
    match callgrind::count(COMMAND, FUNCTION, rows * NAMES.len()) {
        Ok(counts) => print_table(seed, &counts),
        Err(error) => callgrind::tell_missing(&error),
    }
}

fn print_table(seed: u64, counts: &[f64]) {
    println!("\n**Instructions of one call**, those of its caller included.\n");
    println!("| Calls | Cells | Flags | {} |", NAMES.join(" | "));
    println!("|{}", "---|".repeat(3 + NAMES.len()));
    let mut counts = counts.chunks_exact(NAMES.len());
    for_each_row(seed, &mut |title, row| {
        let of_row = counts.next().expect("a count for each side of each row");
        let fields: Vec<String> = of_row
            .iter()
            .map(|count| format!("{:.1}", count / row.calls as f64))
            .collect();
        println!(
            "| {title} | {} | {} | {} |",
            row.name,
            row.flags,
            fields.join(" | ")
        );
    });
}
