//! Times the rows of a table: all sides in turn.

use super::chart::bars::Bars;
use super::sides::{Sides, NAMES};
use super::table::{Row, Table, Unit};
use super::timing::{agree, ratio_text, time_in_turn, Timing, ROUNDS};
use super::Findings;

/// The times of a row, in the order of the sides.
type Timings = [Timing; NAMES.len()];

pub fn print<S: Sides>(table: &Table<S>, seed: u64, findings: &mut Findings) {
    print_head(table.title, table.unit);
    table.for_each_row(seed, &mut |row| {
        let timings = time(row, table.unit);
        findings.agreed &= agree(&timings);
        println!(
            "| {} | {} | {} |",
            row.name,
            row.flags,
            fields(&timings, row, table.unit)
        );
        if row.is_charted {
            let [rust, called, port, _, rattle] = &timings;
            findings.bars.push(Bars {
                label: label(table.short, row),
                called: Some(called.to(rust)),
                port: Some(port.to(rust)),
                rattle: rattle.to(rust),
            });
        }
    });
}

fn print_head(title: &str, unit: Unit) {
    let [others @ .., rattle] = NAMES;
    let ratios = others.map(|name| format!("{rattle} / {}", name.to_lowercase()));
    let (unit, per_cell) = match unit {
        Unit::Byte => ("byte", " ns per cell, in this order |"),
        Unit::Call => ("call", ""),
    };
    println!("\n**{title}**, ns per {unit}: median of {ROUNDS} rounds (least to most).\n");
    let head = format!(
        "| Cells | Flags | {} | {} |{per_cell}",
        NAMES.join(" | "),
        ratios.join(" | ")
    );
    println!("{head}");
    println!("|{}", "---|".repeat(head.matches('|').count() - 1));
}

fn time(row: &Row, unit: Unit) -> Timings {
    let units = match unit {
        Unit::Byte => row.cells.bytes(),
        Unit::Call => row.calls,
    };
    let ways = row.sides.each_ref().map(|side| side.as_ref());
    time_in_turn(ways, units, row.passes)
}

fn label(short: &str, row: &Row) -> String {
    let name = row.name.replace('`', "");
    let flags = match row.flags {
        "none" => "no flags",
        flags => flags,
    };
    format!("{short}: {name}, {flags}")
}

fn fields(timings: &Timings, row: &Row, unit: Unit) -> String {
    let times = timings.each_ref().map(Timing::cell);
    let [others @ .., rattle] = timings;
    let ratios = others
        .each_ref()
        .map(|other| ratio_text(rattle.ratio(other)));
    let fields = [times.join(" | "), ratios.join(" | ")].join(" | ");
    if unit == Unit::Call {
        return fields;
    }
    let length = row.cells.bytes() as f64 / row.cells.parts.len() as f64;
    let per_cell = timings
        .each_ref()
        .map(|timing| short(timing.median() * length));
    format!("{fields} | {}", per_cell.join(", "))
}

/// A time with no more places than tell something.
fn short(time: f64) -> String {
    if time < 1000.0 {
        format!("{time:.1}")
    } else {
        format!("{time:.0}")
    }
}
